//! The inputs of the benchmark: sheets of a wanted size, their charters, and scripts. All components have purpose 0.

use independent::dialect::Dialect;
use independent::sheet;

/// Example W.
pub const W_SHEET: [u8; 31] = [
    2, 2, 0, 0, 0, 1, 0, 0, 2, 0, 1, 4, 1, 0, 6, 0, 1, 0, 4, 2, 0, 5, 0, 1, 0, 0, 5, 2, 0, 0, 0,
];
pub const W_CHARTER: [u8; 15] = [1, 0, 0, 8, 2, 1, 0x10, 1, 0, 1, 0, 0, 2, 5, 0];

/// A sheet of exactly `size` bytes: components below group 0 that receive and send links and data of `kinds` kinds.
pub fn sheet(size: usize, components: usize, kinds: usize) -> Vec<u8> {
    let mut out = vec![2 * kinds as u8];
    for kind in 0..kinds as u8 {
        out.extend_from_slice(&[2, 0, 0, kind, 1, 0, kind]);
    }
    out.extend_from_slice(&[2, 0]);
    let frames = (components - 1) + 4 * components;
    let bodies = size - out.len() - frames;
    let mut number = 0;
    parallel(&mut out, components, &mut |out| {
        let end = bodies * (number + 1) / components - bodies * number / components;
        component(out, number, end, kinds);
        number += 1;
    });
    assert_eq!(out.len(), size);
    out
}

/// A sheet without its purposes.
pub fn old_form(sheet: &[u8]) -> Vec<u8> {
    sheet::read(sheet).expect("a sheet that reads").write(Dialect::Old)
}

/// So many parts in parallel, as evenly nested as can be.
pub fn parallel(out: &mut Vec<u8>, count: usize, part: &mut dyn FnMut(&mut Vec<u8>)) {
    if count <= 1 {
        return part(out);
    }
    out.push(1);
    parallel(out, count / 2, part);
    parallel(out, count - count / 2, part);
}

/// A component whose acts take exactly `left` bytes.
fn component(out: &mut Vec<u8>, number: usize, mut left: usize, kinds: usize) {
    out.extend_from_slice(&[4, 1 + (number % 3) as u8, 0]);
    let mut bound = 2 * kinds as u8;
    let mut kind = number % kinds;
    while left > 0 {
        let (link, data) = (2 * kind as u8, 2 * kind as u8 + 1);
        let start = out.len();
        if left > 24 {
            out.extend_from_slice(&[6, link, data, 5, link, 1, 0, kind as u8, 6, link, bound]);
            bound += 1;
        } else if left.is_multiple_of(3) {
            out.extend_from_slice(&[6, link, data]);
        } else {
            out.extend_from_slice(&[5, data, 0, kind as u8]);
            bound += 1;
        }
        left -= out.len() - start;
        kind = (kind + 1) % kinds;
    }
    out.push(0);
}

/// A charter for such a sheet: for each kind a root and three nodes below it.
pub fn charter(kinds: usize) -> Vec<u8> {
    let mut out = vec![kinds as u8];
    for kind in 0..kinds as u8 {
        out.extend_from_slice(&[kind, 0, 0x13, 1, 0, 0xff, 0x0f, 3]);
        for group in 1..4 {
            out.extend_from_slice(&[group, 0x14, 1, 0, 1, 0, 0]);
        }
    }
    out
}

/// A sheet with so many idle repeats before a repeated send and a repeated receive.
pub fn running_sheet(idle: usize) -> Vec<u8> {
    let mut out = vec![2, 1, 0, 0, 0, 0, 4, 0, 0];
    if idle > 0 {
        out.push(1);
        parallel(&mut out, idle, &mut |out| out.extend_from_slice(&[7, 0]));
    }
    out.extend_from_slice(&[1, 7, 6, 0, 1, 0, 7, 5, 0, 0, 0, 0]);
    out
}

/// A charter that lets component 0 read and write kind 0.
pub const RUNNING_CHARTER: [u8; 5] = [1, 0, 0, 3, 0];

/// So many moves: unfoldings of the send and of the receive, and their communication, over and over.
pub fn running_script(moves: usize, idle: usize) -> Vec<u8> {
    let at = idle as u8;
    let turn: [&[u8]; 3] = [&[1, at], &[1, at + 2], &[4, at, at + 2]];
    (0..moves).flat_map(|i| turn[i % 3].to_vec()).collect()
}

/// A sheet of `size` bytes with one repeat: two sends, and after them a text of sends side by side that is never reached.
pub fn text_sheet(size: usize) -> Vec<u8> {
    let mut out = vec![2, 1, 0, 0, 0, 0, 4, 0, 0, 7, 6, 0, 1, 6, 0, 1];
    let sends = (size - out.len() + 1) / 5;
    parallel(&mut out, sends, &mut |out| out.extend_from_slice(&[6, 0, 1, 0]));
    out
}

/// Moves on such a sheet: so many unfoldings, each of which puts a copy before the repeat, then the first send of each copy.
pub fn text_script(copies: u8) -> Vec<u8> {
    let unfoldings = (0..copies).flat_map(|i| [1, i]);
    unfoldings.chain((0..copies).flat_map(|i| [2, i])).collect()
}

/// A sheet of so many components with a path of eight groups; each receives a link, sends it on, and reads and writes through it.
pub fn deep_sheet(components: usize) -> Vec<u8> {
    let mut out = vec![2, 2, 0, 0, 0, 1, 0, 0];
    for group in 0..7 {
        out.extend_from_slice(&[2, group]);
    }
    parallel(&mut out, components, &mut |out| {
        out.extend_from_slice(&[4, 7, 0, 5, 0, 1, 0, 0, 6, 0, 2, 5, 2, 0, 0, 6, 2, 3, 0]);
    });
    out
}

/// A charter for such a sheet of so many components, which share one count: one tree of 64 nodes, in which 56 that the path does not reach
/// stand before those below the root that it reaches.
pub fn deep_charter(components: usize) -> Vec<u8> {
    let mut out = vec![1, 0, 0, 0x10, 1, 0, components as u8, 0, 57];
    for group in 8..64 {
        out.extend_from_slice(&[group, 0x00, 0]);
    }
    for group in 1..7 {
        out.extend_from_slice(&[group, 0x00, 1]);
    }
    out.extend_from_slice(&[7, 0x07, 0]);
    out
}
