//! Tests the service that compares charters: each condition on both sides, charters that do not pass, and lengths.
mod w;

use velimhaw::*;

/// Whether the first of two charters is no looser than the second, and the second than the first.
fn both_ways(a: &[u8], b: &[u8]) -> [bool; 2] {
    [no_looser(a, b), no_looser(b, a)]
}

#[test]
fn a_stricter_charter_of_w() {
    assert_eq!(both_ways(&w::STRICT_CHARTER, &w::CHARTER), [true, false]);
    assert_eq!(both_ways(&w::CHARTER, &w::CHARTER), [true, true]);
    assert_eq!(both_ways(&[0], &w::CHARTER), [true, false]);
    for length in 0..w::CHARTER.len() {
        let cut = &w::CHARTER[..length];
        assert_eq!([both_ways(cut, &w::CHARTER), both_ways(cut, cut)], [[false; 2]; 2]);
    }
}

#[test]
fn each_condition_on_both_sides() {
    let stricter: [[&[u8]; 2]; 9] = [
        [&[1, 0, 0, 0, 0], &[1, 0, 0, 1, 0]],                                  // read
        [&[1, 0, 0, 0, 0], &[1, 0, 0, 2, 0]],                                  // write
        [&[1, 0, 0, 0, 0], &[1, 0, 0, 4, 0]],                                  // access
        [&[1, 0, 0, 0, 0], &[1, 0, 0, 16, 1, 5, 1, 0, 0]],                     // a group more
        [&[1, 0, 0, 16, 1, 5, 255, 0, 0], &[1, 0, 0, 16, 1, 5, 0, 1, 0]],      // a larger count
        [&[1, 0, 0, 16, 1, 5, 255, 15, 0], &[1, 0, 0, 16, 1, 5, 255, 255, 0]], // an unlimited one
        [&[1, 0, 0, 32, 255, 127, 0], &[1, 0, 0, 0, 0]],                       // a purpose more
        [&[1, 0, 0, 8, 0], &[1, 0, 0, 0, 0]],                                  // nondisclose
        [&[1, 1, 0, 0, 0], &[2, 0, 0, 0, 0, 1, 0, 0, 0]],                      // a tree more
    ];
    stricter.iter().for_each(|[a, b]| assert_eq!(both_ways(a, b), [true, false], "{a:?} and {b:?}"));
    let apart: [[&[u8]; 2]; 5] = [
        [&[1, 0, 0, 0, 0], &[1, 1, 0, 0, 0]],                                     // another kind
        [&[1, 0, 0, 0, 0], &[1, 0, 1, 0, 0]],                                     // another group
        [&[1, 0, 0, 0, 0], &[1, 0, 0, 0, 1, 1, 0, 0]],                            // a child more
        [&[1, 0, 0, 0, 2, 1, 0, 0, 2, 0, 0], &[1, 0, 0, 0, 2, 2, 0, 0, 1, 0, 0]], // another order
        [&[1, 0, 0, 0, 2, 1, 0, 0, 2, 0, 0], &[1, 0, 0, 0, 1, 1, 0, 1, 2, 0, 0]], // another nesting
    ];
    apart.iter().for_each(|[a, b]| assert_eq!(both_ways(a, b), [false, false], "{a:?} and {b:?}"));
    let alike: [[&[u8]; 2]; 2] = [
        [&[1, 0, 0, 0, 0], &[1, 0, 0, 32, 255, 255, 0]],              // all purposes, with a map and without
        [&[2, 0, 0, 1, 0, 1, 0, 2, 0], &[2, 1, 0, 2, 0, 0, 0, 1, 0]], // trees in another order
    ];
    alike.iter().for_each(|[a, b]| assert_eq!(both_ways(a, b), [true, true], "{a:?} and {b:?}"));
}

#[test]
fn charters_that_do_not_pass() {
    let failing: [&[u8]; 6] = [
        &[],
        &[1, 0, 0, 64, 0],
        &[2, 0, 0, 0, 0, 0, 0, 0, 0],
        &[1, 0, 0, 0, 1, 0, 0, 0],
        &[1, 0, 0, 0, 2, 1, 0, 0, 1, 1, 0],
        &[1, 0, 0, 8, 1, 1, 16, 1, 5, 1, 0, 0],
    ];
    for charter in failing {
        for other in [charter, &[0], &w::CHARTER] {
            assert_eq!(both_ways(charter, other), [false, false], "{charter:?} and {other:?}");
        }
    }
}

/// A charter of 4,096 or 4,097 bytes: a root and 20 children with a count for each of 64 groups, the last for fewer; in the shorter one it
/// has purposes too.
fn long(length: usize) -> Vec<u8> {
    let mut out = vec![1, 0];
    for group in 0..21 {
        let left = length - out.len();
        let (map, items) = match group {
            20 if left.is_multiple_of(3) => (0x30, (left - 6) / 3),
            20 => (0x10, (left - 4) / 3),
            _ => (0x10, 64),
        };
        out.extend([group, map, items as u8]);
        (0..items).for_each(|into| out.extend([into as u8, 1, 0]));
        out.extend(if map == 0x30 { &[1, 0x80][..] } else { &[] });
        out.push(if group == 0 { 20 } else { 0 });
    }
    out
}

#[test]
fn a_charter_has_at_most_4096_bytes() {
    let (longest, longer) = (long(CHARTER_MAX), long(CHARTER_MAX + 1));
    assert_eq!((longest.len(), longer.len()), (CHARTER_MAX, CHARTER_MAX + 1));
    assert_eq!(both_ways(&longest, &longest), [true, true]);
    assert_eq!(both_ways(&longer, &longer), [false, false]);
    assert_eq!([both_ways(&[0], &longest), both_ways(&[0], &longer)], [[true, false], [false, false]]);
}
