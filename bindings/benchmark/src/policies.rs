//! Charters to compare, each of a wanted shape and with one count in all its lists: of two, that with the lower count is no looser.

/// 16 trees, each a root and three nodes below it, rising by their kinds or falling.
pub fn trees(count: u8, falling: bool) -> Vec<u8> {
    let mut out = vec![16];
    for turn in 0..16 {
        out.push(if falling { 15 - turn } else { turn });
        for group in 0..4 {
            node(&mut out, group, 1, count, None, if group == 0 { 3 } else { 0 });
        }
    }
    out
}

/// A root and 20 children with counts for 64 groups each, the last for 56: 4,096 bytes.
pub fn long_lists(count: u8) -> Vec<u8> {
    let mut out = vec![1, 0];
    for group in 0..21 {
        let (items, purposes) = if group < 20 { (64, None) } else { (56, Some([1, 0])) };
        node(&mut out, group, items, count, purposes, if group == 0 { 20 } else { 0 });
    }
    assert_eq!(out.len(), 4096);
    out
}

/// One tree of so many nodes, 64 bytes for each, with counts for about 20 groups: below the root chains of seven, the last maybe shorter.
pub fn deep_and_wide(nodes: usize, count: u8) -> Vec<u8> {
    let mut out = vec![1, 0];
    for number in 0..nodes {
        let children = match number {
            0 => (nodes - 1).div_ceil(7),
            _ => (number % 7 != 0 && number + 1 < nodes) as usize,
        };
        let (items, purposes) = match number {
            0 => (18, Some([0xff, 0xff])),
            1 => (20, Some([1, 0])),
            _ => (20, None),
        };
        node(&mut out, number as u8, items, count, purposes, children as u8);
    }
    assert_eq!(out.len(), 64 * nodes);
    out
}

/// Appends a node that may read, with a count for each of the first so many groups, purposes or none, and so many children.
fn node(out: &mut Vec<u8>, group: u8, items: u8, count: u8, purposes: Option<[u8; 2]>, children: u8) {
    out.extend([group, if purposes.is_some() { 0x31 } else { 0x11 }, items]);
    (0..items).for_each(|into| out.extend([into, count, 0]));
    out.extend(purposes.into_iter().flatten());
    out.push(children);
}
