//! Generates purposes: those of a sheet's components, few enough that several have the same, and a charter's maps of purposes.

use crate::charters::each_node;
use crate::random::Random;
use independent::charter::Node;
use independent::sheet::PURPOSES;

/// All purposes, as a map.
pub const ALL: u16 = 0xffff;

/// The purposes among which a sheet's components choose: ordinary work alone, or a few.
pub fn choice(random: &mut Random) -> Vec<u8> {
    let (one, other) = (any(random), any(random));
    match random.below(10) {
        0..=3 => vec![0],
        4..=5 => vec![0, one],
        6..=7 => vec![0, 0, one, other],
        8 => vec![one],
        _ => (0..PURPOSES).collect(),
    }
}

/// Any purpose, those at the ends of a map's bytes more often.
fn any(random: &mut Random) -> u8 {
    if random.chance(50) { random.pick(&[1, 7, 8, 14, 15]) } else { random.below(PURPOSES as usize) as u8 }
}

/// A byte that is no purpose, those at the ends of the range more often.
pub fn beyond(random: &mut Random) -> u8 {
    if random.chance(50) { random.pick(&[16, 17, 31, 255]) } else { random.between(16, 255) as u8 }
}

/// A map for a group of a tree, none, all, some of the purposes that the tree is to serve, or any.
pub fn map(random: &mut Random, served: &[u8]) -> Option<u16> {
    match random.below(10) {
        0..=3 => None,
        4 => Some(ALL),
        5 => Some(0),
        6..=8 => Some(served.iter().filter(|_| random.chance(50)).fold(0, |map, &purpose| map | bit(purpose))),
        _ => Some(random.next() as u16),
    }
}

/// The map of one purpose.
pub fn bit(purpose: u8) -> u16 {
    1 << purpose
}

/// Changes a node's map: puts one there or takes it away, or turns a bit of it or its bytes round.
pub fn change(random: &mut Random, node: &mut Node) {
    let turned = bit(any(random));
    node.purposes = match node.purposes {
        None => Some(random.pick(&[ALL, ALL ^ turned, ALL ^ 1, turned, 1, 0])),
        Some(_) if random.chance(20) => random.pick(&[None, None, Some(ALL), Some(0)]),
        Some(map) if random.chance(15) => Some(map.swap_bytes()),
        Some(map) => Some(map ^ turned),
    };
}

/// Takes a purpose away from the nodes of a tree, of those that have no map too.
pub fn withhold(root: &mut Node, purpose: u8) {
    each_node(root, &mut |node| node.purposes = Some(node.purposes.unwrap_or(ALL) & !bit(purpose)));
}
