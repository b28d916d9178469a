//! Which conditions keep a charter from being no looser than another: found place by place, without the walk of the independent
//! implementation.

use crate::purposes::ALL;
use independent::charter::{self, Node};
use std::collections::{BTreeMap, BTreeSet};
use velimhaw::{CHARTER_MAX, GROUPS, UNLIMITED};

/// One of two charters that are compared.
#[derive(Clone, Copy, PartialEq, Eq, PartialOrd, Ord, Debug)]
pub enum Side {
    First,
    Second,
}

/// A condition that fails.
#[derive(Clone, Copy, PartialEq, Eq, PartialOrd, Ord, Debug)]
pub enum Condition {
    /// One of them has more than 4,096 bytes.
    Length(Side),
    /// One of them fails a question of 11 to 15.
    Question(Side, u32),
    /// A tree of the first has none for its kind in the second.
    Kind,
    /// A node has more or fewer children.
    Children,
    /// A node has another group.
    Group,
    Read,
    Write,
    Access,
    /// A count for a group that the second does not list.
    AbsentCount,
    FiniteCount,
    UnlimitedCount,
    /// A purpose of 0 to 7.
    LowPurpose,
    /// A purpose of 8 to 15.
    HighPurpose,
    Nondisclose,
}

/// The conditions that fail for two charters; those of trees and nodes where both read.
pub fn failing(first: &[u8], second: &[u8]) -> BTreeSet<Condition> {
    let mut failing = BTreeSet::new();
    for (side, bytes) in [(Side::First, first), (Side::Second, second)] {
        failing.extend((bytes.len() > CHARTER_MAX).then_some(Condition::Length(side)));
        let passes = charter::read(bytes).and_then(|charter| charter.check());
        failing.extend(passes.err().map(|number| Condition::Question(side, number)));
    }
    if let (Ok(first), Ok(second)) = (charter::read(first), charter::read(second)) {
        for tree in &first.trees {
            match second.tree(tree.kind) {
                Some(other) => failing.extend(in_tree(&tree.root, &other.root)),
                None => drop(failing.insert(Condition::Kind)),
            }
        }
    }
    failing
}

/// A place in a tree: which child of which child.
type Place = Vec<usize>;

fn in_tree(first: &Node, second: &Node) -> BTreeSet<Condition> {
    let (first, second) = (places(first), places(second));
    let mut failing = BTreeSet::new();
    failing.extend((!first.keys().eq(second.keys())).then_some(Condition::Children));
    for (place, node) in first {
        match second.get(&place) {
            Some(other) if other.group != node.group => drop(failing.insert(Condition::Group)),
            Some(other) => failing.extend(at_node(node, other)),
            None => {}
        }
    }
    failing
}

/// A tree's nodes by their places.
fn places(root: &Node) -> BTreeMap<Place, &Node> {
    let mut places = BTreeMap::from([(Place::new(), root)]);
    for (at, child) in root.children.iter().enumerate() {
        places.extend(self::places(child).into_iter().map(|(place, node)| ([vec![at], place].concat(), node)));
    }
    places
}

fn at_node(first: &Node, second: &Node) -> Vec<Condition> {
    let flags = first.grant.map() & !second.grant.map();
    let purposes = first.purposes.unwrap_or(ALL) & !second.purposes.unwrap_or(ALL);
    let told = [
        (flags & 1 != 0, Condition::Read),
        (flags & 2 != 0, Condition::Write),
        (flags & 4 != 0, Condition::Access),
        (purposes & 0x00ff != 0, Condition::LowPurpose),
        (purposes & 0xff00 != 0, Condition::HighPurpose),
        (second.nondisclose && !first.nondisclose, Condition::Nondisclose),
    ];
    let stored = |node: &Node, group: u8| node.grant.count(group).stored();
    let counts = (0..GROUPS).filter_map(|group| too_high(stored(first, group), stored(second, group)));
    told.into_iter().filter(|(fails, _)| *fails).map(|(_, condition)| condition).chain(counts).collect()
}

/// How the first of two counts, as they are stored, is too high, 0 being none.
fn too_high(first: u16, second: u16) -> Option<Condition> {
    match (first, second) {
        _ if first <= second => None,
        (_, 0) => Some(Condition::AbsentCount),
        (UNLIMITED, _) => Some(Condition::UnlimitedCount),
        _ => Some(Condition::FiniteCount),
    }
}
