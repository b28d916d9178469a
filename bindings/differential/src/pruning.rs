//! Prunes the charters of a failing case alike, so that they stay comparable: a tree, a node, a list, an item of one or a map of purposes
//! is taken from all of them, or from one.

use crate::case::Case;
use crate::charters::each_node;
use independent::charter::{self, Charter, Node};
use std::collections::BTreeSet;

/// What is taken away of a kind's tree: the map of purposes, an item or the list of a group's nodes, the node at a place, a group's nodes, or
/// the tree. A node goes with those below it. They are tried from the last on.
#[derive(Clone, PartialEq, Eq, PartialOrd, Ord)]
enum Cut {
    Map(u8, u8),
    Item(u8, u8, u8),
    List(u8, u8),
    Node(u8, Vec<usize>),
    Group(u8, u8),
    Tree(u8),
}

/// The fields of a case that hold its charters.
pub const CHARTERS: [fn(&mut Case) -> &mut Vec<u8>; 3] = [|case| &mut case.stricter, |case| &mut case.charter, |case| &mut case.looser];

/// The case without what its charters can do without while `fails` holds.
pub fn prune(case: Case, fails: &dyn Fn(&Case) -> bool) -> Case {
    let mut best = case;
    for cut in cuts(&mut best.clone()).iter().rev() {
        let alone = CHARTERS.iter().map(std::slice::from_ref);
        for fields in [&CHARTERS[..]].into_iter().chain(alone) {
            let mut other = best.clone();
            let made = fields.iter().filter(|field| made(cut, field(&mut other))).count();
            if made > 0 && fails(&other) {
                best = other;
            }
        }
    }
    best
}

/// What can be taken away from the charters that read.
fn cuts(case: &mut Case) -> BTreeSet<Cut> {
    let charters = CHARTERS.iter().filter_map(|field| charter::read(field(case)).ok());
    let trees: Vec<_> = charters.flat_map(|charter| charter.trees).collect();
    let mut cuts = BTreeSet::new();
    for tree in &trees {
        cuts.insert(Cut::Tree(tree.kind));
        note(&mut cuts, tree.kind, &tree.root, Vec::new());
    }
    cuts
}

/// Adds what can be taken away at a node and below it.
fn note(cuts: &mut BTreeSet<Cut>, kind: u8, node: &Node, place: Vec<usize>) {
    let group = node.group;
    cuts.extend(node.grant.disclose.keys().map(|&into| Cut::Item(kind, group, into)));
    cuts.extend([Cut::Map(kind, group), Cut::List(kind, group), Cut::Group(kind, group)]);
    for (at, child) in node.children.iter().enumerate() {
        let place = [&place[..], &[at]].concat();
        cuts.insert(Cut::Node(kind, place.clone()));
        note(cuts, kind, child, place);
    }
}

/// Takes something away from a stored charter, if that reads and has it.
fn made(cut: &Cut, bytes: &mut Vec<u8>) -> bool {
    let Ok(mut charter) = charter::read(bytes) else { return false };
    make(cut, &mut charter);
    let shorter = charter.write();
    let changed = shorter != *bytes;
    *bytes = shorter;
    changed
}

fn make(cut: &Cut, charter: &mut Charter) {
    match cut {
        Cut::Tree(kind) => charter.trees.retain(|tree| tree.kind != *kind),
        Cut::Group(kind, group) => at_nodes(charter, *kind, &|node| node.children.retain(|child| child.group != *group)),
        Cut::Node(kind, place) => roots(charter, *kind).for_each(|root| remove(root, place)),
        Cut::List(kind, group) => at_group(charter, *kind, *group, &|node| node.grant.disclose.clear()),
        Cut::Item(kind, group, into) => at_group(charter, *kind, *group, &|node| node.grant.disclose.retain(|other, _| other != into)),
        Cut::Map(kind, group) => at_group(charter, *kind, *group, &|node| node.purposes = None),
    }
}

fn roots(charter: &mut Charter, kind: u8) -> impl Iterator<Item = &mut Node> {
    charter.trees.iter_mut().filter(move |tree| tree.kind == kind).map(|tree| &mut tree.root)
}

fn at_nodes(charter: &mut Charter, kind: u8, change: &dyn Fn(&mut Node)) {
    roots(charter, kind).for_each(|root| each_node(root, &mut |node| change(node)));
}

fn at_group(charter: &mut Charter, kind: u8, group: u8, change: &dyn Fn(&mut Node)) {
    at_nodes(charter, kind, &|node| if node.group == group { change(node) });
}

/// Takes the node at a place, which is not the root, away with those below it.
fn remove(node: &mut Node, place: &[usize]) {
    match *place {
        [at] if at < node.children.len() => drop(node.children.remove(at)),
        [at, ref rest @ ..] if at < node.children.len() => remove(&mut node.children[at], rest),
        _ => {}
    }
}
