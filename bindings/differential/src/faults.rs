//! Which nodes of a charter fail question 13 or 14, and what comes together there: for the totals, found without the walk of the
//! independent implementation.

use independent::charter::{Charter, Node, Tree};
use std::collections::BTreeSet;

/// A node that fails: the place of its tree, and which of the two it fails.
struct Fault {
    tree: usize,
    thirteen: bool,
    fourteen: bool,
}

/// What of a charter's faults is worth counting; nothing where no node fails 13 or 14.
pub fn met(charter: &Charter) -> Vec<&'static str> {
    let faults = faults(charter);
    let kinds: BTreeSet<u8> = charter.trees.iter().map(|tree| tree.kind).collect();
    let open = charter.trees.iter().any(|tree| nodes(&tree.root).into_iter().any(broken_fence));
    let both = faults.iter().any(|fault| fault.thirteen && fault.fourteen);
    let told = [
        (true, "all"),
        (faults.len() > 1, "several nodes"),
        (both, "both at one node"),
        (kinds.len() < charter.trees.len(), "with 12"),
        (open, "with 15"),
    ];
    let told = told.into_iter().filter(|(holds, _)| *holds && !faults.is_empty()).map(|(_, what)| what);
    told.chain(order(&faults)).collect()
}

/// Where some node fails only 13 and some node 14: which of them comes first, and whether in one tree.
fn order(faults: &[Fault]) -> Option<&'static str> {
    let first = |fourteen: bool| faults.iter().position(|fault| fault.fourteen == fourteen);
    let (thirteen, fourteen) = (first(false)?, first(true)?);
    Some(match (thirteen < fourteen, faults[thirteen].tree == faults[fourteen].tree) {
        (true, true) => "13 before 14",
        (true, false) => "13 before 14, two trees",
        (false, true) => "14 before 13",
        (false, false) => "14 before 13, two trees",
    })
}

/// The nodes that fail, in reading order.
fn faults(charter: &Charter) -> Vec<Fault> {
    let mut faults = Vec::new();
    for (tree, root) in charter.trees.iter().map(|tree| &tree.root).enumerate() {
        let nodes = nodes(root);
        for (at, &node) in nodes.iter().enumerate() {
            let alike = |other: &&&Node| other.group == node.group;
            let mut earlier = nodes[..at].iter().filter(alike);
            let thirteen = earlier.clone().any(|other| below(other).any(|lower| std::ptr::eq(lower, node)));
            let fourteen = earlier.any(|other| stored(other) != stored(node));
            if thirteen || fourteen {
                faults.push(Fault { tree, thirteen, fourteen });
            }
        }
    }
    faults
}

/// What question 14 compares, as it is stored: the bytes of a node before its count of children.
fn stored(node: &Node) -> Vec<u8> {
    let alone = Node { children: Vec::new(), ..node.clone() };
    Charter { trees: vec![Tree { kind: 0, root: alone }] }.write()
}

fn broken_fence(node: &Node) -> bool {
    let groups: Vec<u8> = nodes(node).iter().map(|node| node.group).collect();
    node.nondisclose && below(node).any(|lower| lower.grant.disclose.keys().any(|group| !groups.contains(group)))
}

/// A node and those below it, in reading order.
fn nodes(node: &Node) -> Vec<&Node> {
    let mut nodes = Vec::new();
    node.visit(&mut |node| nodes.push(node));
    nodes
}

fn below(node: &Node) -> impl Iterator<Item = &Node> {
    nodes(node).into_iter().skip(1)
}
