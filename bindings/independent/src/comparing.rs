//! Whether a charter is no looser than another, as trees: each tree beside the other charter's for its kind, node by node.

use crate::charter::{self, Charter, Node};
use crate::sheet::PURPOSES;
use crate::LONGEST;

/// Whether charter `a` is no looser than charter `b`; no where one of them is too long or fails a question of 11 to 15.
pub fn no_looser(a: &[u8], b: &[u8]) -> bool {
    match (passing(a), passing(b)) {
        (Some(a), Some(b)) => a.trees.iter().all(|tree| b.tree(tree.kind).is_some_and(|other| node_no_looser(&tree.root, &other.root))),
        _ => false,
    }
}

/// The charter, if it has at most 4,096 bytes and passes 11 to 15.
fn passing(bytes: &[u8]) -> Option<Charter> {
    if bytes.len() > LONGEST {
        return None;
    }
    charter::read(bytes).ok().filter(|charter| charter.check().is_ok())
}

/// Whether two nodes have the same group and children of the same groups in the same order, to the last one below them, and each of the
/// first is no looser than its like.
fn node_no_looser(a: &Node, b: &Node) -> bool {
    let mut children = a.children.iter().zip(&b.children);
    a.group == b.group
        && a.grant.within(&b.grant)
        && purposes_within(a, b)
        && (a.nondisclose || !b.nondisclose)
        && a.children.len() == b.children.len()
        && children.all(|(a, b)| node_no_looser(a, b))
}

/// Whether each purpose that a node serves is served by another.
fn purposes_within(a: &Node, b: &Node) -> bool {
    (0..PURPOSES).all(|purpose| b.serves(purpose) || !a.serves(purpose))
}
