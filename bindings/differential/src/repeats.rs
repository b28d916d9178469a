//! Charters with several faults: groups that come again, below themselves (question 13) or with other permissions (14), in two or more
//! trees, and now and then a broken fence (15) or a kind twice (12) besides.

use crate::charters::{change_count, change_flag, new_node};
use crate::growing::spare_kind;
use crate::purposes;
use crate::random::Random;
use independent::charter::{Charter, Node, Tree};

/// Adds nodes to a charter, most of them of groups that are there already, and trees where it has too few.
pub fn repeat(random: &mut Random, charter: &mut Charter) {
    let wanted = random.between(2, 4);
    while charter.trees.len() < wanted {
        let kind = spare_kind(random, charter).expect("a kind without a tree");
        charter.trees.push(Tree { kind, root: new_node(random) });
    }
    let trees = if random.chance(50) { charter.trees.len() } else { 1 };
    (0..random.between(2, 10)).for_each(|_| add(random, &mut charter.trees[..trees]));
    if random.chance(25) {
        break_fence(random, charter);
    }
    random.shuffle(&mut charter.trees);
    if random.chance(15) {
        let at = random.between(1, charter.trees.len() - 1);
        charter.trees[at].kind = charter.trees[0].kind;
    }
}

/// Adds a node to one of some trees.
fn add(random: &mut Random, trees: &mut [Tree]) {
    let root = &mut trees[random.below(trees.len())].root;
    let mut all = Vec::new();
    root.visit(&mut |node| all.push(head(node)));
    add_below(random, root, &mut Vec::new(), &all);
}

/// Goes down from a node and adds a child somewhere: of a group above it, of one of all the tree's, or of a new one; with the permissions
/// that the group has there, or with others.
fn add_below(random: &mut Random, node: &mut Node, above: &mut Vec<Node>, all: &[Node]) {
    above.push(head(node));
    if !node.children.is_empty() && random.chance(60) {
        let at = random.below(node.children.len());
        return add_below(random, &mut node.children[at], above, all);
    }
    let mut child = match random.below(10) {
        0..=1 => above[random.below(above.len())].clone(),
        2..=5 => all[random.below(all.len())].clone(),
        _ => new_node(random),
    };
    if random.chance(40) {
        differ(random, &mut child);
    }
    node.children.insert(random.below(node.children.len() + 1), child);
}

/// A node without its children.
fn head(node: &Node) -> Node {
    Node { group: node.group, grant: node.grant.clone(), nondisclose: node.nondisclose, purposes: node.purposes, children: Vec::new() }
}

fn differ(random: &mut Random, node: &mut Node) {
    match random.below(5) {
        0 => node.nondisclose = !node.nondisclose,
        1 => change_flag(random, node),
        2 => purposes::change(random, node),
        _ => change_count(random, node),
    }
}

/// Adds, below some root, a node with nondisclose and below it one that discloses to some group.
fn break_fence(random: &mut Random, charter: &mut Charter) {
    let (mut fence, mut inside) = (new_node(random), new_node(random));
    fence.nondisclose = true;
    change_count(random, &mut inside);
    fence.children.push(inside);
    let at = random.below(charter.trees.len());
    let children = &mut charter.trees[at].root.children;
    children.insert(random.below(children.len() + 1), fence);
}
