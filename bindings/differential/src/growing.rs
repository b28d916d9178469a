//! Grows charters: adds nodes and trees with any permissions, deep and wide, groups at several nodes, fences that hold.

use crate::charters::{groups_of, new_node};
use crate::classes::put;
use crate::purposes;
use crate::random::Random;
use independent::charter::{self, Charter, Node, Tree};
use independent::permissions::Count;

/// A charter that passes 11 to 15, with few trees or all sixteen.
pub fn charter(random: &mut Random) -> Charter {
    let mut charter = Charter { trees: Vec::new() };
    (0..random.pick(&[0, 1, 1, 1, 2, 3, 16])).for_each(|_| add_tree(random, &mut charter));
    let nodes = random.pick(&[0, 2, 5, 12, 60]);
    grow(random, &mut charter, nodes);
    charter
}

/// Adds up to so many nodes, a tree now and then.
pub fn grow(random: &mut Random, charter: &mut Charter, nodes: usize) {
    for _ in 0..nodes {
        let add: fn(&mut Random, &mut Charter) = if random.chance(10) { add_tree } else { add_node };
        keep(charter, |charter| add(random, charter));
    }
}

/// Makes a change, but none by which a charter that passes 11 to 15 would fail.
pub fn keep(charter: &mut Charter, change: impl FnOnce(&mut Charter)) {
    let mut changed = charter.clone();
    change(&mut changed);
    if passes(&changed) || !passes(charter) {
        *charter = changed;
    }
}

fn passes(charter: &Charter) -> bool {
    charter::read(&charter.write()).is_ok_and(|charter| charter.check().is_ok())
}

/// Adds a tree of one node for a kind that has none.
pub fn add_tree(random: &mut Random, charter: &mut Charter) {
    if let Some(kind) = spare_kind(random, charter) {
        let tree = Tree { kind, root: any_node(random, &[]) };
        charter.trees.insert(random.below(charter.trees.len() + 1), tree);
    }
}

/// A kind that a charter has no tree for.
pub fn spare_kind(random: &mut Random, charter: &Charter) -> Option<u8> {
    let spare: Vec<u8> = (0..16).filter(|&kind| charter.tree(kind).is_none()).collect();
    (!spare.is_empty()).then(|| random.pick(&spare))
}

/// Adds a child somewhere in some tree: of a group that the tree has, with its permissions, or of any group with any.
pub fn add_node(random: &mut Random, charter: &mut Charter) {
    if charter.trees.is_empty() {
        return;
    }
    let at = random.below(charter.trees.len());
    let root = &mut charter.trees[at].root;
    let mut heads = Vec::new();
    root.visit(&mut |node| heads.push(Node { children: Vec::new(), ..node.clone() }));
    let any = any_node(random, &groups_of(root));
    let wanted = if random.chance(35) { heads[random.below(heads.len())].group } else { any.group };
    let child = heads.into_iter().find(|head| head.group == wanted).unwrap_or(any);
    let (parent, levels) = (some_node(random, root, |_| true), random.below(8));
    if let Some(parent) = parent {
        let parent = deeper(parent, levels);
        parent.children.insert(random.below(parent.children.len() + 1), child);
    }
}

/// The node so many levels below a node, or as many as there are, by the last child of each.
fn deeper(node: &mut Node, levels: usize) -> &mut Node {
    if levels == 0 || node.children.is_empty() {
        return node;
    }
    deeper(node.children.last_mut().expect("a child"), levels - 1)
}

/// A node of any group with any permissions, which mostly discloses into some of these groups.
fn any_node(random: &mut Random, groups: &[u8]) -> Node {
    let mut node = new_node(random);
    node.grant.read = random.chance(40);
    node.grant.write = random.chance(40);
    node.grant.access = random.chance(40);
    node.nondisclose = random.chance(25);
    node.purposes = purposes::map(random, &[0, 1, 7, 8, 15]);
    for _ in 0..random.pick(&[0, 0, 0, 1, 1, 2, 5, 60]) {
        let own = groups.get(random.below(groups.len() + 1)).copied();
        let into = own.filter(|_| random.chance(70)).unwrap_or_else(|| random.below(64) as u8);
        put(&mut node, into, any_count(random));
    }
    node
}

/// A count, those next to where a byte or the range ends more often.
pub fn any_count(random: &mut Random) -> Count {
    let any = random.between(1, 4095) as u32;
    if random.chance(15) { Count::Unlimited } else { Count::Finite(random.pick(&[1, 2, 255, 256, 4094, 4095, any, any])) }
}

/// Some node of a tree that fits, if there is one.
pub fn some_node<'a>(random: &mut Random, root: &'a mut Node, fits: impl Fn(&Node) -> bool) -> Option<&'a mut Node> {
    let (mut fitting, mut number) = (Vec::new(), 0);
    root.visit(&mut |node| {
        fitting.extend(fits(node).then_some(number));
        number += 1;
    });
    let mut chosen = *fitting.get(random.below(fitting.len().max(1)))?;
    numbered(root, &mut chosen)
}

/// The node of such a number in reading order, counted from this one.
fn numbered<'a>(node: &'a mut Node, number: &mut usize) -> Option<&'a mut Node> {
    if *number == 0 {
        return Some(node);
    }
    *number -= 1;
    node.children.iter_mut().find_map(|child| numbered(child, number))
}
