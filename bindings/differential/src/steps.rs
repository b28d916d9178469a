//! Steps from a charter to a looser or a stricter one, in a flag, a count, a purpose, nondisclose or a tree; and steps aside, after which
//! it is neither, or does not pass 11 to 15.

use crate::charters::{each_node, groups_of};
use crate::classes::put;
use crate::growing::{add_node, add_tree, any_count, keep, some_node, spare_kind};
use crate::purposes::{self, ALL};
use crate::random::Random;
use independent::charter::{Charter, Node, Tree};
use independent::permissions::Count;

/// Which way a step goes.
#[derive(Clone, Copy, PartialEq, Eq)]
pub enum Toward {
    Looser,
    Stricter,
}

impl Toward {
    fn other(self) -> Toward {
        if self == Toward::Looser { Toward::Stricter } else { Toward::Looser }
    }
}

/// A change of a node, one way.
type Change = fn(&mut Random, &mut Node, Toward);

const CHANGES: [Change; 8] = [change_flag, change_flag, change_count, change_count, change_count, change_purposes, change_purposes, fence];

/// Takes a step, or none where the charter would then not pass any more.
pub fn step(random: &mut Random, charter: &mut Charter, toward: Toward) {
    let change = random.pick(&CHANGES);
    keep(charter, |charter| match random.below(10) {
        0 => random.shuffle(&mut charter.trees),
        1 => change_trees(random, charter, toward),
        _ => at_group(random, charter, change, toward),
    });
}

/// Takes one step aside: a step the other way, one to other nodes, or one to a charter that does not pass.
pub fn aside(random: &mut Random, charter: &mut Charter, toward: Toward) {
    match random.below(10) {
        0..=4 => step(random, charter, toward.other()),
        5..=7 => keep(charter, |charter| reshape(random, charter)),
        _ => spoil(random, charter, toward),
    }
}

/// Makes the same change at all nodes of some group in some tree.
fn at_group(random: &mut Random, charter: &mut Charter, change: Change, toward: Toward) {
    let Some(tree) = some_tree(random, charter) else { return };
    let (group, same) = (random.pick(&groups_of(&tree.root)), random.next());
    each_node(&mut tree.root, &mut |node| {
        if node.group == group {
            change(&mut Random::new(same, 0), node, toward);
        }
    });
}

fn some_tree<'a>(random: &mut Random, charter: &'a mut Charter) -> Option<&'a mut Tree> {
    let at = random.below(charter.trees.len().max(1));
    charter.trees.get_mut(at)
}

fn change_trees(random: &mut Random, charter: &mut Charter, toward: Toward) {
    match toward {
        Toward::Looser => add_tree(random, charter),
        Toward::Stricter if charter.trees.is_empty() => {}
        Toward::Stricter => drop(charter.trees.remove(random.below(charter.trees.len()))),
    }
}

fn change_flag(random: &mut Random, node: &mut Node, toward: Toward) {
    let grant = &mut node.grant;
    let flags = [&mut grant.read, &mut grant.write, &mut grant.access];
    let mut changeable: Vec<&mut bool> = flags.into_iter().filter(|flag| **flag != (toward == Toward::Looser)).collect();
    if !changeable.is_empty() {
        let at = random.below(changeable.len());
        *changeable[at] = toward == Toward::Looser;
    }
}

/// Raises or lowers the count for a group, by one or by more; of a group that is absent too, and to none.
fn change_count(random: &mut Random, node: &mut Node, toward: Toward) {
    let listed: Vec<u8> = node.grant.disclose.keys().copied().collect();
    let any = random.below(64) as u8;
    let into = if listed.is_empty() || (toward == Toward::Looser && random.chance(40)) { any } else { random.pick(&listed) };
    let (now, other) = (node.grant.count(into), any_count(random));
    let changed = match (toward, now) {
        (Toward::Looser, Count::Finite(n)) if random.chance(40) && n < 4095 => Count::Finite(n + 1),
        (Toward::Looser, _) => other.max(now),
        (Toward::Stricter, Count::Finite(n)) if random.chance(60) => Count::Finite(n.saturating_sub(1)),
        (Toward::Stricter, _) if random.chance(30) => Count::Finite(0),
        (Toward::Stricter, _) => other.min(now),
    };
    put(node, into, changed);
}

/// Adds or takes away a purpose or some, or puts a map of all in the place of none, or none in its place.
fn change_purposes(random: &mut Random, node: &mut Node, toward: Toward) {
    let (now, one, any) = (node.purposes.unwrap_or(ALL), purposes::bit(random.below(16) as u8), random.next() as u16);
    let some = random.pick(&[one, one, any, 0, ALL]);
    let changed = if toward == Toward::Looser { now | some } else { now & !some };
    node.purposes = if changed == ALL { random.pick(&[None, Some(ALL)]) } else { Some(changed) };
}

fn fence(_: &mut Random, node: &mut Node, toward: Toward) {
    node.nondisclose = toward == Toward::Stricter;
}

/// Gives a tree another kind or other nodes: one more or less, another group, sisters exchanged, a child for a sister, a sister for a child.
fn reshape(random: &mut Random, charter: &mut Charter) {
    let spare = spare_kind(random, charter);
    let Some(tree) = some_tree(random, charter) else { return };
    let root = &mut tree.root;
    match random.below(8) {
        0 => tree.kind = spare.unwrap_or(tree.kind),
        1 => add_node(random, charter),
        2 => at_some(random, root, |_| true, |random, node| node.group = random.below(64) as u8),
        3 => at_some(random, root, |node| !node.children.is_empty(), |random, node| drop(taken(random, node))),
        4..=5 => at_some(random, root, |node| node.children.len() > 1, exchange),
        6 => at_some(random, root, |node| node.children.len() > 1, lower),
        _ => at_some(random, root, |node| node.children.iter().any(|child| !child.children.is_empty()), lift),
    }
}

/// Makes a change at some node of a tree that fits.
fn at_some(random: &mut Random, root: &mut Node, fits: fn(&Node) -> bool, change: fn(&mut Random, &mut Node)) {
    if let Some(node) = some_node(random, root, fits) {
        change(random, node);
    }
}

/// A child taken away.
fn taken(random: &mut Random, node: &mut Node) -> Node {
    node.children.remove(random.below(node.children.len()))
}

/// Exchanges two children.
fn exchange(random: &mut Random, node: &mut Node) {
    let moved = taken(random, node);
    node.children.insert(random.below(node.children.len() + 1), moved);
}

/// Puts a child below the sister before it, as the last there, so that the reading order stays.
fn lower(random: &mut Random, node: &mut Node) {
    let at = random.between(1, node.children.len() - 1);
    let moved = node.children.remove(at);
    node.children[at - 1].children.push(moved);
}

/// Puts the last child of a child behind it, as its sister, so that the reading order stays.
fn lift(random: &mut Random, node: &mut Node) {
    let at = random.below(node.children.len());
    if let Some(moved) = node.children[at].children.pop() {
        node.children.insert(at + 1, moved);
    }
}

/// Breaks a question of 12 to 15, mostly by what else would be a step: a tree twice, a tree with a group below itself, a change at one node
/// of several of a group, a count or a fence that the fences do not allow.
fn spoil(random: &mut Random, charter: &mut Charter, toward: Toward) {
    let change = random.pick(&CHANGES);
    match random.below(5) {
        0 => {
            let again = some_tree(random, charter).cloned();
            charter.trees.extend(again);
        }
        1 => {
            add_tree(random, charter);
            let Some(tree) = some_tree(random, charter) else { return };
            tree.root.children.push(Node { children: Vec::new(), ..tree.root.clone() });
        }
        2 => {
            let Some(tree) = some_tree(random, charter) else { return };
            let groups = groups_of(&tree.root);
            let several = |node: &Node| groups.iter().filter(|&&group| group == node.group).count() > 1;
            if let Some(node) = some_node(random, &mut tree.root, several) {
                change(random, node, toward);
            }
        }
        3 => at_group(random, charter, change_count, Toward::Looser),
        _ => at_group(random, charter, fence, Toward::Stricter),
    }
}
