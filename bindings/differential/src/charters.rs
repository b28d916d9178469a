//! Generates charters: one that just covers an interface, with maps of purposes or without, and perturbations of it that may just fail.

use crate::classes::Class;
use crate::purposes;
use crate::random::Random;
use independent::charter::{Charter, Node, Tree};
use independent::permissions::{Count, Entry, Need, Permissions};
use independent::sheet::Sheet;
use std::collections::{BTreeMap, BTreeSet};

/// What a group of a tree grants, and the map of the purposes for which it does.
#[derive(Clone, Default)]
struct Given {
    permissions: Permissions,
    purposes: Option<u16>,
}

/// What each group of a tree grants.
type Grants = BTreeMap<u8, Given>;

/// A charter that covers an interface, given by its classes, wherever those of a kind have a group in common.
pub fn covering(random: &mut Random, classes: &[Class]) -> Charter {
    let kinds: BTreeSet<u8> = classes.iter().map(|class| class.kind).collect();
    let mut trees: Vec<Tree> = Vec::new();
    for kind in kinds {
        let classes: Vec<&Class> = classes.iter().filter(|class| class.kind == kind).collect();
        trees.push(Tree { kind, root: covering_tree(random, &classes) });
    }
    random.shuffle(&mut trees);
    Charter { trees }
}

fn covering_tree(random: &mut Random, classes: &[&Class]) -> Node {
    let paths: Vec<&[u8]> = classes.iter().flat_map(|class| class.components.iter().map(|component| &component.path[..])).collect();
    let common: Vec<u8> = paths[0].iter().copied().filter(|g| paths.iter().all(|path| path.contains(g))).collect();
    let mut grants = if random.chance(50) { Grants::new() } else { with_maps(random, classes) };
    for class in classes {
        let groups = serving(random, class, &mut grants);
        spread(random, &class.needs, &groups, &mut grants);
    }
    let root = if common.is_empty() { paths[0][0] } else { random.pick(&common) };
    let mut tree = node(root, &grants);
    let flat = random.chance(60);
    for path in &paths {
        let mut rest: Vec<u8> = path.iter().copied().filter(|&g| g != root).collect();
        if random.chance(50) {
            random.shuffle(&mut rest);
        }
        if flat { rest.iter().for_each(|&g| insert(&mut tree, &[g], &grants)) } else { insert(&mut tree, &rest, &grants) }
    }
    tree
}

/// A map of purposes for each group of the classes' paths, and no permissions yet.
fn with_maps(random: &mut Random, classes: &[&Class]) -> Grants {
    let purposes: Vec<u8> = classes.iter().map(|class| class.purpose()).collect();
    let groups: BTreeSet<u8> = classes.iter().flat_map(|class| class.groups()).collect();
    let given = |random: &mut Random| Given { permissions: Permissions::default(), purposes: purposes::map(random, &purposes) };
    groups.into_iter().map(|group| (group, given(random))).collect()
}

/// The groups of a class's path that grant for its purpose; where none does, one of them is made to.
fn serving(random: &mut Random, class: &Class, grants: &mut Grants) -> Vec<u8> {
    let bit = purposes::bit(class.purpose());
    let serves = |group: &u8| grants.get(group).and_then(|given| given.purposes).is_none_or(|map| map & bit != 0);
    let groups: Vec<u8> = class.path().iter().copied().filter(serves).collect();
    if !groups.is_empty() {
        return groups;
    }
    let group = random.pick(class.path());
    let purposes = &mut grants.entry(group).or_default().purposes;
    *purposes = purposes.map(|map| map | bit);
    vec![group]
}

fn node(group: u8, grants: &Grants) -> Node {
    let Given { permissions, purposes } = grants.get(&group).cloned().unwrap_or_default();
    Node { group, grant: permissions, nondisclose: false, purposes, children: Vec::new() }
}

/// A node of any group, without permissions.
pub fn new_node(random: &mut Random) -> Node {
    node(random.below(64) as u8, &Grants::new())
}

/// Adds a chain of groups below a node, sharing what is there.
fn insert(below: &mut Node, chain: &[u8], grants: &Grants) {
    let Some((&group, rest)) = chain.split_first() else { return };
    let at = below.children.iter().position(|child| child.group == group).unwrap_or_else(|| {
        below.children.push(node(group, grants));
        below.children.len() - 1
    });
    insert(&mut below.children[at], rest, grants);
}

/// Spreads what a class needs over groups of its path.
fn spread(random: &mut Random, needs: &Permissions, path: &[u8], grants: &mut Grants) {
    grants.entry(random.pick(path)).or_default().permissions.read |= needs.read;
    grants.entry(random.pick(path)).or_default().permissions.write |= needs.write;
    grants.entry(random.pick(path)).or_default().permissions.access |= needs.access;
    for (&group, &count) in &needs.disclose {
        let (first, second) = (random.pick(path), random.pick(path));
        match count {
            Count::Finite(n) if first != second => {
                let part = random.below(n as usize + 1) as u32;
                raise(grants, first, group, Count::Finite(part));
                raise(grants, second, group, Count::Finite(n - part));
            }
            _ => raise(grants, first, group, count),
        }
    }
}

fn raise(grants: &mut Grants, at: u8, group: u8, count: Count) {
    if count > Count::Finite(0) {
        let slot = grants.entry(at).or_default().permissions.disclose.entry(group).or_insert(count);
        *slot = count.max(*slot);
    }
}

/// Calls `change` on each node of a tree, children first, so that added ones are not visited.
pub fn each_node(node: &mut Node, change: &mut dyn FnMut(&mut Node)) {
    for child in &mut node.children {
        each_node(child, change);
    }
    change(node);
}

/// The groups of a tree's nodes, in reading order.
pub fn groups_of(root: &Node) -> Vec<u8> {
    let mut groups = Vec::new();
    root.visit(&mut |node| groups.push(node.group));
    groups
}

/// Changes one thing: a flag, a count by one, a node, nondisclose, a map of purposes, or a tree.
pub fn perturb(random: &mut Random, charter: &mut Charter) {
    if charter.trees.is_empty() || random.chance(5) {
        return perturb_trees(random, charter);
    }
    let at = random.below(charter.trees.len());
    let root = &mut charter.trees[at].root;
    match random.below(12) {
        0..=3 => change_grant(random, root, change_count),
        4..=5 => change_grant(random, root, change_flag),
        6 => change_grant(random, root, |_, node| node.nondisclose = !node.nondisclose),
        7 => change_grant(random, root, |random, node| node.group = random.below(64) as u8),
        8 => change_grant(random, root, drop_child),
        9..=10 => change_grant(random, root, purposes::change),
        _ => change_grant(random, root, add_child),
    }
}

fn perturb_trees(random: &mut Random, charter: &mut Charter) {
    if charter.trees.is_empty() || charter.trees.len() > 15 {
        let root = new_node(random);
        charter.trees = vec![Tree { kind: random.below(16) as u8, root }];
    } else if random.chance(50) {
        charter.trees.pop();
    } else {
        let again = charter.trees[0].clone();
        charter.trees.push(again);
    }
}

/// Raises the finite counts of each tree, so that the charter leaves something over.
pub fn loosen(random: &mut Random, charter: &mut Charter) {
    for tree in &mut charter.trees {
        let more = random.between(1, 6) as u32;
        each_node(&mut tree.root, &mut |node| {
            for count in node.grant.disclose.values_mut() {
                if let Count::Finite(n) = count {
                    *n = (*n + more).min(4095);
                }
            }
        });
    }
}

/// Takes a permission that some entry needs, or its purpose, away from all nodes of its kind's trees.
pub fn withhold(random: &mut Random, charter: &mut Charter, sheet: &Sheet, interface: &[Entry]) {
    if interface.is_empty() {
        return;
    }
    let entry = &interface[random.below(interface.len())];
    let needs: Vec<Need> = entry.permissions.each().map(|(need, _)| need).collect();
    let (need, by_purpose) = (random.pick(&needs), random.chance(25));
    for tree in charter.trees.iter_mut().filter(|tree| tree.kind == entry.kind) {
        match by_purpose {
            true => purposes::withhold(&mut tree.root, sheet.components[entry.component].purpose),
            false => each_node(&mut tree.root, &mut |node| remove(&mut node.grant, need)),
        }
    }
}

fn remove(grant: &mut Permissions, need: Need) {
    match need {
        Need::Read => grant.read = false,
        Need::Write => grant.write = false,
        Need::Access => grant.access = false,
        Need::Disclose(group) => drop(grant.disclose.remove(&group)),
    }
}

/// Makes the same change at all nodes of one group, or now and then at one node only.
fn change_grant(random: &mut Random, root: &mut Node, change: fn(&mut Random, &mut Node)) {
    let group = random.pick(&groups_of(root));
    let one_only = random.chance(20);
    let mut done = false;
    let same = random.next();
    each_node(root, &mut |node| {
        if node.group == group && !(one_only && done) {
            change(&mut Random::new(same, 0), node);
            done = true;
        }
    });
}

pub fn change_count(random: &mut Random, node: &mut Node) {
    let groups: Vec<u8> = node.grant.disclose.keys().copied().collect();
    if groups.is_empty() {
        let count = random.pick(&[Count::Finite(1), Count::Finite(4095), Count::Unlimited]);
        node.grant.disclose.insert(random.below(64) as u8, count);
        return;
    }
    let group = random.pick(&groups);
    let changed = match node.grant.count(group) {
        Count::Finite(n) if random.chance(65) => n - 1,
        Count::Finite(n) => n + 1,
        Count::Unlimited => 4095,
    };
    node.grant.disclose.insert(group, Count::Finite(changed));
    if changed == 0 {
        node.grant.disclose.remove(&group);
    }
}

pub fn change_flag(random: &mut Random, node: &mut Node) {
    let grant = &mut node.grant;
    match random.below(3) {
        0 => grant.read = !grant.read,
        1 => grant.write = !grant.write,
        _ => grant.access = !grant.access,
    }
}

fn drop_child(random: &mut Random, node: &mut Node) {
    if !node.children.is_empty() {
        node.children.remove(random.below(node.children.len()));
    }
}

fn add_child(random: &mut Random, parent: &mut Node) {
    let mut child = new_node(random);
    child.nondisclose = random.chance(30);
    change_count(random, &mut child);
    if random.chance(30) {
        purposes::change(random, &mut child);
    }
    parent.children.push(child);
}
