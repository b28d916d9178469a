//! Components that share a count, found by their purposes and sorted paths: what they need together, and charters whose counts lie around
//! that.

use crate::charters::each_node;
use crate::random::Random;
use independent::charter::{Charter, Node};
use independent::permissions::{Count, Entry, Permissions};
use independent::sheet::{Component, Sheet};
use std::collections::BTreeMap;

/// The entries of one kind whose components have one purpose and paths of the same groups, in any order.
pub struct Class<'a> {
    pub kind: u8,
    /// The component of each entry.
    pub components: Vec<&'a Component>,
    pub entries: Vec<&'a Entry>,
    /// What the entries need, joined.
    pub needs: Permissions,
}

/// The classes of an interface, by rising kind.
pub fn classes<'a>(sheet: &'a Sheet, interface: &'a [Entry]) -> Vec<Class<'a>> {
    let mut classes: BTreeMap<(u8, Vec<u8>, u8), Class> = BTreeMap::new();
    for entry in interface {
        let component = &sheet.components[entry.component];
        let new = || Class { kind: entry.kind, components: Vec::new(), entries: Vec::new(), needs: Permissions::default() };
        let class = classes.entry((entry.kind, sorted(&component.path), component.purpose)).or_insert_with(new);
        class.components.push(component);
        class.entries.push(entry);
        class.needs.join(&entry.permissions);
    }
    classes.into_values().collect()
}

fn sorted(path: &[u8]) -> Vec<u8> {
    let mut groups = path.to_vec();
    groups.sort();
    groups
}

impl<'a> Class<'a> {
    /// The path of its first entry.
    pub fn path(&self) -> &'a [u8] {
        &self.components[0].path
    }

    /// The groups of its paths, rising.
    pub fn groups(&self) -> Vec<u8> {
        sorted(self.path())
    }

    pub fn purpose(&self) -> u8 {
        self.components[0].purpose
    }

    /// The groups that several of its entries disclose into.
    pub fn shared(&self) -> Vec<u8> {
        let disclosing = |group: u8| self.entries.iter().filter(|entry| entry.permissions.disclose.contains_key(&group)).count();
        self.needs.disclose.keys().copied().filter(|&group| disclosing(group) > 1).collect()
    }

    /// The largest count that one entry alone needs for a group.
    fn largest(&self, group: u8) -> Count {
        self.entries.iter().map(|entry| entry.permissions.count(group)).max().expect("a class has entries")
    }
}

/// Puts the charter's count for some class and a group that it shares at the sum, one off it, or at what one component alone needs;
/// answers whether there is such a class.
pub fn tip(random: &mut Random, charter: &mut Charter, classes: &[Class]) -> bool {
    let shared: Vec<(&Class, u8)> = classes.iter().flat_map(|class| class.shared().into_iter().map(move |group| (class, group))).collect();
    if shared.is_empty() {
        return false;
    }
    let (class, group) = random.pick(&shared);
    let count = match class.needs.count(group) {
        Count::Finite(sum) => random.pick(&[sum - 1, sum - 1, sum, sum, sum + 1].map(Count::Finite)),
        Count::Unlimited => random.pick(&[Count::Unlimited, Count::Finite(4095)]),
    };
    let count = if random.chance(15) { class.largest(group) } else { count };
    let trees = charter.trees.iter_mut().filter(|tree| tree.kind == class.kind);
    for tree in trees {
        let groups = serving(class, &tree.root);
        set(random, &mut tree.root, &groups, group, count);
    }
    true
}

/// The groups of a class's path that grant for its purpose; all of them where none does.
fn serving(class: &Class, root: &Node) -> Vec<u8> {
    let mut refusing = Vec::new();
    root.visit(&mut |node| refusing.extend((!node.serves(class.purpose())).then_some(node.group)));
    let serving: Vec<u8> = class.path().iter().copied().filter(|group| !refusing.contains(group)).collect();
    if serving.is_empty() { class.path().to_vec() } else { serving }
}

/// Makes the counts of some groups of a path for one group add up to `count`, at one of them or at two.
fn set(random: &mut Random, root: &mut Node, path: &[u8], group: u8, count: Count) {
    let (first, second) = (random.pick(path), random.pick(path));
    let (at_first, at_second) = match count {
        Count::Finite(n) if first != second => {
            let part = random.below(n as usize + 1) as u32;
            (Count::Finite(part), Count::Finite(n - part))
        }
        _ => (count, Count::Finite(0)),
    };
    each_node(root, &mut |node| match node.group {
        at if at == first => put(node, group, at_first),
        at if at == second => put(node, group, at_second),
        at if path.contains(&at) => put(node, group, Count::Finite(0)),
        _ => {}
    });
}

/// Makes a node's count for a group this one, 0 being none.
pub fn put(node: &mut Node, group: u8, count: Count) {
    node.grant.disclose.remove(&group);
    if count > Count::Finite(0) {
        node.grant.disclose.insert(group, count);
    }
}
