//! Reached nodes, grants, and what a charter grants of what an interface needs: questions 16 and 17, and the covering test, which question
//! 18 is read off.

use crate::charter::{Charter, Node};
use crate::permissions::{Count, Entry, Need, Permissions};
use crate::sharing;
use crate::sheet::{Component, Sheet};
use std::collections::BTreeMap;

/// The groups of the nodes that a path reaches in a kind's tree, each with its first such node.
fn reached<'a>(charter: &'a Charter, path: &[u8], kind: u8) -> BTreeMap<u8, &'a Node> {
    let mut found = BTreeMap::new();
    if let Some(tree) = charter.tree(kind) {
        reach(&tree.root, path, &mut found);
    }
    found
}

fn reach<'a>(node: &'a Node, path: &[u8], found: &mut BTreeMap<u8, &'a Node>) {
    if path.contains(&node.group) {
        found.entry(node.group).or_insert(node);
        for child in &node.children {
            reach(child, path, found);
        }
    }
}

/// The permissions of reached groups joined, each group taken once, of those nodes that grant for a purpose.
fn join(reached: &BTreeMap<u8, &Node>, purpose: u8) -> Permissions {
    let mut joined = Permissions::default();
    reached.values().filter(|node| node.serves(purpose)).for_each(|node| joined.join(&node.grant));
    joined
}

/// The grant of a component, by its path and its purpose, for a kind.
pub fn grant(charter: &Charter, component: &Component, kind: u8) -> Permissions {
    join(&reached(charter, &component.path, kind), component.purpose)
}

/// What the covering test answers for one entry.
#[derive(Clone, PartialEq, Eq, Debug)]
pub struct Verdict {
    /// The flags that the entry needs, in order, each with whether it is granted.
    pub flags: Vec<(Need, bool)>,
    /// The sums for each group that the entry discloses into.
    pub disclose: BTreeMap<u8, Sums>,
}

/// How often the components of a class disclose into a group together, and how often they may.
#[derive(Clone, Copy, PartialEq, Eq, Debug)]
pub struct Sums {
    pub needed: Count,
    pub granted: Count,
}

impl Verdict {
    /// The covering test of an entry: `sum` is what its class needs, `grant` what its path is granted for its purpose.
    fn new(entry: &Entry, sum: &Permissions, grant: &Permissions) -> Verdict {
        let flags = entry.permissions.flags().map(|need| (need, grant.grants(need))).collect();
        let sums = |group: u8| Sums { needed: sum.count(group), granted: grant.count(group) };
        let disclose = entry.permissions.disclose.keys().map(|&group| (group, sums(group))).collect();
        Verdict { flags, disclose }
    }

    /// The first permission of the entry that is not covered: read, write, access, then disclose by rising group.
    pub fn uncovered(&self) -> Option<Need> {
        let disclose = self.disclose.iter().map(|(&group, sums)| (Need::Disclose(group), sums.needed <= sums.granted));
        let mut answers = self.flags.iter().copied().chain(disclose);
        answers.find(|(_, covered)| !covered).map(|(need, _)| need)
    }
}

/// Questions 16 and 17, each put to all entries before the next, and then the covering test of each entry.
pub fn verdicts(sheet: &Sheet, charter: &Charter, interface: &[Entry]) -> Result<Vec<Verdict>, u32> {
    if !interface.iter().all(|entry| charter.tree(entry.kind).is_some()) {
        return Err(16);
    }
    let component = |entry: &Entry| &sheet.components[entry.component];
    let reached: Vec<_> = interface.iter().map(|entry| reached(charter, &component(entry).path, entry.kind)).collect();
    let pairs = interface.iter().zip(&reached);
    if !pairs.clone().all(|(entry, groups)| groups.len() == component(entry).path.len()) {
        return Err(17);
    }
    let classes = sharing::classes(&sheet.components);
    let sums = sharing::sums(&classes, interface.iter().map(|entry| (entry.component, entry.kind, &entry.permissions)));
    let sum = |entry: &Entry| &sums[classes[entry.component]][&entry.kind];
    Ok(pairs.map(|(entry, groups)| Verdict::new(entry, sum(entry), &join(groups, component(entry).purpose))).collect())
}

/// A permission that some component needs and its charter does not cover.
#[derive(Clone, PartialEq, Eq, Debug)]
pub struct Uncovered {
    pub path: Vec<u8>,
    pub need: Need,
    pub kind: u8,
}
