//! Sheets of about 128 bytes a component, up to 32 components, which disclose links of 16 kinds, each with a charter of 64 nodes that just
//! covers it: the paths of all components have the same groups, so that they share their counts, or each path has groups of its own.

use crate::inputs::parallel;
use std::collections::BTreeMap;

const BYTES: usize = 128;
const FREE: usize = 32;

/// What a sheet and its charter are made of.
struct Plan {
    /// The path of each component.
    paths: Vec<Vec<u8>>,
    /// For each kind the groups of its tree, the root first.
    trees: Vec<Vec<u8>>,
    /// How many groups of a tree, the first ones, have a channel that carries links.
    channels: usize,
}

/// A channel that carries links of a kind: its group, its number as a name, and that of a link.
#[derive(Clone, Copy)]
struct Channel {
    kind: usize,
    group: u8,
    number: u8,
    link: u8,
}

/// A sheet of so many components and its charter: all paths have the groups 0 to 3, in four orders.
pub fn one_class(components: usize) -> (Vec<u8>, Vec<u8>) {
    let turned = |number: usize| (0..4).map(|place| ((number + place) % 4) as u8).collect();
    Plan { paths: (0..components).map(turned).collect(), trees: vec![vec![0, 1, 2, 3]; 16], channels: 3 }.inputs()
}

/// A sheet of up to 32 components and its charter: the paths have group 0 and each another choice of the groups 1 to 5. Nine trees have
/// all six groups; the other seven have what is left of 64 nodes.
pub fn of_their_own(components: usize) -> (Vec<u8>, Vec<u8>) {
    let chosen = |number: usize| [0].into_iter().chain((1..6).filter(|group| number >> (group - 1) & 1 == 1)).collect();
    let sizes = [[6; 9].as_slice(), &[2; 3], &[1; 4]].concat();
    let trees = sizes.into_iter().map(|size| (0..size).collect()).collect();
    Plan { paths: (0..components).map(chosen).collect(), trees, channels: 4 }.inputs()
}

impl Plan {
    fn inputs(&self) -> (Vec<u8>, Vec<u8>) {
        let (types, channels) = self.names();
        let components = self.paths.len();
        let left = components * BYTES - 1 - types.concat().len() - (types.len() - FREE) - (components - 1);
        let sends: Vec<Vec<Channel>> = (0..components).map(|number| self.sends(number, &channels, left / components)).collect();
        (self.sheet(&types, &sends), self.charter(&sends))
    }

    /// The types of all names and the channels among them: for each kind a link, then its channels.
    fn names(&self) -> (Vec<Vec<u8>>, Vec<Channel>) {
        let (mut types, mut channels) = (Vec::new(), Vec::new());
        for (kind, tree) in self.trees.iter().enumerate() {
            let link = types.len() as u8;
            types.push(vec![1, 0, kind as u8]);
            for &group in tree.iter().take(self.channels) {
                channels.push(Channel { kind, group, number: types.len() as u8, link });
                types.push(vec![2, group, 0, kind as u8]);
            }
        }
        channels.sort_by_key(|channel| channel.group);
        (types, channels)
    }

    /// The channels that a component of so many bytes sends on: in turn those of its groups, of kinds whose tree has its path.
    fn sends(&self, number: usize, channels: &[Channel], bytes: usize) -> Vec<Channel> {
        let path = &self.paths[number];
        let has_path = |kind: usize| path.iter().all(|group| self.trees[kind].contains(group));
        let fits = |channel: &&Channel| path.contains(&channel.group) && has_path(channel.kind);
        let usable: Vec<Channel> = channels.iter().filter(fits).copied().collect();
        let count = (bytes - 2 * path.len() - 4) / 3;
        (0..count).map(|turn| usable[(number * count + turn) % usable.len()]).collect()
    }

    /// The free names, the other names new, and the components side by side.
    fn sheet(&self, types: &[Vec<u8>], sends: &[Vec<Channel>]) -> Vec<u8> {
        let (free, new) = types.split_at(FREE);
        let mut out = vec![FREE as u8];
        free.iter().for_each(|made| out.extend(made));
        new.iter().for_each(|made| out.extend([3].iter().chain(made)));
        let mut components = self.paths.iter().zip(sends);
        parallel(&mut out, self.paths.len(), &mut |out| {
            let (path, sends) = components.next().expect("as many as there are");
            component(out, path, sends);
        });
        out
    }

    /// For each kind a root and the other groups below it; each group's node grants the disclosures into it.
    fn charter(&self, sends: &[Vec<Channel>]) -> Vec<u8> {
        let counts = self.counts(sends);
        let mut out = vec![self.trees.len() as u8];
        for (kind, tree) in self.trees.iter().enumerate() {
            out.push(kind as u8);
            for (place, group) in tree.iter().enumerate() {
                let children = if place == 0 { tree.len() as u8 - 1 } else { 0 };
                match counts.get(&(kind, *group)) {
                    Some(count) => out.extend([*group, 0x10, 1, *group, count.to_le_bytes()[0], count.to_le_bytes()[1], children]),
                    None => out.extend([*group, 0, children]),
                }
            }
        }
        out
    }

    /// For each kind and group the most that components whose paths have the same groups disclose together.
    fn counts(&self, sends: &[Vec<Channel>]) -> BTreeMap<(usize, u8), u16> {
        let mut sums: BTreeMap<(usize, u8, Vec<u8>), u16> = BTreeMap::new();
        for (path, channel) in self.paths.iter().zip(sends).flat_map(|(path, sends)| sends.iter().map(move |channel| (path, channel))) {
            let mut groups = path.clone();
            groups.sort();
            *sums.entry((channel.kind, channel.group, groups)).or_insert(0) += 1;
        }
        let mut most = BTreeMap::new();
        for ((kind, group, _), sum) in sums {
            let count = most.entry((kind, group)).or_insert(sum);
            *count = sum.max(*count);
        }
        most
    }
}

/// A component in its groups, of purpose 0, with two chains of sends side by side.
fn component(out: &mut Vec<u8>, path: &[u8], sends: &[Channel]) {
    for (place, group) in path.iter().enumerate() {
        out.extend([if place + 1 < path.len() { 2 } else { 4 }, *group]);
    }
    out.extend([0, 1]);
    for chain in sends.chunks(sends.len().div_ceil(2)) {
        chain.iter().for_each(|channel| out.extend([6, channel.number, channel.link]));
        out.push(0);
    }
}
