//! Trimming the charter of an accepted sheet: with a count lowered by the slack that is told for it the sheet is still accepted, and with
//! that count lowered by one more it is refused.

use crate::case::Case;
use crate::charters::each_node;
use crate::classes::put;
use crate::purposes;
use crate::subject::{Independent, Proved, Subject};
use independent::charter::{self, Charter};
use independent::permissions::Count;
use std::collections::BTreeMap;
use velimhaw::{SlackEntries, SlackEntry, Sums, INTERFACE_MAX, SLACK_MAX};

/// A finite count of a charter, at all nodes of a group in the tree of a kind, for disclosing into a group, and those nodes' map of
/// purposes.
struct Place {
    kind: u8,
    group: u8,
    into: u8,
    count: u32,
    purposes: Option<u16>,
}

/// A count of an accepted sheet's charter, and the slack that is told for it.
pub struct Trimming {
    charter: Charter,
    place: Place,
    /// Whether some entry tells one.
    told: bool,
    /// The smallest that is told, nothing where all are unlimited or none is told.
    smallest: Option<u32>,
}

/// What of trimming does not hold on a case, on either side.
pub fn fault(case: &Case) -> Option<String> {
    let trimming = Trimming::of(case)?;
    let sides: [(&str, &dyn Subject); 2] = [("independent", &Independent), ("proved", &Proved)];
    sides.into_iter().find_map(|(name, side)| trimming.fault(&case.sheet, side).map(|what| format!("trimming, {name}: {what}")))
}

impl Trimming {
    /// The count that a case is to trim; nothing where the sheet is refused or its charter has no finite count.
    pub fn of(case: &Case) -> Option<Trimming> {
        let outcome = case.slack(&Independent, SLACK_MAX);
        outcome.answer.ok()?;
        let charter = charter::read(&case.charter).expect("a charter that passes 11");
        let place = place(&charter, case.trim)?;
        let told = told(&place, outcome.written());
        let smallest = told.iter().filter_map(Sums::slack).min().map(u32::from);
        Some(Trimming { charter, place, told: !told.is_empty(), smallest })
    }

    /// What does not hold on one side.
    fn fault(&self, sheet: &[u8], side: &dyn Subject) -> Option<String> {
        let answer = |less: u32| side.check(sheet, &self.lowered(less).write(), &mut [0; INTERFACE_MAX]);
        let Place { kind, group, into, count, .. } = self.place;
        let at = format!("kind {kind}, group {group}, count {count} for group {into}");
        if let Err(number) = answer(self.less()) {
            return Some(format!("{at}: lowered by {}, refused {number}", self.less()));
        }
        match self.one_more().map(|less| (less, answer(less))) {
            Some((less, answer)) if answer != Err(18) => Some(format!("{at}: lowered by {less}, {answer:?}")),
            _ => None,
        }
    }

    /// By how much the count can be lowered.
    fn less(&self) -> u32 {
        self.smallest.map_or(self.place.count, |slack| slack.min(self.place.count))
    }

    /// What is too much by one, where the count is not too small for that.
    fn one_more(&self) -> Option<u32> {
        self.smallest.map(|slack| slack + 1).filter(|&less| less <= self.place.count)
    }

    /// The charter with the count lowered.
    fn lowered(&self, less: u32) -> Charter {
        let Place { kind, group, into, count, .. } = self.place;
        let mut charter = self.charter.clone();
        let trees = charter.trees.iter_mut().filter(|tree| tree.kind == kind);
        trees.for_each(|tree| {
            each_node(&mut tree.root, &mut |node| {
                if node.group == group {
                    put(node, into, Count::Finite(count - less));
                }
            })
        });
        charter
    }

    /// What is worth counting.
    pub fn met(&self) -> Vec<&'static str> {
        let trimmed = match self.smallest {
            None if self.told => "taken away, unlimited beside it",
            None => "taken away, none told",
            Some(slack) if slack >= self.place.count => "taken away, within the slack",
            Some(0) => "kept, no slack",
            Some(_) => "lowered by the slack",
        };
        [trimmed].into_iter().chain(self.one_more().map(|_| "one more, refused")).collect()
    }
}

/// One of a charter's finite counts, by a number that is taken round and round.
fn place(charter: &Charter, number: usize) -> Option<Place> {
    let mut counts = BTreeMap::new();
    for tree in &charter.trees {
        tree.root.visit(&mut |node| {
            for (&into, &count) in &node.grant.disclose {
                if let Count::Finite(count) = count {
                    counts.insert((tree.kind, node.group, into), (count, node.purposes));
                }
            }
        });
    }
    let at = number.checked_rem(counts.len())?;
    counts.into_iter().nth(at).map(|((kind, group, into), (count, purposes))| Place { kind, group, into, count, purposes })
}

/// What a slack form tells of a count: the sums, for the group disclosed into, of the entries of its kind whose paths have its group and
/// for whose purposes its nodes grant.
fn told(place: &Place, form: &[u8]) -> Vec<Sums> {
    let served = |purpose: u8| place.purposes.is_none_or(|map| map & purposes::bit(purpose) != 0);
    let concerned = |entry: &SlackEntry| entry.kind == place.kind && entry.path.contains(&place.group) && served(entry.purpose);
    let entries = SlackEntries::new(form).filter(concerned);
    entries.flat_map(|entry| entry.disclose).filter(|sums| sums.group == place.into).collect()
}
