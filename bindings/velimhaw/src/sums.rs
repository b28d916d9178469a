//! The slack form, which `slack` writes: what a sheet needs beside what its charter grants. Its lists give two sums of two bytes, low byte
//! first, for each group: the needed one, then the granted one.

use crate::entries::{shown, take_count, EntriesOf, EntryOf, Listed};
use crate::{GRANTED_MAX, NEEDED_MAX, UNLIMITED};
use std::fmt;

/// An entry of the slack form. It shows as the program `list` prints it, as `0 0.1:0 d0:1/1`, with `*` for unlimited.
pub type SlackEntry = EntryOf<Sums>;

/// The entries in the bytes of a slack form.
pub type SlackEntries<'a> = EntriesOf<'a, Sums>;

/// How many links are disclosed into a group, and how many may be. [`UNLIMITED`] may stand for either; granted is at least needed.
#[derive(Clone, Copy, Debug, PartialEq, Eq)]
pub struct Sums {
    pub group: u8,
    /// What all components with the entry's purpose whose paths have the same groups need together, 1 to 4,096.
    pub needed: u16,
    /// What the charter grants the groups of that path together for that purpose, 1 to 32,760.
    pub granted: u16,
}

impl Sums {
    /// How much less the charter could grant: granted less needed, nothing where granted is unlimited.
    pub fn slack(&self) -> Option<u16> {
        (self.granted != UNLIMITED).then(|| self.granted.saturating_sub(self.needed))
    }
}

impl Listed for Sums {
    fn take(group: u8, rest: &mut &[u8]) -> Option<Sums> {
        let needed = take_count(rest, 1..=NEEDED_MAX)?;
        let granted = take_count(rest, needed..=GRANTED_MAX)?;
        Some(Sums { group, needed, granted })
    }
}

impl fmt::Display for Sums {
    fn fmt(&self, f: &mut fmt::Formatter) -> fmt::Result {
        write!(f, "d{}:{}/{}", self.group, shown(self.needed), shown(self.granted))
    }
}
