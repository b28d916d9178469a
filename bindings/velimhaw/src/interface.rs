//! The interface, which `check` writes: what a sheet needs. Its lists give a count of two bytes, low byte first, for each group.

use crate::entries::{shown, take_count, EntriesOf, EntryOf, Listed};
use crate::COUNT_MAX;
use std::fmt;

/// An entry of the interface. It shows as `0 0.1:0 d0:1`, with `*` for unlimited.
pub type Entry = EntryOf<Disclosure>;

/// The entries in the bytes of an interface.
pub type Entries<'a> = EntriesOf<'a, Disclosure>;

/// How many links a component discloses into a group: 1 to 4,095, or [`UNLIMITED`](crate::UNLIMITED).
#[derive(Clone, Copy, Debug, PartialEq, Eq)]
pub struct Disclosure {
    pub group: u8,
    pub count: u16,
}

impl Listed for Disclosure {
    fn take(group: u8, rest: &mut &[u8]) -> Option<Disclosure> {
        Some(Disclosure { group, count: take_count(rest, 1..=COUNT_MAX)? })
    }
}

impl fmt::Display for Disclosure {
    fn fmt(&self, f: &mut fmt::Formatter) -> fmt::Result {
        write!(f, "d{}:{}", self.group, shown(self.count))
    }
}
