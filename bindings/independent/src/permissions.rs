//! Permissions, how they join, and the interface with its stored form.

use crate::dialect::Dialect;
use crate::sheet::{Component, Sheet};
use std::collections::BTreeMap;
use std::fmt;

/// How often; unlimited stands above every finite count.
#[derive(Clone, Copy, PartialEq, Eq, PartialOrd, Ord, Debug)]
pub enum Count {
    Finite(u32),
    Unlimited,
}

impl Count {
    pub fn plus(self, other: Count) -> Count {
        match (self, other) {
            (Count::Finite(a), Count::Finite(b)) => Count::Finite(a + b),
            _ => Count::Unlimited,
        }
    }

    /// The two-byte stored number.
    pub fn stored(self) -> u16 {
        match self {
            Count::Finite(n) => n as u16,
            Count::Unlimited => 65535,
        }
    }
}

/// The number, or `*` for unlimited.
impl fmt::Display for Count {
    fn fmt(&self, f: &mut fmt::Formatter) -> fmt::Result {
        match self {
            Count::Finite(n) => write!(f, "{n}"),
            Count::Unlimited => write!(f, "*"),
        }
    }
}

/// What one act needs.
#[derive(Clone, Copy, PartialEq, Eq, Debug)]
pub enum Need {
    Read,
    Write,
    Access,
    Disclose(u8),
}

/// Permissions on one kind; a group without a count has the count 0.
#[derive(Clone, PartialEq, Eq, Default, Debug)]
pub struct Permissions {
    pub read: bool,
    pub write: bool,
    pub access: bool,
    pub disclose: BTreeMap<u8, Count>,
}

impl Permissions {
    /// Adds one need, `count` giving how often a disclosure happens.
    pub fn add(&mut self, need: Need, count: Count) {
        match need {
            Need::Read => self.read = true,
            Need::Write => self.write = true,
            Need::Access => self.access = true,
            Need::Disclose(group) => self.add_disclose(group, count),
        }
    }

    pub fn add_disclose(&mut self, group: u8, count: Count) {
        let slot = self.disclose.entry(group).or_insert(Count::Finite(0));
        *slot = slot.plus(count);
    }

    /// Joins another's permissions to these, counts added.
    pub fn join(&mut self, other: &Permissions) {
        self.read |= other.read;
        self.write |= other.write;
        self.access |= other.access;
        for (&group, &count) in &other.disclose {
            self.add_disclose(group, count);
        }
    }

    /// The count for a group, 0 where it is absent.
    pub fn count(&self, group: u8) -> Count {
        self.disclose.get(&group).copied().unwrap_or(Count::Finite(0))
    }

    /// The flags held, in order: read, write, access.
    pub fn flags(&self) -> impl Iterator<Item = Need> {
        let flags = [(self.read, Need::Read), (self.write, Need::Write), (self.access, Need::Access)];
        flags.into_iter().filter(|(held, _)| *held).map(|(_, need)| need)
    }

    /// Each permission held, in order: the flags, then disclose by rising group. A flag has the count 1.
    pub fn each(&self) -> impl Iterator<Item = (Need, Count)> + '_ {
        let flags = self.flags().map(|need| (need, Count::Finite(1)));
        flags.chain(self.disclose.iter().map(|(&group, &count)| (Need::Disclose(group), count)))
    }

    /// Whether one permission, needed so often, is covered.
    pub fn covers(&self, need: Need, count: Count) -> bool {
        match need {
            Need::Read => self.read,
            Need::Write => self.write,
            Need::Access => self.access,
            Need::Disclose(group) => count <= self.count(group),
        }
    }

    /// Whether every flag and every count here is also there.
    pub fn within(&self, other: &Permissions) -> bool {
        self.each().all(|(need, count)| other.covers(need, count))
    }

    /// Whether one act's need is granted.
    pub fn grants(&self, need: Need) -> bool {
        self.covers(need, Count::Finite(1))
    }

    /// Appends the list, if there is one.
    pub fn write_list(&self, out: &mut Vec<u8>) {
        write_list(self.disclose.iter().map(|(&group, &count)| (group, [count])), out);
    }

    /// The permission map, with bits 0 to 2 and 4.
    pub fn map(&self) -> u8 {
        let bits = [self.read, self.write, self.access, false, !self.disclose.is_empty()];
        bits.iter().enumerate().map(|(i, &bit)| (bit as u8) << i).sum()
    }
}

/// Appends a list of groups, each with its counts; of an empty one, nothing.
pub fn write_list<const N: usize>(list: impl ExactSizeIterator<Item = (u8, [Count; N])>, out: &mut Vec<u8>) {
    if list.len() > 0 {
        out.push(list.len() as u8);
    }
    for (group, counts) in list {
        out.push(group);
        counts.iter().for_each(|count| out.extend_from_slice(&count.stored().to_le_bytes()));
    }
}

/// Permissions by kind.
pub type ByKind = BTreeMap<u8, Permissions>;

/// One entry of the interface.
pub struct Entry {
    pub component: usize,
    pub kind: u8,
    pub permissions: Permissions,
}

impl Entry {
    /// Appends what a stored entry begins with: kind, length of the path, path and, if the sheet's dialect has them, purpose.
    pub fn write_head(&self, sheet: &Sheet, out: &mut Vec<u8>) {
        let Component { path, purpose } = &sheet.components[self.component];
        out.push(self.kind);
        out.push(path.len() as u8);
        out.extend_from_slice(path);
        if sheet.dialect == Dialect::New {
            out.push(*purpose);
        }
    }
}

/// The stored form of the interface.
pub fn write_interface(sheet: &Sheet, interface: &[Entry]) -> Vec<u8> {
    let mut out = Vec::new();
    for entry in interface {
        entry.write_head(sheet, &mut out);
        out.push(entry.permissions.map());
        entry.permissions.write_list(&mut out);
    }
    out
}
