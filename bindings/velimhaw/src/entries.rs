//! What the interface and the slack form have in common: an entry for each component and kind with a permission, by component, then rising
//! kind. The two differ in what the list of an entry tells of a group.
//!
//! Bytes of an entry: kind; length of the path; path; purpose; permission map (bit 0 read, 1 write, 2 access, 4 disclose); and only if
//! bit 4 stands, how many groups, then for each the group and what the form tells of it, groups strictly rising.

use crate::{GROUPS, KINDS, PATH_MAX, PURPOSES, UNLIMITED};
use std::fmt;
use std::iter::FusedIterator;
use std::marker::PhantomData;
use std::ops::{Range, RangeInclusive};

/// What a component needs of one kind of data: an [`Entry`](crate::Entry) or a [`SlackEntry`](crate::SlackEntry).
#[derive(Clone, Debug, PartialEq, Eq)]
pub struct EntryOf<D> {
    pub kind: u8,
    /// The groups passed on the way to the component, its own last.
    pub path: Vec<u8>,
    /// What the component works for; 0 is ordinary work.
    pub purpose: u8,
    pub read: bool,
    pub write: bool,
    pub access: bool,
    /// The groups that links are disclosed into, rising.
    pub disclose: Vec<D>,
}

/// What an entry's list tells of a group.
pub trait Listed: Sized {
    /// Takes off what follows the group, if it is whole and in its range.
    fn take(group: u8, rest: &mut &[u8]) -> Option<Self>;
}

/// The entries in the bytes of an interface or of a slack form. It ends where none is left, or where the bytes do not go on with a whole
/// entry, each field in its range.
#[derive(Clone, Debug)]
pub struct EntriesOf<'a, D> {
    rest: &'a [u8],
    listed: PhantomData<D>,
}

impl<'a, D> EntriesOf<'a, D> {
    pub fn new(bytes: &'a [u8]) -> EntriesOf<'a, D> {
        EntriesOf { rest: bytes, listed: PhantomData }
    }

    /// The bytes that no entry was taken off yet. After the last entry: empty, unless the bytes there are malformed.
    pub fn rest(&self) -> &'a [u8] {
        self.rest
    }
}

impl<D: Listed> Iterator for EntriesOf<'_, D> {
    type Item = EntryOf<D>;

    fn next(&mut self) -> Option<EntryOf<D>> {
        let mut rest = self.rest;
        let entry = take_entry(&mut rest)?;
        self.rest = rest;
        Some(entry)
    }
}

impl<D: Listed> FusedIterator for EntriesOf<'_, D> {}

const READ: u8 = 1;
const WRITE: u8 = 2;
const ACCESS: u8 = 4;
const DISCLOSE: u8 = 16;

fn take_entry<D: Listed>(rest: &mut &[u8]) -> Option<EntryOf<D>> {
    let kind = take_byte(rest, 0..KINDS)?;
    let path = take_path(rest)?;
    let purpose = take_byte(rest, 0..PURPOSES)?;
    let map = take_map(rest)?;
    let disclose = if map & DISCLOSE != 0 { take_list(rest)? } else { Vec::new() };
    Some(EntryOf { kind, path, purpose, read: map & READ != 0, write: map & WRITE != 0, access: map & ACCESS != 0, disclose })
}

/// Takes the first byte off, if there is one and it is in its range.
fn take_byte(rest: &mut &[u8], range: Range<u8>) -> Option<u8> {
    let (first, after) = rest.split_first()?;
    *rest = after;
    range.contains(first).then_some(*first)
}

fn take_path(rest: &mut &[u8]) -> Option<Vec<u8>> {
    let length = take_byte(rest, 1..PATH_MAX + 1)?;
    (0..length).map(|_| take_byte(rest, 0..GROUPS)).collect()
}

/// Takes a permission map off: at least one of its four bits, and no other.
fn take_map(rest: &mut &[u8]) -> Option<u8> {
    let map = take_byte(rest, 1..32)?;
    (map & !(READ | WRITE | ACCESS | DISCLOSE) == 0).then_some(map)
}

fn take_list<D: Listed>(rest: &mut &[u8]) -> Option<Vec<D>> {
    let length = take_byte(rest, 1..GROUPS + 1)?;
    let mut list = Vec::new();
    let mut least = 0;
    for _ in 0..length {
        let group = take_byte(rest, least..GROUPS)?;
        list.push(D::take(group, rest)?);
        least = group + 1;
    }
    Some(list)
}

/// Takes a count of two bytes off, low byte first, if it is in its range or unlimited.
pub fn take_count(rest: &mut &[u8], range: RangeInclusive<u16>) -> Option<u16> {
    let (bytes, after) = rest.split_first_chunk()?;
    *rest = after;
    let count = u16::from_le_bytes(*bytes);
    (range.contains(&count) || count == UNLIMITED).then_some(count)
}

impl<D: fmt::Display> fmt::Display for EntryOf<D> {
    fn fmt(&self, f: &mut fmt::Formatter) -> fmt::Result {
        let path: Vec<String> = self.path.iter().map(u8::to_string).collect();
        write!(f, "{} {}:{}", self.kind, path.join("."), self.purpose)?;
        for (held, letter) in [(self.read, 'r'), (self.write, 'w'), (self.access, 'a')] {
            if held {
                write!(f, " {letter}")?;
            }
        }
        self.disclose.iter().try_for_each(|listed| write!(f, " {listed}"))
    }
}

/// A count as it is shown: `*` is unlimited.
pub fn shown(count: u16) -> String {
    if count == UNLIMITED { "*".to_string() } else { count.to_string() }
}
