//! Tests the entries taken off whole, truncated and malformed bytes of an interface.
mod w;

use velimhaw::{Disclosure, Entries, Entry, COUNT_MAX, PURPOSES, UNLIMITED};

fn sender() -> Entry {
    let disclose = vec![Disclosure { group: 0, count: 1 }];
    Entry { kind: 0, path: vec![0, 1], purpose: 0, read: false, write: false, access: false, disclose }
}

fn receiver() -> Entry {
    Entry { kind: 0, path: vec![0, 2], purpose: 0, read: true, write: false, access: true, disclose: vec![] }
}

/// How many entries are taken off, and how many bytes are left then.
fn taken(bytes: &[u8]) -> (usize, usize) {
    let mut entries = Entries::new(bytes);
    (entries.by_ref().count(), entries.rest().len())
}

#[test]
fn entries_of_w() {
    assert_eq!(Entries::new(&w::INTERFACE).collect::<Vec<_>>(), [sender(), receiver()]);
    assert_eq!(taken(&w::INTERFACE), (2, 0));
}

#[test]
fn shown_as_lines() {
    assert_eq!(sender().to_string(), "0 0.1:0 d0:1");
    assert_eq!(receiver().to_string(), "0 0.2:0 r a");
    let disclose = vec![Disclosure { group: 5, count: UNLIMITED }];
    let entry = Entry { kind: 15, path: vec![63], purpose: 12, read: false, write: true, access: false, disclose };
    assert_eq!(entry.to_string(), "15 63:12 w d5:*");
}

#[test]
fn truncated_anywhere() {
    for length in 0..=w::INTERFACE.len() {
        let (whole, bytes) = if length < 10 { (0, 0) } else if length < 16 { (1, 10) } else { (2, 16) };
        assert_eq!(taken(&w::INTERFACE[..length]), (whole, length - bytes));
    }
}

#[test]
fn malformed_in_the_first_entry() {
    let changes = [
        (0, 16), (1, 0), (1, 9), (2, 64), (3, 255), (4, 16), (4, 255), (5, 0), (5, 0x08), (5, 0x18), (5, 0x20), (5, 0x30), (6, 0), (6, 65),
        (7, 64), (8, 0), (9, 0x10),
    ];
    for (at, value) in changes {
        let mut bytes = w::INTERFACE;
        bytes[at] = value;
        assert_eq!(taken(&bytes), (0, 16), "{value} at {at}");
    }
}

#[test]
fn purposes_to_15() {
    for purpose in 0..=255 {
        let entry = Entries::new(&[3, 1, 7, purpose, 2]).next();
        let held = Entry { kind: 3, path: vec![7], purpose, read: false, write: true, access: false, disclose: vec![] };
        assert_eq!(entry, (purpose < PURPOSES).then_some(held));
    }
}

#[test]
fn malformed_in_the_second_entry() {
    let mut bytes = w::INTERFACE;
    bytes[15] = 8;
    let mut entries = Entries::new(&bytes);
    assert_eq!(entries.next(), Some(sender()));
    assert_eq!(entries.next(), None);
    assert_eq!(entries.next(), None);
    assert_eq!(entries.rest(), [0, 2, 0, 2, 0, 8]);
}

#[test]
fn groups_of_a_list_rise_and_65535_is_unlimited() {
    let rising = [0, 1, 0, 0, 16, 2, 3, 0xff, 0x0f, 5, 0xff, 0xff];
    let list = Entries::new(&rising).next().unwrap().disclose;
    assert_eq!(list, [Disclosure { group: 3, count: COUNT_MAX }, Disclosure { group: 5, count: UNLIMITED }]);
    assert_eq!(taken(&[0, 1, 0, 0, 16, 2, 5, 1, 0, 3, 1, 0]).0, 0);
    assert_eq!(taken(&[0, 1, 0, 0, 16, 2, 5, 1, 0, 5, 1, 0]).0, 0);
}

#[test]
fn longest_entry() {
    let mut bytes = vec![15, 8, 0, 1, 2, 3, 4, 5, 6, 63, 15, 0x17, 64];
    bytes.extend((0..64).flat_map(|group| [group, 1, 0]));
    assert_eq!(taken(&bytes), (1, 0));
    assert_eq!(taken(&bytes[..bytes.len() - 1]).0, 0);
}
