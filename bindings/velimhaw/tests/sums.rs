//! Tests the entries taken off whole, truncated and malformed bytes of a slack form.
mod w;

use velimhaw::{SlackEntries, SlackEntry, Sums, GRANTED_MAX, NEEDED_MAX, UNLIMITED};

fn sender() -> SlackEntry {
    let disclose = vec![Sums { group: 0, needed: 1, granted: 1 }];
    SlackEntry { kind: 0, path: vec![0, 1], purpose: 0, read: false, write: false, access: false, disclose }
}

fn receiver() -> SlackEntry {
    SlackEntry { kind: 0, path: vec![0, 2], purpose: 0, read: true, write: false, access: true, disclose: vec![] }
}

/// How many entries are taken off, and how many bytes are left then.
fn taken(bytes: &[u8]) -> (usize, usize) {
    let mut entries = SlackEntries::new(bytes);
    (entries.by_ref().count(), entries.rest().len())
}

/// The sums taken off an entry for one group, if they are.
fn only(needed: u16, granted: u16) -> Option<Sums> {
    let ([n0, n1], [g0, g1]) = (needed.to_le_bytes(), granted.to_le_bytes());
    SlackEntries::new(&[0, 1, 0, 0, 16, 1, 7, n0, n1, g0, g1]).next().map(|entry| entry.disclose[0])
}

#[test]
fn entries_of_w() {
    assert_eq!(SlackEntries::new(&w::SLACK).collect::<Vec<_>>(), [sender(), receiver()]);
    assert_eq!(taken(&w::SLACK), (2, 0));
}

#[test]
fn shown_as_list_prints_them() {
    assert_eq!(sender().to_string(), "0 0.1:0 d0:1/1");
    assert_eq!(receiver().to_string(), "0 0.2:0 r a");
    let disclose = vec![Sums { group: 5, needed: 2, granted: UNLIMITED }, Sums { group: 63, needed: UNLIMITED, granted: UNLIMITED }];
    let entry = SlackEntry { kind: 15, path: vec![63], purpose: 15, read: false, write: true, access: false, disclose };
    assert_eq!(entry.to_string(), "15 63:15 w d5:2/* d63:*/*");
}

#[test]
fn truncated_anywhere() {
    for length in 0..=w::SLACK.len() {
        let (whole, bytes) = if length < 12 { (0, 0) } else if length < 18 { (1, 12) } else { (2, 18) };
        assert_eq!(taken(&w::SLACK[..length]), (whole, length - bytes));
    }
}

#[test]
fn malformed_in_the_first_entry() {
    let changes = [
        (0, 16), (1, 0), (1, 9), (2, 64), (3, 255), (4, 16), (4, 255), (5, 0), (5, 0x08), (5, 0x18), (5, 0x20), (5, 0x30), (6, 0), (6, 65),
        (7, 64), (8, 0), (8, 2), (9, 0x10), (10, 0), (11, 0x80),
    ];
    for (at, value) in changes {
        let mut bytes = w::SLACK;
        bytes[at] = value;
        assert_eq!(taken(&bytes), (0, 18), "{value} at {at}");
    }
}

#[test]
fn malformed_in_the_second_entry() {
    let mut bytes = w::SLACK;
    bytes[17] = 8;
    let mut entries = SlackEntries::new(&bytes);
    assert_eq!(entries.next(), Some(sender()));
    assert_eq!(entries.next(), None);
    assert_eq!(entries.next(), None);
    assert_eq!(entries.rest(), [0, 2, 0, 2, 0, 8]);
}

#[test]
fn sums_in_their_ranges() {
    let fine = [(1, 1), (1, GRANTED_MAX), (NEEDED_MAX, NEEDED_MAX), (NEEDED_MAX, GRANTED_MAX), (1, UNLIMITED), (UNLIMITED, UNLIMITED)];
    for (needed, granted) in fine {
        assert_eq!(only(needed, granted), Some(Sums { group: 7, needed, granted }));
    }
    let malformed = [(0, 1), (1, 0), (2, 1), (NEEDED_MAX + 1, GRANTED_MAX), (1, GRANTED_MAX + 1), (1, UNLIMITED - 1), (UNLIMITED, 4095)];
    for (needed, granted) in malformed {
        assert_eq!(only(needed, granted), None, "{needed} and {granted}");
    }
}

#[test]
fn slack_is_granted_less_needed() {
    let slack = |needed: u16, granted: u16| Sums { group: 0, needed, granted }.slack();
    assert_eq!(slack(1, 1), Some(0));
    assert_eq!(slack(3, 8190), Some(8187));
    assert_eq!(slack(1, UNLIMITED), None);
    assert_eq!(slack(UNLIMITED, UNLIMITED), None);
}

#[test]
fn groups_of_a_list_rise() {
    assert_eq!(taken(&[0, 1, 0, 0, 16, 2, 3, 1, 0, 1, 0, 5, 1, 0, 1, 0]), (1, 0));
    assert_eq!(taken(&[0, 1, 0, 0, 16, 2, 5, 1, 0, 1, 0, 3, 1, 0, 1, 0]).0, 0);
    assert_eq!(taken(&[0, 1, 0, 0, 16, 2, 5, 1, 0, 1, 0, 5, 1, 0, 1, 0]).0, 0);
}

#[test]
fn longest_entry() {
    let mut bytes = vec![15, 8, 0, 1, 2, 3, 4, 5, 6, 63, 15, 0x17, 64];
    bytes.extend((0..64).flat_map(|group| [group, 1, 0, 1, 0]));
    assert_eq!(taken(&bytes), (1, 0));
    assert_eq!(taken(&bytes[..bytes.len() - 1]).0, 0);
}
