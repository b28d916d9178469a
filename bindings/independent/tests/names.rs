//! Names files that keep the rules and names files that break them, one rule at a time.
mod society;

use independent::names::{read, Names};
use society::names;

/// Whether a names file reads after a change of its lists.
fn reads(change: impl FnOnce(&mut Names)) -> bool {
    let mut names = names();
    change(&mut names);
    match read(&names.write()) {
        Ok(read) => read == names,
        Err(number) => {
            assert_eq!(number, 40);
            false
        }
    }
}

/// Whether a names file reads after a change of its bytes.
fn bytes_read(change: impl FnOnce(&mut Vec<u8>)) -> bool {
    let mut bytes = names().write();
    change(&mut bytes);
    read(&bytes).map_err(|number| assert_eq!(number, 40)).is_ok()
}

#[test]
fn names_are_read() {
    assert!(reads(|_| ()));
    assert_eq!(names().groups[63], "Gcl");
    assert_eq!(names().kinds[15], "Kap");
}

#[test]
fn one_to_twenty_letters() {
    for (length, fine) in [(0, false), (1, true), (20, true), (21, false), (300, false)] {
        assert_eq!(reads(|names| names.groups[0] = "a".repeat(length)), fine, "{length}");
        assert_eq!(reads(|names| names.groups[63] = "Z".repeat(length)), fine, "{length}");
        assert_eq!(reads(|names| names.kinds[0] = "A".repeat(length)), fine, "{length}");
        assert_eq!(reads(|names| names.kinds[15] = "z".repeat(length)), fine, "{length}");
    }
}

#[test]
fn letters_alone() {
    for byte in (0..=255u8).filter(|&byte| byte != 0x0a) {
        let letter = byte.is_ascii_uppercase() || byte.is_ascii_lowercase();
        assert_eq!(bytes_read(|bytes| bytes[0] = byte), letter, "{byte:02x} in the first group's name");
        assert_eq!(bytes_read(|bytes| bytes[64 * 4 + 15 * 4] = byte), letter, "{byte:02x} in the last kind's name");
    }
}

#[test]
fn distinct_within_each_list() {
    for (one, other) in [(0, 1), (0, 63), (62, 63), (17, 40)] {
        assert!(!reads(|names| names.groups[other] = names.groups[one].clone()));
    }
    for (one, other) in [(0, 1), (0, 15), (14, 15), (3, 9)] {
        assert!(!reads(|names| names.kinds[other] = names.kinds[one].clone()));
    }
}

#[test]
fn a_group_and_a_kind_may_share_a_name() {
    assert!(reads(|names| names.kinds[0] = names.groups[63].clone()));
    assert!(reads(|names| names.kinds = names.groups[..16].to_vec()));
}

#[test]
fn distinct_by_bytes() {
    assert!(reads(|names| (names.groups[0], names.groups[1]) = ("ab".to_string(), "AB".to_string())));
    assert!(reads(|names| (names.kinds[0], names.kinds[1]) = ("ab".to_string(), "aB".to_string())));
    assert!(reads(|names| (names.kinds[0], names.kinds[1]) = ("ab".to_string(), "abc".to_string())));
}

#[test]
fn each_name_ended_and_nothing_after() {
    assert!(!bytes_read(|bytes| bytes.truncate(bytes.len() - 1)));
    for byte in [0x00, 0x0a, 0x0d, b'a', 0xff] {
        assert!(!bytes_read(|bytes| bytes.push(byte)), "{byte:02x}");
    }
    assert!(!bytes_read(|bytes| bytes.insert(3, 0x0d)));
    assert!(!bytes_read(|bytes| bytes.insert(bytes.len() - 1, 0x0d)));
    assert!(!bytes_read(|bytes| bytes.insert(4, 0x0a)));
    assert!(!bytes_read(|bytes| bytes.insert(0, 0x0a)));
    assert!(!bytes_read(|bytes| bytes[3] = 0x0d));
}

#[test]
fn eighty_names() {
    assert!(!reads(|names| drop(names.kinds.pop())));
    assert!(!reads(|names| drop(names.groups.remove(0))));
    assert!(!reads(|names| names.kinds.push("Last".to_string())));
    assert!(!reads(|names| names.groups.insert(0, "First".to_string())));
    assert!(!bytes_read(Vec::clear));
}

#[test]
fn every_shorter_file_is_broken() {
    let bytes = names().write();
    assert!((0..bytes.len()).all(|length| read(&bytes[..length]) == Err(40)));
}
