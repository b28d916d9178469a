//! Charters compared: each condition just met and just missed, charters that do not pass, and the laws of the relation.
mod society;

use independent::{charter, check, no_looser, LONGEST};
use society::{bytes, CHARTER, W};

/// Whether the first of two charters is no looser than the second, and the second than the first.
fn both_ways(a: &str, b: &str) -> [bool; 2] {
    [no_looser(&bytes(a), &bytes(b)), no_looser(&bytes(b), &bytes(a))]
}

/// A charter of one node with such a head, which is what stands between its group and its children.
fn one_node(head: &str) -> String {
    format!("01 00 00 {head} 00")
}

/// A charter with a node of such a head between two others, before a sister.
fn inner_node(head: &str) -> String {
    format!("01 00 00 00 02 01 {head} 01 05 00 00 02 00 00")
}

/// A charter whose last node has such a head: in the second tree, at the eighth level, after a sister.
fn last_node(head: &str) -> String {
    let above: String = (0..6).map(|group| format!("{group:02X} 00 01 ")).collect();
    format!("02 03 00 01 00 0F {above} 06 00 02 07 00 00 08 {head} 00")
}

/// Heads of which the first is no looser than the second, and not the other way round.
const STRICTER: &[[&str; 2]] = &[
    // A flag more.
    ["00", "01"],
    ["00", "02"],
    ["00", "04"],
    ["03", "07"],
    ["05", "07"],
    ["06", "07"],
    // A group more, and a larger count.
    ["00", "10 01 05 01 00"],
    ["00", "10 01 05 FF FF"],
    ["10 01 05 01 00", "10 01 05 02 00"],
    ["10 01 05 FF 00", "10 01 05 00 01"],
    ["10 01 05 FE 0F", "10 01 05 FF 0F"],
    ["10 01 05 FF 0F", "10 01 05 FF FF"],
    ["10 01 05 01 00", "10 02 04 01 00 05 01 00"],
    ["10 01 05 01 00", "10 02 05 01 00 06 01 00"],
    ["10 02 05 01 00 06 01 00", "10 02 05 01 00 06 02 00"],
    ["10 02 00 01 00 3F 01 00", "10 03 00 01 00 20 FF FF 3F 01 00"],
    // A purpose more, and all.
    ["20 00 00", "20 01 00"],
    ["20 00 00", "20 00 80"],
    ["20 FF FE", "20 FF FF"],
    ["20 7F FF", "00"],
    ["20 00 00", "00"],
    ["21 01 00", "01"],
    // Nondisclose less.
    ["08", "00"],
    ["0F", "07"],
    ["28 FF FF", "00"],
    // Several at once.
    ["38 01 05 01 00 01 00", "17 02 05 01 00 06 01 00"],
];

/// Heads of which neither is no looser than the other.
const APART: &[[&str; 2]] = &[
    ["01", "02"],
    ["03", "04"],
    ["01", "10 01 05 01 00"],
    ["10 01 05 01 00", "10 01 06 01 00"],
    ["10 01 05 FF FF", "10 01 06 FF FF"],
    ["10 02 05 01 00 06 02 00", "10 02 05 02 00 06 01 00"],
    ["10 01 05 02 00", "10 02 05 01 00 06 01 00"],
    ["20 01 00", "20 02 00"],
    ["20 01 00", "20 00 01"],
    ["20 FF 00", "20 00 FF"],
    ["21 FE FF", "00"],
    ["28 01 00", "20 00 00"],
    ["09", "00"],
];

/// Heads with the same flags, counts and purposes, and nondisclose at both or at neither.
const ALIKE: &[[&str; 2]] = &[
    ["00", "00"],
    ["00", "20 FF FF"],
    ["0F", "2F FF FF"],
    ["15 01 05 01 00", "35 01 05 01 00 FF FF"],
    ["20 01 80", "20 01 80"],
];

#[test]
fn heads_are_compared_at_each_node() {
    for place in [one_node, inner_node, last_node] {
        let ways = |[a, b]: &[&str; 2]| both_ways(&place(a), &place(b));
        STRICTER.iter().for_each(|heads| assert_eq!(ways(heads), [true, false], "{heads:?}"));
        APART.iter().for_each(|heads| assert_eq!(ways(heads), [false, false], "{heads:?}"));
        ALIKE.iter().for_each(|heads| assert_eq!(ways(heads), [true, true], "{heads:?}"));
    }
}

#[test]
fn each_pair_of_maps_of_four_bits() {
    for (a, b) in (0..16u8).flat_map(|a| (0..16u8).map(move |b| (a, b))) {
        let (flags, nondisclose) = (a & 7 & !b == 0, b & 8 & !a == 0);
        assert_eq!(no_looser(&[1, 0, 0, a, 0], &[1, 0, 0, b, 0]), flags && nondisclose, "{a} and {b}");
        for shift in [0, 4, 8, 12] {
            let purposes = |map: u8| [&[1, 0, 0, 0x20][..], &(u16::from(map) << shift).to_le_bytes(), &[0]].concat();
            assert_eq!(no_looser(&purposes(a), &purposes(b)), a & !b == 0, "{a} and {b}, from purpose {shift}");
        }
    }
}

#[test]
fn counts_stand_in_their_order() {
    let lists = ["00", "10 01 05 01 00", "10 01 05 FF 00", "10 01 05 00 01", "10 01 05 FE 0F", "10 01 05 FF 0F", "10 01 05 FF FF"];
    for (i, a) in lists.iter().enumerate() {
        for (j, b) in lists.iter().enumerate() {
            assert_eq!(both_ways(&one_node(a), &one_node(b)), [i <= j, j <= i], "{a} and {b}");
        }
    }
}

#[test]
fn each_group_of_a_list_is_compared() {
    let all = |less: u8| {
        let items = (0..64).flat_map(|into| [into, 2 - (into == less) as u8, 0]).collect();
        [vec![1, 0, 0, 0x10, 64], items, vec![0]].concat()
    };
    for group in 0..64 {
        assert_eq!([no_looser(&all(64), &all(group)), no_looser(&all(group), &all(64))], [false, true], "{group}");
        let (one, none) = ([1, 0, 0, 0x10, 1, group, 1, 0, 0], [1, 0, 0, 0, 0]);
        assert_eq!([no_looser(&one, &none), no_looser(&none, &one)], [false, true], "{group}");
    }
}

#[test]
fn each_of_sixteen_trees_is_compared() {
    let all = |looser: u8| [vec![16], (0..16).flat_map(|kind| [kind, 0, (kind == looser) as u8, 0]).collect()].concat();
    for kind in 0..16 {
        assert_eq!([no_looser(&all(16), &all(kind)), no_looser(&all(kind), &all(16))], [true, false], "{kind}");
    }
}

#[test]
fn trees_are_found_by_their_kinds() {
    let one = "01 00 00 01 00";
    let (two, turned) = ("02 00 00 01 00 01 00 02 00", "02 01 00 02 00 00 00 01 00");
    assert_eq!(both_ways(two, turned), [true, true]);
    assert_eq!(both_ways(one, two), [true, false]);
    assert_eq!(both_ways(one, turned), [true, false]);
    assert_eq!(both_ways("00", two), [true, false]);
    assert_eq!(both_ways("00", "00"), [true, true]);
    assert_eq!(both_ways(one, "01 01 00 01 00"), [false, false]);
    // Each tree by itself: the second alone is looser.
    assert_eq!(both_ways(two, "02 00 00 01 00 01 00 00 00"), [false, true]);
    assert_eq!(both_ways(turned, "02 00 00 01 00 01 00 00 00"), [false, true]);
}

#[test]
fn groups_and_children_are_the_same() {
    let charter = "01 00 00 00 02 01 01 00 02 01 00";
    let others = [
        "01 00 03 00 02 01 01 00 02 01 00",          // another root
        "01 00 00 00 02 01 01 00 03 01 00",          // another child
        "01 00 00 00 02 02 01 00 01 01 00",          // the children exchanged
        "01 00 00 00 01 01 01 00",                   // the last child missing
        "01 00 00 00 01 02 01 00",                   // the first child missing
        "01 00 00 00 00",                            // both missing
        "01 00 00 00 03 01 01 00 02 01 00 03 00 00", // a child more
        "01 00 00 00 03 01 01 00 02 01 00 02 01 00", // the last child twice
        "01 00 00 00 01 01 01 01 02 01 00",          // the second child below the first
        "01 00 00 00 02 01 01 00 02 01 01 03 00 00", // a child below the last
    ];
    for other in others {
        assert_eq!(both_ways(charter, other), [false, false], "{other}");
        assert_eq!(both_ways(other, other), [true, true], "{other}");
    }
    // The same groups in the same reading order, nested in three ways.
    let nested = [
        "01 00 00 00 02 01 00 00 02 00 01 03 00 00",
        "01 00 00 00 02 01 00 01 02 00 00 03 00 00",
        "01 00 00 00 01 01 00 02 02 00 00 03 00 00",
    ];
    for (i, a) in nested.iter().enumerate() {
        nested.iter().enumerate().for_each(|(j, b)| assert_eq!(both_ways(a, b), [i == j; 2], "{a} and {b}"));
    }
}

#[test]
fn sisters_of_one_group_are_compared_in_their_order() {
    // Group 1 twice below the root, once with a child.
    let (first, second) = ("01 00 00 00 02 01 00 01 02 00 00 01 00 00", "01 00 00 00 02 01 00 00 01 00 01 02 00 00");
    assert_eq!(both_ways(first, second), [false, false]);
    assert_eq!(both_ways(first, first), [true, true]);
}

/// Charters that fail a question, each with one that is mended by a byte or two.
const FAILING: &[(u32, &str, &str)] = &[
    (11, "", "00"),
    (11, "00 00", "00"),
    (11, "01", "00"),
    (11, "01 10 00 00 00", "01 0F 00 00 00"),
    (11, "01 00 40 00 00", "01 00 3F 00 00"),
    (11, "01 00 00 40 00", "01 00 00 00 00"),
    (11, "01 00 00 20 00 00", "01 00 00 20 00 00 00"),
    (11, "01 00 00 10 01 05 00 00 00", "01 00 00 10 01 05 01 00 00"),
    (11, "01 00 00 10 01 05 00 10 00", "01 00 00 10 01 05 FF 0F 00"),
    (11, "01 00 00 10 02 05 01 00 05 01 00 00", "01 00 00 10 02 05 01 00 06 01 00 00"),
    (11, "01 00 00 10 00 00", "01 00 00 00 00"),
    (12, "02 00 00 00 00 00 00 00 00", "02 00 00 00 00 01 00 00 00"),
    (13, "01 00 00 00 01 00 00 00", "01 00 00 00 01 01 00 00"),
    (14, "01 00 00 00 02 01 00 00 01 01 00", "01 00 00 00 02 01 00 00 01 00 00"),
    (14, "01 00 00 00 02 01 00 00 01 20 FF FF 00", "01 00 00 00 02 01 00 00 01 00 00"),
    (15, "01 00 00 08 01 01 10 01 05 01 00 00", "01 00 00 08 01 01 10 01 01 01 00 00"),
];

#[test]
fn a_charter_that_fails_is_not_compared() {
    for &(number, failing, mended) in FAILING {
        let read = charter::read(&bytes(failing)).and_then(|charter| charter.check());
        assert_eq!(read, Err(number), "{failing}");
        for other in [failing, mended, "00", CHARTER] {
            assert_eq!(both_ways(failing, other), [false, false], "{failing} and {other}");
        }
        assert_eq!(both_ways(mended, mended), [true, true], "{mended}");
    }
}

/// A charter of 20 nodes with such a count for each of 64 groups and one with it for fewer; so many of them, the last ones, have a map of
/// purposes, which takes two bytes.
fn long(count: u16, last: u8, maps: u8) -> Vec<u8> {
    let mut out = vec![1, 0];
    for group in 0..21 {
        let (items, map) = (if group < 20 { 64 } else { last }, group + maps > 20);
        out.extend([group, if map { 0x30 } else { 0x10 }, items]);
        (0..items).for_each(|into| out.extend([&[into], &count.to_le_bytes()[..]].concat()));
        out.extend([if map { &[1, 0x80] } else { &[][..] }, &[if group == 0 { 20 } else { 0 }]].concat());
    }
    out
}

#[test]
fn a_charter_has_at_most_4096_bytes() {
    let (short, longest, longer, still_longer) = (long(1, 56, 0), long(1, 56, 1), long(1, 57, 0), long(1, 56, 2));
    assert_eq!([&short, &longest, &longer, &still_longer].map(Vec::len), [LONGEST - 2, LONGEST, LONGEST + 1, LONGEST + 2]);
    assert!(no_looser(&longest, &longest) && no_looser(&longest, &long(2, 56, 1)) && !no_looser(&long(2, 56, 1), &longest));
    assert_eq!(charter::read(&longer).and_then(|charter| charter.check()), Ok(()));
    assert!(!no_looser(&longer, &longer) && no_looser(&[0], &longest) && !no_looser(&[0], &longer));
    // One of them alone is too long.
    assert!(no_looser(&longest, &short) && !no_looser(&still_longer, &short));
    assert!(no_looser(&short, &long(2, 56, 0)) && !no_looser(&short, &longer));
}

/// Charters that pass: all heads above at one node and at the last of several, and others.
fn passing() -> Vec<Vec<u8>> {
    let heads = STRICTER.iter().chain(APART).chain(ALIKE).flatten();
    let charters = heads.flat_map(|head| [one_node(head), last_node(head)]);
    let mended = FAILING.iter().map(|(_, _, mended)| mended.to_string());
    charters.chain(mended).chain([CHARTER.to_string()]).map(|charter| bytes(&charter)).collect()
}

#[test]
fn the_relation_is_reflexive_and_transitive() {
    let charters = passing();
    let answers: Vec<Vec<bool>> = charters.iter().map(|a| charters.iter().map(|b| no_looser(a, b)).collect()).collect();
    let mut through = 0;
    for (a, row) in answers.iter().enumerate() {
        assert!(row[a], "{:02x?}", charters[a]);
        for b in (0..row.len()).filter(|&b| row[b] && b != a) {
            for c in (0..row.len()).filter(|&c| answers[b][c] && c != b) {
                assert!(row[c], "{:02x?} and {:02x?}", charters[a], charters[c]);
                through += 1;
            }
        }
    }
    assert!(through > 1000);
}

/// Charters from the strictest on that accepts W: its own, with an unlimited count, without nondisclose and with a flag more, with a tree
/// more and a map of all purposes.
const CHAIN: [&str; 4] = [
    CHARTER,
    "01 00 00 08 02 01 10 01 00 FF FF 00 02 05 00",
    "01 00 00 00 02 01 10 01 00 FF FF 00 02 07 00",
    "02 05 00 00 00 00 00 00 02 01 30 01 00 FF FF FF FF 00 02 07 00",
];

#[test]
fn a_sheet_that_one_accepts_is_accepted_by_a_looser_one() {
    let checked = |charter: &str| {
        let mut output = [0; 64];
        check(&bytes(W), &bytes(charter), &mut output).map(|length| output[..length].to_vec())
    };
    for (i, a) in CHAIN.iter().enumerate() {
        CHAIN.iter().enumerate().for_each(|(j, b)| assert_eq!(both_ways(a, b), [i <= j, j <= i], "{a} and {b}"));
        assert_eq!(checked(a), checked(CHARTER));
    }
    let strict = "01 00 00 08 02 01 00 00 02 05 00";
    assert_eq!((checked(strict), both_ways(strict, CHARTER)), (Err(18), [true, false]));
    // No, though nothing newly passes: a node less, of which no sheet has need.
    let (less, more) = ("01 00 00 08 02 01 10 01 00 01 00 00 02 05 00", "01 00 00 08 03 01 10 01 00 01 00 00 02 05 00 03 00 00");
    assert_eq!((both_ways(less, more), checked(less)), ([false, false], checked(more)));
}
