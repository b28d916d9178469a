//! Example W of docs/REFERENCE.md: its sheet, also in the old form, charter and script, and the interface, slack form and log that they
//! give; a charter that refuses it with 18, names, and the sentence that they give.
#![allow(dead_code)]

pub const SHEET: [u8; 31] = [
    2, 2, 0, 0, 0, 1, 0, 0, 2, 0, 1, 4, 1, 0, 6, 0, 1, 0, 4, 2, 0, 5, 0, 1, 0, 0, 5, 2, 0, 0, 0,
];
pub const OLD_SHEET: [u8; 29] = [
    2, 2, 0, 0, 0, 1, 0, 0, 2, 0, 1, 4, 1, 6, 0, 1, 0, 4, 2, 5, 0, 1, 0, 0, 5, 2, 0, 0, 0,
];
pub const CHARTER: [u8; 15] = [1, 0, 0, 8, 2, 1, 16, 1, 0, 1, 0, 0, 2, 5, 0];
pub const SCRIPT: [u8; 10] = [4, 0, 1, 5, 0, 0, 3, 0, 2, 0];
pub const INTERFACE: [u8; 16] = [0, 2, 0, 1, 0, 16, 1, 0, 1, 0, 0, 2, 0, 2, 0, 5];
pub const SLACK: [u8; 18] = [0, 2, 0, 1, 0, 16, 1, 0, 1, 0, 1, 0, 0, 2, 0, 2, 0, 5];
pub const LOG: [u8; 24] = [
    0, 1, 0, 0, 1, 0, 0, 1, 0, 5, 255, 255, 2, 0, 255, 255, 0, 2, 1, 0, 2, 0, 1, 255,
];

/// W's charter without the disclosure of the indexers.
pub const STRICT_CHARTER: [u8; 11] = [1, 0, 0, 8, 2, 1, 0, 0, 2, 5, 0];
pub const SENTENCE: &str = "Society/Indexers may not disclose to Society: Entries";

/// A names file: Society, Indexers, Proofreaders and 61 more groups, Entries and 15 more kinds.
pub fn names() -> Vec<u8> {
    let others = |first: char, from: u8, to: u8| (from..to).map(move |n| format!("{first}{}{}", letter(n / 8), letter(n % 8)));
    let groups = ["Society", "Indexers", "Proofreaders"].map(String::from).into_iter().chain(others('G', 3, 64));
    let kinds = std::iter::once("Entries".to_string()).chain(others('K', 1, 16));
    groups.chain(kinds).flat_map(|name| (name + "\n").into_bytes()).collect()
}

fn letter(number: u8) -> char {
    (b'a' + number) as char
}
