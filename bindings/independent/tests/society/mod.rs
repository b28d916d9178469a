//! A names file that keeps the rules, and example W.
#![allow(dead_code)]

use independent::names::Names;

pub const W: &str = "02 02 00 00 00 01 00 00 02 00 01 04 01 00 06 00 01 00 04 02 00 05 00 01 00 00 05 02 00 00 00";
pub const CHARTER: &str = "01 00 00 08 02 01 10 01 00 01 00 00 02 05 00";

pub fn bytes(hex: &str) -> Vec<u8> {
    hex.split_whitespace().map(|byte| u8::from_str_radix(byte, 16).unwrap()).collect()
}

/// The groups Gaa, Gab, .. and the kinds Kaa, Kab, ..
pub fn names() -> Names {
    let numbered = |first: char, number: u8| format!("{first}{}{}", (b'a' + number / 26) as char, (b'a' + number % 26) as char);
    Names { groups: (0..64).map(|n| numbered('G', n)).collect(), kinds: (0..16).map(|n| numbered('K', n)).collect() }
}
