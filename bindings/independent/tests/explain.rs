//! The sentence of each permission as the first uncovered one, and what the service explain and the list program answer.
mod society;

use independent::cover::Uncovered;
use independent::names::Names;
use independent::permissions::Need;
use independent::sentence::{self, sentence};
use society::{bytes, names, CHARTER, W};
use std::collections::HashSet;

/// What explain writes; memory it may not write has to keep its bytes.
fn explain(sheet: &[u8], charter: &[u8], names: &[u8], room: usize) -> Result<String, u32> {
    let mut line = vec![0xa5; room];
    let answer = independent::explain(sheet, charter, names, &mut line);
    assert!(line[answer.unwrap_or(0)..].iter().all(|&byte| byte == 0xa5));
    answer.map(|length| String::from_utf8(line[..length].to_vec()).unwrap())
}

/// The sentence for a sheet and a charter under the names Gaa, .. and Kaa, ..
fn told(sheet: &str, charter: &str) -> Result<String, u32> {
    explain(&bytes(sheet), &bytes(charter), &names().write(), 300)
}

/// Holds that sentence against what is expected; an accepted sheet's is empty.
fn says(sheet: &str, charter: &str, sentence: &str) {
    assert_eq!(told(sheet, charter), Ok(sentence.to_string()));
}

/// Free names 0[0[k0]], 0[k0] and k0; one component of group 0 that receives a link, reads, writes and discloses.
const ALL_FOUR: &str = "03 02 00 00 00 01 00 00 00 00 04 00 00 05 00 01 00 00 05 01 00 00 06 01 02 06 00 01 00";

#[test]
fn each_permission_is_met_first() {
    says(ALL_FOUR, "01 00 00 00 00", "Gaa may not read: Kaa");
    says(ALL_FOUR, "01 00 00 16 01 00 01 00 00", "Gaa may not read: Kaa");
    says(ALL_FOUR, "01 00 00 01 00", "Gaa may not write: Kaa");
    says(ALL_FOUR, "01 00 00 15 01 00 01 00 00", "Gaa may not write: Kaa");
    says(ALL_FOUR, "01 00 00 03 00", "Gaa may not access: Kaa");
    says(ALL_FOUR, "01 00 00 13 01 00 01 00 00", "Gaa may not access: Kaa");
    says(ALL_FOUR, "01 00 00 07 00", "Gaa may not disclose to Gaa: Kaa");
    says(ALL_FOUR, "01 00 00 17 01 00 01 00 00", "");
}

#[test]
fn disclosures_by_rising_group() {
    let sheet = "04 02 01 02 05 01 02 05 02 00 02 05 02 02 02 05 02 00 02 02 04 01 00 06 03 01 06 02 01 06 00 01 00";
    says(sheet, "01 05 00 00 01 02 00 01 01 00 00", "Gaa/Gac/Gab may not disclose to Gaa: Kaf");
    says(sheet, "01 05 00 10 01 00 01 00 01 02 00 01 01 00 00", "Gaa/Gac/Gab may not disclose to Gab: Kaf");
    says(sheet, "01 05 00 10 02 00 01 00 01 01 00 01 02 00 01 01 00 00", "Gaa/Gac/Gab may not disclose to Gac: Kaf");
    says(sheet, "01 05 00 10 02 00 01 00 02 01 00 01 02 00 01 01 00 00", "Gaa/Gac/Gab may not disclose to Gab: Kaf");
}

#[test]
fn a_count_too_small_is_the_same_sentence() {
    let twice = W.replacen("06 00 01 00", "06 00 01 06 00 01 00", 1);
    says(&twice, CHARTER, "Gaa/Gab may not disclose to Gaa: Kaa");
    says(&twice, &CHARTER.replacen("10 01 00 01 00", "10 01 00 02 00", 1), "");
    let repeated = W.replacen("01 00 06 00", "01 00 07 06 00", 1);
    says(&repeated, &CHARTER.replacen("10 01 00 01 00", "10 01 00 FF 0F", 1), "Gaa/Gab may not disclose to Gaa: Kaa");
    says(&repeated, &CHARTER.replacen("10 01 00 01 00", "10 01 00 FF FF", 1), "");
}

#[test]
fn the_first_of_two_entries_speaks() {
    let sheet = "03 02 00 00 00 01 00 00 00 00 02 00 01 04 01 00 06 00 01 00 04 02 00 05 01 00 00 00";
    says(sheet, "01 00 00 00 02 01 00 00 02 00 00", "Gaa/Gab may not disclose to Gaa: Kaa");
    says(sheet, "01 00 00 00 02 01 10 01 00 01 00 00 02 00 00", "Gaa/Gac may not read: Kaa");
    says(sheet, "01 00 00 00 02 01 10 01 00 01 00 00 02 01 00", "");
}

#[test]
fn kinds_of_a_component_rise() {
    let sheet = "04 01 00 09 00 09 01 00 02 00 02 04 00 00 05 00 00 09 05 02 00 02 00";
    says(sheet, "02 09 00 00 00 02 00 00 00", "Gaa may not read: Kac");
    says(sheet, "02 09 00 00 00 02 00 01 00", "Gaa may not read: Kaj");
}

#[test]
fn the_longest_sentence() {
    let long = |name: &String| format!("{name}{}", "x".repeat(17));
    let names = Names { groups: names().groups.iter().map(long).collect(), kinds: names().kinds.iter().map(long).collect() };
    let sheet = bytes("02 02 00 00 00 01 00 00 02 00 02 01 02 02 02 03 02 04 02 05 02 06 04 07 00 06 00 01 00");
    let charter = bytes("01 00 00 00 01 01 00 01 02 00 01 03 00 01 04 00 01 05 00 01 06 00 01 07 00 00");
    let written = explain(&sheet, &charter, &names.write(), 300).unwrap();
    assert_eq!(written.len(), sentence::LONGEST);
    assert_eq!(names.write().len(), 1680);
    assert_eq!(explain(&sheet, &charter, &names.write(), 230), Ok(written));
    assert_eq!(explain(&sheet, &charter, &names.write(), 229), Err(19));
}

#[test]
fn questions_in_order() {
    let (right, broken) = (names().write(), b"?".to_vec());
    let strict = "01 00 00 08 02 01 00 00 02 05 00";
    let answer = |sheet: &str, charter: &str, names: &[u8], room| explain(&bytes(sheet), &bytes(charter), names, room).map(|s| s.len());
    assert_eq!(answer(W, strict, &right, 36), Ok(36));
    assert_eq!(answer(W, strict, &right, 35), Err(19));
    assert_eq!(answer(W, strict, &broken, 0), Err(40));
    assert_eq!(answer(W, strict, &[], 300), Err(40));
    for names in [&right, &broken] {
        assert_eq!(answer(W, CHARTER, names, 0), Ok(0));
        assert_eq!(answer(W, "00", names, 300), Err(16));
        assert_eq!(answer("", "00", names, 300), Err(2));
        assert_eq!(answer(W, "01 00 00 08 01 01 10 01 00 01 00 00", names, 300), Err(17));
    }
}

#[test]
fn list_writes_a_second_line() {
    let list = |charter: &str, names: &[u8]| independent::text::list(&bytes(W), &bytes(charter), names);
    let (right, strict) = (names().write(), "01 00 00 08 02 01 00 00 02 05 00");
    assert_eq!(list(strict, &right), "refused 18\nGaa/Gab may not disclose to Gaa: Kaa\n");
    assert_eq!(list(strict, &[]), "refused 18\nrefused 40\n");
    assert_eq!(list("00", b"?"), "refused 16\n");
    assert_eq!(list(CHARTER, b"?"), "accepted\n0 0.1:0 d0:1/1\n0 0.2:0 r a\n");
    assert_eq!(independent::text::run(&bytes(W), &bytes(strict), &[]), b"refused 18\n");
}

/// Paths of one to three of the first groups.
fn paths() -> Vec<Vec<u8>> {
    let mut paths: Vec<Vec<u8>> = vec![vec![]];
    let mut at = 0;
    while at < paths.len() {
        let path = paths[at].clone();
        let longer = (0..6).filter(|group| path.len() < 3 && !path.contains(group)).map(|group| [&path[..], &[group]].concat());
        paths.extend(longer);
        at += 1;
    }
    paths.split_off(1)
}

#[test]
fn different_triples_give_different_sentences() {
    let mut names = names();
    for (number, name) in ["a", "aa", "read", "disclose", "may", "to"].into_iter().enumerate() {
        names.groups[number] = name.to_string();
        names.kinds[number] = name.to_string();
    }
    let needs = [Need::Read, Need::Write, Need::Access].into_iter().chain((0..6).map(Need::Disclose));
    let pairs: Vec<(Need, u8)> = needs.flat_map(|need| (0..6).map(move |kind| (need, kind))).collect();
    let triples: Vec<Uncovered> =
        paths().into_iter().flat_map(|path| pairs.iter().map(move |&(need, kind)| Uncovered { path: path.clone(), need, kind })).collect();
    let sentences: HashSet<String> = triples.iter().map(|uncovered| sentence(&names, uncovered)).collect();
    assert_eq!((triples.len(), sentences.len()), (156 * 54, 156 * 54));
}
