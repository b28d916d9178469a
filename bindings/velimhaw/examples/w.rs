//! Checks and plays example W of docs/REFERENCE.md, and prints the entries of its interface, what its charter leaves over and the records
//! of its log; then explains why another charter refuses it, compares the two charters, and moves the sheet back to the old form and over
//! again.
use velimhaw::{no_looser, try_check, try_downgrade, try_explain, try_play, try_slack, try_upgrade, Refusal};
use velimhaw::{GROUPS, KINDS, LOG_MAX, MOVED_MAX, SENTENCE_MAX, SLACK_MAX};

const SHEET: [u8; 31] = [
    2, 2, 0, 0, 0, 1, 0, 0, 2, 0, 1, 4, 1, 0, 6, 0, 1, 0, 4, 2, 0, 5, 0, 1, 0, 0, 5, 2, 0, 0, 0,
];
const CHARTER: [u8; 15] = [1, 0, 0, 8, 2, 1, 16, 1, 0, 1, 0, 0, 2, 5, 0];
const SCRIPT: [u8; 10] = [4, 0, 1, 5, 0, 0, 3, 0, 2, 0];
/// W's charter without the disclosure of the indexers.
const STRICT_CHARTER: [u8; 11] = [1, 0, 0, 8, 2, 1, 0, 0, 2, 5, 0];

/// So many names, each ended by a newline: those given, then Xaa, Xab, ..
fn list(given: &[&str], count: u8) -> String {
    let letter = |number: u8| (b'a' + number) as char;
    let name = |n: u8| given.get(n as usize).map_or(format!("X{}{}", letter(n / 8), letter(n % 8)), |name| name.to_string());
    (0..count).map(|n| name(n) + "\n").collect()
}

/// The bytes of a names file.
fn names() -> Vec<u8> {
    (list(&["Society", "Indexers", "Proofreaders"], GROUPS) + &list(&["Entries"], KINDS)).into_bytes()
}

fn main() -> Result<(), Refusal> {
    let mut output = [0; SLACK_MAX];
    let mut log = [0; LOG_MAX];
    println!("check: accepted");
    for entry in try_check(&SHEET, &CHARTER, &mut output)? {
        println!("  {entry}");
    }
    println!("slack: accepted");
    for entry in try_slack(&SHEET, &CHARTER, &mut output)? {
        println!("  {entry}");
    }
    println!("play: accepted");
    for record in try_play(&SHEET, &CHARTER, &SCRIPT, &mut log)? {
        println!("  {record}");
    }
    if let Err(refusal) = try_check(&SHEET, &CHARTER, &mut output[..3]) {
        println!("check with 3 bytes of output: {refusal}");
    }
    if let Err(refusal) = try_check(&SHEET, &STRICT_CHARTER, &mut output) {
        println!("check against a stricter charter: {refusal}");
    }
    let mut line = [0; SENTENCE_MAX];
    if let Some(sentence) = try_explain(&SHEET, &STRICT_CHARTER, &names(), &mut line)? {
        println!("explain: {sentence}");
    }
    let ways = (no_looser(&STRICT_CHARTER, &CHARTER), no_looser(&CHARTER, &STRICT_CHARTER));
    println!("no looser: the stricter charter than W's {}, W's than the stricter one {}", ways.0, ways.1);
    let mut moved = [0; MOVED_MAX];
    let old_sheet = try_downgrade(&SHEET, &mut moved)?;
    println!("downgrade: {} bytes, upgrade: {} bytes", old_sheet.len(), try_upgrade(old_sheet, &mut output)?.len());
    Ok(())
}
