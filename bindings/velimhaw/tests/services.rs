//! Tests the services on example W and on refused calls: what is answered, and what the lent memory holds then.
mod w;

use velimhaw::*;

const KEPT: u8 = 0xaa;

#[test]
fn check_w() {
    let mut output = [KEPT; 18];
    assert_eq!(check(&w::SHEET, &w::CHARTER, &mut output), Answer::Accepted(16));
    assert_eq!(output[..16], w::INTERFACE);
    assert_eq!(output[16..], [KEPT; 2]);
}

#[test]
fn play_w() {
    let mut log = [KEPT; 26];
    assert_eq!(play(&w::SHEET, &w::CHARTER, &w::SCRIPT, &mut log), Answer::Accepted(3));
    assert_eq!(log[..24], w::LOG);
    assert_eq!(log[24..], [KEPT; 2]);
}

#[test]
fn try_check_answers_the_entries() {
    let mut output = [KEPT; INTERFACE_MAX];
    let entries = try_check(&w::SHEET, &w::CHARTER, &mut output).unwrap();
    assert_eq!(entries.rest(), w::INTERFACE);
    let lines: Vec<String> = entries.map(|entry| entry.to_string()).collect();
    assert_eq!(lines, ["0 0.1:0 d0:1", "0 0.2:0 r a"]);
}

#[test]
fn try_play_answers_the_records() {
    let mut log = [KEPT; LOG_MAX];
    let records = try_play(&w::SHEET, &w::CHARTER, &w::SCRIPT, &mut log).unwrap();
    assert_eq!(records.rest(), w::LOG);
    assert_eq!(records.count(), 3);
}

#[test]
fn empty_slices() {
    assert_eq!(try_check(&[], &[], &mut []).unwrap_err(), Refusal::new(2));
    assert_eq!(try_check(&[0, 0], &[0], &mut []).unwrap().count(), 0);
    assert_eq!(try_play(&[0, 0], &[0], &[], &mut []).unwrap().count(), 0);
}

#[test]
fn a_refused_check_leaves_the_output() {
    let long = [0; SHEET_MAX + 1];
    let cases: [(u8, &[u8], &[u8]); 4] =
        [(1, &long, &w::CHARTER), (2, &w::SHEET[..30], &w::CHARTER), (11, &w::SHEET, &[]), (16, &w::SHEET, &[0])];
    for (number, sheet, charter) in cases {
        let mut output = [KEPT; 32];
        assert_eq!(try_check(sheet, charter, &mut output).unwrap_err().number(), number.into());
        assert_eq!(output, [KEPT; 32]);
    }
}

#[test]
fn a_short_output_or_log_is_left() {
    let mut output = [KEPT; 15];
    assert_eq!(try_check(&w::SHEET, &w::CHARTER, &mut output).unwrap_err().number(), 19);
    assert_eq!(output, [KEPT; 15]);
    let mut log = [KEPT; 23];
    assert_eq!(try_play(&w::SHEET, &w::CHARTER, &w::SCRIPT, &mut log).unwrap_err().number(), 22);
    assert_eq!(log, [KEPT; 23]);
}

#[test]
fn a_refused_script_leaves_the_log() {
    let mut log = [KEPT; 32];
    assert_eq!(try_play(&w::SHEET, &w::CHARTER, &[9], &mut log).unwrap_err().number(), 21);
    assert_eq!(log, [KEPT; 32]);
}

#[test]
fn a_refused_move_is_a_record() {
    let mut log = [KEPT; 8];
    let records: Vec<Record> = try_play(&w::SHEET, &w::CHARTER, &[3, 1, 0, 0], &mut log).unwrap().collect();
    assert_eq!(records, [Record::Refused(Refusal::new(33))]);
}

/// What `explain` answers for W, with a line of so many bytes, and the line.
fn explained(charter: &[u8], names: &[u8], room: usize) -> (Explanation, Vec<u8>) {
    let mut line = vec![KEPT; room];
    (explain(&w::SHEET, charter, names, &mut line), line)
}

#[test]
fn explain_w() {
    let length = w::SENTENCE.len();
    let (answer, line) = explained(&w::STRICT_CHARTER, &w::names(), length + 2);
    assert_eq!(answer, Explanation::Sentence(length));
    assert_eq!(line[..length], *w::SENTENCE.as_bytes());
    assert_eq!(line[length..], [KEPT; 2]);
    assert_eq!(explained(&w::STRICT_CHARTER, &w::names(), length), (answer, w::SENTENCE.into()));
}

#[test]
fn nothing_to_explain() {
    for names in [w::names(), vec![]] {
        assert_eq!(explained(&w::CHARTER, &names, 4), (Explanation::Accepted, vec![KEPT; 4]));
    }
    assert_eq!(explain(&[0, 0], &[0], &[], &mut []), Explanation::Accepted);
}

#[test]
fn a_refused_explanation_leaves_the_line() {
    let (names, short) = (w::names(), w::SENTENCE.len() - 1);
    let unended = &names[..names.len() - 1];
    let cases: [(usize, &[u8], &[u8], usize); 6] = [
        (16, &[0], unended, 300),
        (11, &[], &names, 300),
        (40, &w::STRICT_CHARTER, unended, 300),
        (40, &w::STRICT_CHARTER, &[], 0),
        (19, &w::STRICT_CHARTER, &names, short),
        (19, &w::STRICT_CHARTER, &names, 0),
    ];
    for (number, charter, names, room) in cases {
        assert_eq!(explained(charter, names, room), (Explanation::Refused(number), vec![KEPT; room]));
    }
}

#[test]
fn try_explain_answers_the_sentence() {
    let mut line = [KEPT; SENTENCE_MAX];
    assert_eq!(try_explain(&w::SHEET, &w::STRICT_CHARTER, &w::names(), &mut line), Ok(Some(w::SENTENCE)));
    assert_eq!(try_explain(&w::SHEET, &w::CHARTER, &w::names(), &mut line), Ok(None));
    assert_eq!(try_explain(&w::SHEET, &w::STRICT_CHARTER, b"?", &mut line), Err(Refusal::new(40)));
    assert_eq!(try_explain(&[], &[], &[], &mut []), Err(Refusal::new(2)));
}

/// Two components whose paths have the groups 0 and 1, in one order and in both; each discloses one link into group 0.
const SHARING_SHEETS: [&[u8]; 2] = [
    &[2, 2, 0, 0, 0, 1, 0, 0, 2, 0, 1, 4, 1, 0, 6, 0, 1, 0, 4, 1, 0, 6, 0, 1, 0],
    &[2, 2, 0, 0, 0, 1, 0, 0, 1, 2, 0, 4, 1, 0, 6, 0, 1, 0, 2, 1, 4, 0, 0, 6, 0, 1, 0],
];

/// A charter that lets such components disclose so many links into group 0.
fn sharing_charter(count: u8) -> [u8; 12] {
    [1, 0, 0, 8, 1, 1, 16, 1, 0, count, 0, 0]
}

#[test]
fn components_with_the_same_groups_share_a_count() {
    for (sheet, second) in SHARING_SHEETS.into_iter().zip(["0 0.1:0 d0:1", "0 1.0:0 d0:1"]) {
        let mut output = [KEPT; 20];
        assert_eq!(check(sheet, &sharing_charter(1), &mut output), Answer::Refused(18));
        assert_eq!(output, [KEPT; 20]);
        let lines: Vec<String> = try_check(sheet, &sharing_charter(2), &mut output).unwrap().map(|entry| entry.to_string()).collect();
        assert_eq!(lines, ["0 0.1:0 d0:1", second]);
        let mut line = [KEPT; SENTENCE_MAX];
        assert_eq!(try_explain(sheet, &sharing_charter(1), &w::names(), &mut line), Ok(Some(w::SENTENCE)));
    }
}

/// Two components of one path with two purposes, and a charter that lets them disclose one link each for these purposes.
const PURPOSES_SHEET: [u8; 25] = [2, 2, 0, 0, 0, 1, 0, 0, 2, 0, 1, 4, 1, 9, 6, 0, 1, 0, 4, 1, 15, 6, 0, 1, 0];

fn purposes_charter(purposes: u16) -> [u8; 14] {
    let [low, high] = purposes.to_le_bytes();
    [1, 0, 0, 8, 1, 1, 48, 1, 0, 1, 0, low, high, 0]
}

#[test]
fn components_with_two_purposes_have_a_count_each() {
    let mut output = [KEPT; 20];
    for purposes in [1 << 9, 1 << 15, !(1 << 9), !(1 << 15), 0] {
        assert_eq!(check(&PURPOSES_SHEET, &purposes_charter(purposes), &mut output), Answer::Refused(18));
        assert_eq!(output, [KEPT; 20]);
    }
    let charters: [&[u8]; 3] = [&sharing_charter(1), &purposes_charter(1 << 9 | 1 << 15), &purposes_charter(0xffff)];
    for charter in charters {
        let lines: Vec<String> = try_check(&PURPOSES_SHEET, charter, &mut output).unwrap().map(|entry| entry.to_string()).collect();
        assert_eq!(lines, ["0 0.1:9 d0:1", "0 0.1:15 d0:1"]);
    }
    let mut log = [KEPT; 16];
    let sent = |component: u8| Record::Output { channel: 0, name: 1, component };
    let records: Vec<Record> = try_play(&PURPOSES_SHEET, &sharing_charter(1), &[2, 1, 2, 0], &mut log).unwrap().collect();
    assert_eq!(records, [sent(1), sent(0)]);
}

#[test]
fn purpose_16_is_refused() {
    let sheet = |purpose: u8| [0, 4, 0, purpose, 0];
    assert_eq!(check(&sheet(PURPOSES - 1), &[0], &mut []), Answer::Accepted(0));
    assert_eq!(check(&sheet(PURPOSES), &[0], &mut []), Answer::Refused(4));
}

/// A component whose path has eight groups discloses a link, under a charter that gives those groups nothing.
fn longest_path() -> (Vec<u8>, Vec<u8>) {
    let mut sheet = vec![2, 2, 0, 0, 0, 1, 0, 0];
    let mut charter = vec![1, 0];
    for group in 0..7 {
        sheet.extend([2, group]);
        charter.extend([group, 0, 1]);
    }
    sheet.extend([4, 7, 0, 6, 0, 1, 0]);
    charter.extend([7, 0, 0]);
    (sheet, charter)
}

#[test]
fn the_longest_sentence_is_written() {
    let (sheet, charter) = longest_path();
    let names: Vec<u8> = (0..80u8).flat_map(|n| [b'a' + n / 8, b'a' + n % 8].into_iter().chain([b'X'; 18]).chain([b'\n'])).collect();
    assert_eq!(names.len(), NAMES_FILE_MAX);
    let mut line = [KEPT; SENTENCE_MAX];
    assert_eq!(explain(&sheet, &charter, &names, &mut line[..SENTENCE_MAX - 1]), Explanation::Refused(19));
    assert_eq!(explain(&sheet, &charter, &names, &mut line), Explanation::Sentence(SENTENCE_MAX));
    assert!(line.starts_with(b"aaXX") && line.ends_with(b"XX"));
}

#[test]
fn the_longest_script_is_played() {
    let script = [5, 4, 0, 1, 2, 3, 0].repeat(MOVES_MAX);
    let mut log = [KEPT; LOG_MAX];
    assert_eq!(script.len(), SCRIPT_MAX);
    let records: Vec<Record> = try_play(&[0, 0], &[0], &script, &mut log).unwrap().collect();
    assert_eq!(records.len(), MOVES_MAX);
    assert_eq!(records[MOVES_MAX - 1], Record::EnvironmentName { name: NAMES_MAX - 1 });
}

#[test]
fn the_constants_of_the_header_are_these() {
    let header = include_str!("../../c/velimhaw.h");
    let sizes = [("SHEET_MAX", SHEET_MAX), ("CHARTER_MAX", CHARTER_MAX), ("SCRIPT_MAX", SCRIPT_MAX), ("INTERFACE_MAX", INTERFACE_MAX)];
    let sums = [("SLACK_MAX", SLACK_MAX), ("NEEDED_MAX", NEEDED_MAX.into()), ("GRANTED_MAX", GRANTED_MAX.into())];
    let texts = [("NAMES_FILE_MAX", NAMES_FILE_MAX), ("SENTENCE_MAX", SENTENCE_MAX), ("MOVED_MAX", MOVED_MAX)];
    let fields = [("KINDS", KINDS.into()), ("GROUPS", GROUPS.into()), ("PURPOSES", PURPOSES.into()), ("PATH_MAX", PATH_MAX.into())];
    let more = [("RECORD_LENGTH", RECORD_LENGTH), ("LOG_MAX", LOG_MAX), ("MOVES_MAX", MOVES_MAX), ("UNLIMITED", UNLIMITED.into())];
    for (name, value) in sizes.into_iter().chain(sums).chain(texts).chain(fields).chain(more) {
        assert!(header.contains(&format!("#define VELIMHAW_{name} {value}u")), "{name}");
    }
}
