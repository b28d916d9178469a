//! Tests the service slack: the lines of what it tells, and what the lent memory holds then.
mod w;

use velimhaw::*;

const KEPT: u8 = 0xaa;

/// One component with the path 0.1 that discloses one link into group 0; the same without limit; and two of the first.
const ONCE: [u8; 17] = [2, 2, 0, 0, 0, 1, 0, 0, 2, 0, 4, 1, 0, 6, 0, 1, 0];
const REPEATED: [u8; 18] = [2, 2, 0, 0, 0, 1, 0, 0, 2, 0, 4, 1, 0, 7, 6, 0, 1, 0];
const TWICE: [u8; 25] = [2, 2, 0, 0, 0, 1, 0, 0, 2, 0, 1, 4, 1, 0, 6, 0, 1, 0, 4, 1, 0, 6, 0, 1, 0];

/// A charter whose groups 0 and, below it, 1 have such counts for group 0.
fn charter(at_root: u16, at_one: u16) -> Vec<u8> {
    let ([low, high], [lower, higher]) = (at_root.to_le_bytes(), at_one.to_le_bytes());
    vec![1, 0, 0, 16, 1, 0, low, high, 1, 1, 16, 1, 0, lower, higher, 0]
}

/// The entries that are told, as lines.
fn lines(sheet: &[u8], charter: &[u8]) -> Result<Vec<String>, Refusal> {
    let mut output = [KEPT; SLACK_MAX];
    Ok(try_slack(sheet, charter, &mut output)?.map(|entry| entry.to_string()).collect())
}

#[test]
fn slack_of_w() {
    let mut output = [KEPT; 20];
    assert_eq!(slack(&w::SHEET, &w::CHARTER, &mut output), Answer::Accepted(18));
    assert_eq!(output[..18], w::SLACK);
    assert_eq!(output[18..], [KEPT; 2]);
    assert_eq!(slack(&w::SHEET, &w::CHARTER, &mut output[..18]), Answer::Accepted(18));
    assert_eq!(lines(&w::SHEET, &w::CHARTER).unwrap(), ["0 0.1:0 d0:1/1", "0 0.2:0 r a"]);
}

#[test]
fn a_class_needs_its_sum_at_each_entry() {
    assert_eq!(lines(&TWICE, &charter(1, 1)).unwrap(), ["0 0.1:0 d0:2/2", "0 0.1:0 d0:2/2"]);
    assert_eq!(lines(&TWICE, &charter(4, 1)).unwrap(), ["0 0.1:0 d0:2/5", "0 0.1:0 d0:2/5"]);
}

#[test]
fn two_purposes_are_told_by_themselves() {
    let mut sheet = TWICE;
    sheet[20] = 4;
    let for_4 = [1, 0, 0, 48, 1, 0, 6, 0, 16, 0, 1, 1, 16, 1, 0, 1, 0, 0];
    assert_eq!(lines(&sheet, &for_4).unwrap(), ["0 0.1:0 d0:1/1", "0 0.1:4 d0:1/7"]);
    assert_eq!(lines(&TWICE, &for_4), Err(Refusal::new(18)));
}

#[test]
fn granted_may_pass_the_largest_count() {
    assert_eq!(lines(&ONCE, &charter(COUNT_MAX, COUNT_MAX)).unwrap(), ["0 0.1:0 d0:1/8190"]);
}

#[test]
fn stars_on_each_side_by_itself() {
    assert_eq!(lines(&ONCE, &charter(UNLIMITED, 5)).unwrap(), ["0 0.1:0 d0:1/*"]);
    assert_eq!(lines(&REPEATED, &charter(5, UNLIMITED)).unwrap(), ["0 0.1:0 d0:*/*"]);
}

#[test]
fn the_slack_of_a_disclosed_group() {
    let told = |sheet: &[u8], charter: &[u8]| {
        let mut output = [KEPT; SLACK_MAX];
        try_slack(sheet, charter, &mut output).unwrap().next().unwrap().disclose[0].slack()
    };
    assert_eq!(told(&TWICE, &charter(1, 1)), Some(0));
    assert_eq!(told(&TWICE, &charter(4, 1)), Some(3));
    assert_eq!(told(&ONCE, &charter(COUNT_MAX, COUNT_MAX)), Some(8189));
    assert_eq!(told(&ONCE, &charter(UNLIMITED, 1)), None);
    assert_eq!(told(&REPEATED, &charter(UNLIMITED, 1)), None);
}

#[test]
fn a_count_lowered_by_the_slack_accepts_and_by_one_more_refuses() {
    assert_eq!(lines(&TWICE, &charter(1, 9)).unwrap()[0], "0 0.1:0 d0:2/10");
    assert_eq!(lines(&TWICE, &charter(1, 9 - 8)).unwrap()[0], "0 0.1:0 d0:2/2");
    assert_eq!(lines(&TWICE, &[1, 0, 0, 16, 1, 0, 1, 0, 1, 1, 0, 0]), Err(Refusal::new(18)));
}

#[test]
fn groups_not_disclosed_into_are_not_told() {
    assert_eq!(lines(&ONCE, &[1, 0, 0, 16, 2, 0, 1, 0, 5, 3, 0, 1, 1, 0, 0]).unwrap(), ["0 0.1:0 d0:1/1"]);
}

#[test]
fn a_short_output_is_left() {
    for length in 0..18 {
        let mut output = vec![KEPT; length];
        assert_eq!(try_slack(&w::SHEET, &w::CHARTER, &mut output).unwrap_err().number(), 19);
        assert_eq!(output, vec![KEPT; length]);
    }
}

#[test]
fn a_refused_sheet_leaves_the_output() {
    let long = [0; SHEET_MAX + 1];
    let cases: [(usize, &[u8], &[u8]); 6] = [
        (1, &long, &w::CHARTER),
        (2, &w::SHEET[..30], &w::CHARTER),
        (11, &w::SHEET, &[]),
        (16, &w::SHEET, &[0]),
        (17, &w::SHEET, &charter(1, 1)),
        (18, &w::SHEET, &w::STRICT_CHARTER),
    ];
    for (number, sheet, charter) in cases {
        let mut output = [KEPT; 32];
        assert_eq!(slack(sheet, charter, &mut output), Answer::Refused(number));
        assert_eq!(output, [KEPT; 32]);
    }
}

#[test]
fn empty_slices() {
    assert_eq!(try_slack(&[], &[], &mut []).unwrap_err(), Refusal::new(2));
    assert_eq!(try_slack(&[0, 0], &[0], &mut []).unwrap().count(), 0);
}
