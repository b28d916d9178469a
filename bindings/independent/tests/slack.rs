//! How much a charter leaves over: the covering test's verdicts, the slack form and the lines of the list program, and what a charter
//! trimmed by the slack that is told answers.
mod society;

use independent::cover::Sums;
use independent::permissions::{Count, Need};
use independent::text::list;
use society::{bytes, names, CHARTER, W};

/// One component with the path 0.1 that discloses one link of kind 0 into group 0; the same without limit.
const ONCE: &str = "02 02 00 00 00 01 00 00 02 00 04 01 00 06 00 01 00";
const UNLIMITED: &str = "02 02 00 00 00 01 00 00 02 00 04 01 00 07 06 00 01 00";
/// Two such components, with one path and with both orders of its groups.
const TWICE: &str = "02 02 00 00 00 01 00 00 02 00 01 04 01 00 06 00 01 00 04 01 00 06 00 01 00";
const TWO_ORDERS: &str = "02 02 00 00 00 01 00 00 01 02 00 04 01 00 06 00 01 00 02 01 04 00 00 06 00 01 00";

/// The bytes of the slack form, or the number; memory it may not write has to keep its bytes.
fn slack(sheet: &str, charter: &str, room: usize) -> Result<Vec<u8>, u32> {
    let mut output = vec![0xa5; room];
    let answer = independent::slack(&bytes(sheet), &bytes(charter), &mut output);
    assert!(output[answer.unwrap_or(0)..].iter().all(|&byte| byte == 0xa5));
    answer.map(|length| output[..length].to_vec())
}

/// Holds the slack form and the lines of the list program against what is expected.
fn tells(sheet: &str, charter: &str, form: &str, lines: &str) {
    assert_eq!(slack(sheet, charter, 64), Ok(bytes(form)));
    assert_eq!(list(&bytes(sheet), &bytes(charter), &[]), format!("accepted\n{lines}"));
}

/// The numbers of the first verdict for group 0.
fn sums(sheet: &str, charter: &str) -> Sums {
    independent::judge(&bytes(sheet), &bytes(charter)).unwrap().verdicts[0].disclose[&0]
}

#[test]
fn w() {
    let form = "00 02 00 01 00 10 01 00 01 00 01 00 00 02 00 02 00 05";
    tells(W, CHARTER, form, "0 0.1:0 d0:1/1\n0 0.2:0 r a\n");
    assert_eq!(slack(W, CHARTER, 18), Ok(bytes(form)));
    assert_eq!(slack(W, CHARTER, 17), Err(19));
    assert_eq!(slack(W, CHARTER, 0), Err(19));
}

#[test]
fn questions_1_to_18_are_check_s() {
    let refused = [(W, "00", 16), (W, "01 00 00 08 01 01 10 01 00 01 00 00", 17), (W, "01 00 00 08 02 01 00 00 02 05 00", 18)];
    for (sheet, charter, number) in refused.into_iter().chain([("", "00", 2), ("00 00", "", 11)]) {
        assert_eq!(slack(sheet, charter, 64), Err(number));
    }
    assert_eq!(slack("00 00", "00", 0), Ok(vec![]));
}

#[test]
fn needed_is_the_sum_of_a_class_at_each_entry() {
    let charter = "01 00 00 08 01 01 10 01 00 03 00 00";
    let form = "00 02 00 01 00 10 01 00 02 00 03 00 00 02 00 01 00 10 01 00 02 00 03 00";
    tells(TWICE, charter, form, "0 0.1:0 d0:2/3\n0 0.1:0 d0:2/3\n");
    let form = "00 02 00 01 00 10 01 00 02 00 03 00 00 02 01 00 00 10 01 00 02 00 03 00";
    tells(TWO_ORDERS, charter, form, "0 0.1:0 d0:2/3\n0 1.0:0 d0:2/3\n");
}

#[test]
fn granted_may_pass_4095() {
    let form = "00 02 00 01 00 10 01 00 01 00 FE 1F";
    tells(ONCE, "01 00 00 10 01 00 FF 0F 01 01 10 01 00 FF 0F 00", form, "0 0.1:0 d0:1/8190\n");
    let sheet = "02 02 00 00 00 01 00 00 02 00 02 01 02 02 02 03 02 04 02 05 02 06 04 07 00 06 00 01 00";
    let below: String = (1..8).map(|group| format!("01 {group:02X} 10 01 00 FF 0F ")).collect();
    let form = "00 08 00 01 02 03 04 05 06 07 00 10 01 00 01 00 F8 7F";
    tells(sheet, &format!("01 00 00 10 01 00 FF 0F {below}00"), form, "0 0.1.2.3.4.5.6.7:0 d0:1/32760\n");
}

#[test]
fn unlimited_on_each_side_by_itself() {
    let charter = "01 00 00 10 01 00 FF FF 01 01 00 00";
    tells(ONCE, charter, "00 02 00 01 00 10 01 00 01 00 FF FF", "0 0.1:0 d0:1/*\n");
    tells(UNLIMITED, charter, "00 02 00 01 00 10 01 00 FF FF FF FF", "0 0.1:0 d0:*/*\n");
    tells(ONCE, "01 00 00 10 01 00 FF FF 01 01 10 01 00 05 00 00", "00 02 00 01 00 10 01 00 01 00 FF FF", "0 0.1:0 d0:1/*\n");
}

#[test]
fn groups_that_an_entry_does_not_disclose_into_are_not_told() {
    let charter = "01 00 00 10 02 00 01 00 05 03 00 01 01 00 00";
    tells(ONCE, charter, "00 02 00 01 00 10 01 00 01 00 01 00", "0 0.1:0 d0:1/1\n");
    let into_two = "04 02 00 00 00 01 00 00 02 01 00 00 01 00 00 02 00 01 04 01 00 06 00 01 00 04 01 00 06 02 03 00";
    let charter = "01 00 00 10 02 00 02 00 01 03 00 01 01 00 00";
    let form = "00 02 00 01 00 10 01 00 01 00 02 00 00 02 00 01 00 10 01 01 01 00 03 00";
    tells(into_two, charter, form, "0 0.1:0 d0:1/2\n0 0.1:0 d1:1/3\n");
}

#[test]
fn verdicts_are_answered_where_the_test_fails_too() {
    let strict = "01 00 00 08 02 01 00 00 02 04 00";
    let judged = independent::judge(&bytes(W), &bytes(strict)).unwrap();
    assert_eq!(sums(W, strict), Sums { needed: Count::Finite(1), granted: Count::Finite(0) });
    assert_eq!(judged.verdicts[1].flags, [(Need::Read, false), (Need::Access, true)]);
    let uncovered: Vec<Option<Need>> = judged.verdicts.iter().map(|verdict| verdict.uncovered()).collect();
    assert_eq!(uncovered, [Some(Need::Disclose(0)), Some(Need::Read)]);
    assert_eq!(judged.uncovered().unwrap().need, Need::Disclose(0));
    assert_eq!(sums(TWICE, "01 00 00 00 01 01 10 01 00 01 00 00"), Sums { needed: Count::Finite(2), granted: Count::Finite(1) });
}

#[test]
fn no_slack_is_shown_on_a_refusal() {
    let strict = bytes("01 00 00 08 01 01 10 01 00 01 00 00");
    assert_eq!(list(&bytes(TWICE), &strict, &names().write()), "refused 18\nGaa/Gab may not disclose to Gaa: Kaa\n");
}

/// A charter that gives group 0 such a count at group 0, its root, and such a one at group 1 below it; 0 is no list.
fn granted(at_root: u8, at_one: u8) -> String {
    let list = |count: u8| if count == 0 { "00".to_string() } else { format!("10 01 00 {count:02X} 00") };
    format!("01 00 00 {} 01 01 {} 00", list(at_root), list(at_one))
}

#[test]
fn a_count_trimmed_by_the_slack_accepts_and_by_one_more_refuses() {
    assert_eq!(sums(TWICE, &granted(1, 9)), Sums { needed: Count::Finite(2), granted: Count::Finite(10) });
    assert!(slack(TWICE, &granted(1, 9 - 8), 64).is_ok());
    assert_eq!(slack(TWICE, &granted(1, 0), 64), Err(18));
}

#[test]
fn a_count_below_the_slack_may_go() {
    assert_eq!(sums(TWICE, &granted(3, 4)), Sums { needed: Count::Finite(2), granted: Count::Finite(7) });
    assert!(slack(TWICE, &granted(0, 4), 64).is_ok());
    assert!(slack(TWICE, &granted(3, 0), 64).is_ok());
}
