//! Components of one purpose, here 0, whose paths have the same groups share one count: what check, list and play answer, and demand 3 by
//! their class.
mod society;

use independent::demand3::Watch;
use independent::running::State;
use independent::text::list;
use society::{bytes, names};

/// The free names 0[0[k0]] and 0[k0]; what a component sends to disclose one link of kind 0 into group 0.
const FREE: &str = "02 02 00 00 00 01 00 00";
const DISCLOSES: &str = "06 00 01";

/// A sheet of these free names and a system.
fn sheet(system: &str) -> Vec<u8> {
    bytes(&format!("{FREE} {system}"))
}

/// A charter of kind 0: group 0, and below it group 1 with a count for group 0; then children of group 1.
fn charter(count: u16, below: &str) -> Vec<u8> {
    let [low, high] = count.to_le_bytes();
    bytes(&format!("01 00 00 08 01 01 10 01 00 {low:02X} {high:02X} {below}"))
}

/// What check answers for a system, with a count for group 0 at group 1.
fn answer(system: &str, count: u16) -> Result<usize, u32> {
    independent::check(&sheet(system), &charter(count, "00"), &mut [0; 256])
}

/// What the list program writes below `refused 18`.
fn sentence(sheet: &[u8], charter: &[u8]) -> String {
    let text = list(sheet, charter, &names().write());
    text.strip_prefix("refused 18\n").expect("a refusal with 18").to_string()
}

/// In group 0 two components of group 1, each of which discloses so often.
fn one_path(first: usize, second: usize) -> String {
    let times = |count: usize| vec![DISCLOSES; count].join(" ");
    format!("02 00 01 04 01 00 {} 00 04 01 00 {} 00", times(first), times(second))
}

/// One component with the path 0.1 and one with the path 1.0, each of which discloses once.
const TWO_ORDERS: &str = "01 02 00 04 01 00 06 00 01 00 02 01 04 00 00 06 00 01 00";
/// Two components with the path 0.1; the second discloses without limit.
const ONE_UNLIMITED: &str = "02 00 01 04 01 00 06 00 01 00 04 01 00 07 06 00 01 00";
const FIRST: &str = "Gaa/Gab may not disclose to Gaa: Kaa\n";

#[test]
fn a_count_that_just_covers_the_sum_and_one_less() {
    for (first, second) in [(1, 1), (1, 3), (3, 1), (2, 5)] {
        let sum = (first + second) as u16;
        assert_eq!(answer(&one_path(first, second), sum), Ok(20), "{first} and {second}");
        assert_eq!(answer(&one_path(first, second), sum + 1), Ok(20), "{first} and {second}");
        assert_eq!(answer(&one_path(first, second), sum - 1), Err(18), "{first} and {second}");
    }
}

#[test]
fn the_interface_keeps_each_component_s_own_count_and_list_shows_the_sum() {
    let mut output = [0; 20];
    assert_eq!(independent::check(&sheet(&one_path(1, 2)), &charter(3, "00"), &mut output), Ok(20));
    assert_eq!(output.to_vec(), bytes("00 02 00 01 00 10 01 00 01 00 00 02 00 01 00 10 01 00 02 00"));
    assert_eq!(list(&sheet(&one_path(1, 1)), &charter(2, "00"), &[]), "accepted\n0 0.1:0 d0:2/2\n0 0.1:0 d0:2/2\n");
}

#[test]
fn one_set_in_another_order() {
    assert_eq!(answer(TWO_ORDERS, 1), Err(18));
    assert_eq!(answer(TWO_ORDERS, 2), Ok(20));
}

#[test]
fn a_larger_set_has_its_own_count() {
    let system = "02 00 01 04 01 00 06 00 01 00 02 01 04 02 00 06 00 01 00";
    let mut output = [0; 21];
    assert_eq!(independent::check(&sheet(system), &charter(1, "01 02 00 00"), &mut output), Ok(21));
    assert_eq!(output.to_vec(), bytes("00 02 00 01 00 10 01 00 01 00 00 03 00 01 02 00 10 01 00 01 00"));
    let three = "02 00 01 01 04 01 00 06 00 01 00 02 01 04 02 00 06 00 01 00 04 01 00 06 00 01 00";
    assert_eq!(sentence(&sheet(three), &charter(1, "01 02 00 00")), FIRST);
    assert!(independent::accept(&sheet(three), &charter(2, "01 02 00 00")).is_ok());
}

#[test]
fn one_unlimited_makes_the_sum_unlimited() {
    assert_eq!(sentence(&sheet(ONE_UNLIMITED), &charter(4095, "00")), FIRST);
    assert_eq!(answer(ONE_UNLIMITED, 65535), Ok(20));
}

#[test]
fn the_first_entry_that_has_it_speaks() {
    assert_eq!(sentence(&sheet(TWO_ORDERS), &charter(1, "00")), FIRST);
    let other_way = "01 02 01 04 00 00 06 00 01 00 02 00 04 01 00 06 00 01 00";
    assert_eq!(sentence(&sheet(other_way), &charter(1, "00")), "Gab/Gaa may not disclose to Gaa: Kaa\n");
    assert_eq!(sentence(&sheet(&one_path(1, 3)), &charter(3, "00")), FIRST);
    assert_eq!(sentence(&sheet("02 01 04 00 00 06 00 01 00"), &bytes("01 00 00 08 01 01 00 00")), "Gab/Gaa may not disclose to Gaa: Kaa\n");
}

#[test]
fn an_entry_without_the_disclosure_is_passed_over() {
    let system = "01 02 00 04 01 00 05 00 01 00 00 00 02 00 01 04 01 00 06 00 01 00 04 01 00 06 00 01 00";
    let granted = |flags: &str, count: &str| bytes(&format!("01 00 00 08 01 01 {flags} 01 00 {count} 00 00"));
    assert_eq!(sentence(&sheet(system), &granted("10", "01")), "Gaa/Gab may not access: Kaa\n");
    assert_eq!(sentence(&sheet(system), &granted("14", "01")), FIRST);
    assert!(independent::accept(&sheet(system), &granted("14", "02")).is_ok());
}

#[test]
fn flags_are_not_shared() {
    let reads_and_discloses = bytes("03 02 00 00 00 01 00 00 00 00 02 00 01 04 01 00 05 01 00 00 00 04 01 00 06 00 01 00");
    assert_eq!(sentence(&reads_and_discloses, &bytes("01 00 00 00 01 01 10 01 00 01 00 00")), "Gaa/Gab may not read: Kaa\n");
    assert!(independent::accept(&reads_and_discloses, &bytes("01 00 00 00 01 01 11 01 00 01 00 00")).is_ok());
}

#[test]
fn kinds_and_groups_are_counted_by_themselves() {
    let two_kinds = bytes("04 02 00 00 00 01 00 00 02 00 00 01 01 00 01 02 00 01 04 01 00 06 00 01 00 04 01 00 06 02 03 00");
    let one_each = bytes("02 00 00 10 01 00 01 00 01 01 00 00 01 00 10 01 00 01 00 01 01 00 00");
    assert!(independent::accept(&two_kinds, &one_each).is_ok());
    let two_groups = bytes("03 02 00 00 00 01 00 00 02 01 00 00 02 00 01 04 01 00 06 00 01 00 04 01 00 06 02 01 00");
    assert!(independent::accept(&two_groups, &bytes("01 00 00 10 02 00 01 00 01 01 00 01 01 00 00")).is_ok());
}

#[test]
fn the_counts_of_several_groups_cover_a_sum_together() {
    let granted = |at_root: u8, at_one: u8| bytes(&format!("01 00 00 10 01 00 {at_root:02X} 00 01 01 10 01 00 {at_one:02X} 00 00"));
    assert!(independent::accept(&sheet(&one_path(2, 3)), &granted(4, 1)).is_ok());
    assert_eq!(sentence(&sheet(&one_path(2, 3)), &granted(1, 3)), FIRST);
}

/// What demand 3 finds after sends to the environment by threads 0, 0, .. in a run of a system under a charter's count.
fn found(system: &str, count: u16, sends: usize) -> Result<(), String> {
    let (sheet_bytes, accepting, looked_at) = (sheet(system), charter(65535, "00"), charter(count, "00"));
    let mut accepted = independent::accept(&sheet_bytes, &accepting).unwrap();
    accepted.charter = independent::charter::read(&looked_at).unwrap();
    let mut watch = Watch::new(&accepted);
    let mut state = State::start(&accepted.sheet).unwrap();
    for _ in 0..sends {
        let taken = state.step(&independent::script::Move::Send(0)).unwrap();
        watch.note(&state, &taken);
    }
    watch.look(&state)
}

#[test]
fn demand_3_holds_a_class_to_one_count() {
    for sends in 0..=5 {
        assert_eq!(found(&one_path(2, 3), 5, sends), Ok(()));
        let told = found(&one_path(2, 3), 4, sends).unwrap_err();
        assert!(told.starts_with("class of component 0: kind 0, group 0"), "{told}");
        assert!(found(&one_path(2, 3), 2, sends).unwrap_err().starts_with("component 1: kind 0, group 0"));
    }
    assert!(found(TWO_ORDERS, 1, 1).unwrap_err().starts_with("class of component 0"));
    assert_eq!(found(TWO_ORDERS, 2, 2), Ok(()));
    assert_eq!(found(ONE_UNLIMITED, 65535, 1), Ok(()));
}

#[test]
fn an_accepted_run_uses_the_shared_count_up() {
    let mut log = [0; 16];
    assert_eq!(independent::play(&sheet(TWO_ORDERS), &charter(2, "00"), &bytes("02 01 02 00"), &mut log), Ok(2));
    assert_eq!(log.to_vec(), bytes("00 03 00 00 01 00 01 FF 00 03 00 00 01 00 00 FF"));
    assert_eq!(independent::play(&sheet(TWO_ORDERS), &charter(1, "00"), &bytes("02 01"), &mut log), Err(18));
}
