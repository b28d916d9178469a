//! Purposes: a component's purpose in the sheet, in the interface and in the listing, the purposes for which a node grants, counts by path
//! and purpose, and runs.
mod society;

use independent::charter;
use independent::demand3::Watch;
use independent::running::State;
use independent::script::Move;
use independent::text::{list, run};
use society::{bytes, names};

/// The interface that check writes, or its number.
fn check(sheet: &str, charter: &str) -> Result<Vec<u8>, u32> {
    let mut output = vec![0xa5; 64];
    let answer = independent::check(&bytes(sheet), &bytes(charter), &mut output);
    answer.map(|length| output[..length].to_vec())
}

/// What check answers with an empty system.
fn charter_answer(charter: &str) -> Result<Vec<u8>, u32> {
    check("00 00", charter)
}

/// One component with the path 0.1 and a purpose that discloses one link of kind 0 into group 0.
fn discloses(purpose: u8) -> String {
    format!("02 02 00 00 00 01 00 00 02 00 04 01 {purpose:02X} 06 00 01 00")
}

/// Two such components, side by side.
fn two(first: u8, second: u8) -> String {
    format!("02 02 00 00 00 01 00 00 02 00 01 04 01 {first:02X} 06 00 01 00 04 01 {second:02X} 06 00 01 00")
}

/// One component of group 0 with a purpose that receives a link of kind 0, reads, writes and discloses it.
fn all_four(purpose: u8) -> String {
    format!("03 02 00 00 00 01 00 00 00 00 04 00 {purpose:02X} 05 00 01 00 00 05 01 00 00 06 01 02 06 00 01 00")
}

/// A map of purposes as it is stored.
fn map(purposes: u16) -> String {
    let [low, high] = purposes.to_le_bytes();
    format!("{low:02X} {high:02X}")
}

/// A charter in which group 1, below group 0, grants one disclosure into group 0 for these purposes.
fn once_for(purposes: u16) -> String {
    format!("01 00 00 08 01 01 30 01 00 01 00 {} 00", map(purposes))
}

/// A charter in which it does for all, and a charter of that count.
const ONCE: &str = "01 00 00 08 01 01 10 01 00 01 00 00";
const TWICE: &str = "01 00 00 08 01 01 10 01 00 02 00 00";

#[test]
fn the_group_is_asked_before_the_purpose() {
    assert_eq!(check("00 02 00 04 00 10 00", "00"), Err(6));
    assert_eq!(check("00 04 40 10 00", "00"), Err(4));
    assert_eq!(check("00 04 00", "00"), Err(2));
    assert_eq!(check("00 04", "00"), Err(2));
    assert_eq!(check("00 04 00 10", "00"), Err(4));
    assert_eq!(check("00 04 00 10 08", "00"), Err(4));
    assert_eq!(check("00 04 00 0F", "00"), Err(2));
    assert_eq!(check("00 04 00 0F 08", "00"), Err(4));
    assert_eq!(check("00 04 00 0F 00 00", "00"), Err(3));
    assert_eq!(check("00 04 00 FF 00", "00"), Err(4));
}

#[test]
fn room_is_asked_at_the_code_byte() {
    let posts = |count: usize| format!("00 {}{}", "01 04 00 00 00 ".repeat(count - 1), "04 00 10 00");
    assert_eq!(check(&posts(32), "00"), Err(4));
    assert_eq!(check(&posts(33), "00"), Err(5));
    let nested = |groups: u8| format!("00 {}04 3F 10 00", (0..groups).map(|group| format!("02 {group:02X} ")).collect::<String>());
    assert_eq!(check(&nested(7), "00"), Err(4));
    assert_eq!(check(&nested(8), "00"), Err(5));
}

#[test]
fn each_purpose_to_15_reads() {
    for purpose in 0..=255u8 {
        let answer = check(&format!("00 04 00 {purpose:02X} 00"), "00");
        assert_eq!(answer, if purpose < 16 { Ok(vec![]) } else { Err(4) }, "{purpose}");
    }
}

#[test]
fn an_old_sheet_is_not_known_as_old() {
    assert_eq!(check("01 00 00 04 00 06 00 00 00", "00"), Err(3));
}

#[test]
fn the_low_byte_of_a_map_is_first() {
    assert_eq!(check(&discloses(8), "01 00 00 08 01 01 30 01 00 01 00 00 01 00"), Ok(bytes("00 02 00 01 08 10 01 00 01 00")));
    assert_eq!(check(&discloses(0), "01 00 00 08 01 01 30 01 00 01 00 00 01 00"), Err(18));
}

#[test]
fn each_bit_is_a_purpose() {
    for purpose in 0..16 {
        for bit in 0..16 {
            let granted = check(&discloses(purpose), &once_for(1 << bit)).is_ok();
            assert_eq!(granted, purpose == bit, "purpose {purpose}, bit {bit}");
            assert_ne!(check(&discloses(purpose), &once_for(!(1 << bit))).is_ok(), granted, "purpose {purpose}, all but bit {bit}");
        }
        assert!(check(&discloses(purpose), ONCE).is_ok());
        assert!(check(&discloses(purpose), &once_for(0xffff)).is_ok());
        assert_eq!(check(&discloses(purpose), &once_for(0)), Err(18));
    }
}

#[test]
fn a_map_of_purposes_follows_the_list() {
    assert_eq!(charter_answer("01 00 00 20 01 00 00"), Ok(vec![]));
    assert_eq!(charter_answer("01 00 00 20 00"), Err(11));
    assert_eq!(charter_answer("01 00 00 20 01 00"), Err(11));
    assert_eq!(charter_answer("01 00 00 20"), Err(11));
    assert_eq!(charter_answer("01 00 00 30 01 00 01 00 FF FF 00"), Ok(vec![]));
    assert_eq!(charter_answer("01 00 00 30 01 00 01 00 00"), Err(11));
    assert_eq!(charter_answer("01 00 00 20 01 00 00 00"), Err(11));
}

#[test]
fn a_map_of_no_purpose_is_allowed() {
    assert_eq!(charter_answer("01 00 00 20 00 00 00"), Ok(vec![]));
}

#[test]
fn bits_6_and_7_stay_zero() {
    for bits in 1..4u8 {
        for below in 0..64u8 {
            let charter = format!("01 00 00 {:02X} 01 00 01 00 01 00 00", bits << 6 | below);
            assert_eq!(charter_answer(&charter), Err(11));
        }
    }
    assert_eq!(charter_answer("01 00 00 40 01 00 00 00 00 00 00"), Err(11));
}

#[test]
fn question_14_compares_the_maps_as_stored() {
    let charter = |first: &str, second: &str| format!("01 00 00 00 02 01 {first} 00 01 {second} 00");
    assert_eq!(charter_answer(&charter("20 FF FF", "00")), Err(14));
    assert_eq!(charter_answer(&charter("00", "20 FF FF")), Err(14));
    assert_eq!(charter_answer(&charter("20 01 00", "20 00 01")), Err(14));
    assert_eq!(charter_answer(&charter("20 01 00", "20 03 00")), Err(14));
    assert_eq!(charter_answer(&charter("20 00 80", "20 00 80")), Ok(vec![]));
    assert_eq!(charter_answer(&charter("20 00 00", "20 00 00")), Ok(vec![]));
    assert_eq!(charter_answer(&charter("30 01 05 01 00 01 00", "30 01 05 01 00 02 00")), Err(14));
}

#[test]
fn at_one_node_14_goes_before_13_by_purposes_too() {
    assert_eq!(charter_answer("01 00 00 20 01 00 01 00 20 01 00 00"), Err(13));
    assert_eq!(charter_answer("01 00 00 20 01 00 01 00 20 02 00 00"), Err(14));
    assert_eq!(charter_answer("02 00 00 20 01 00 00 01 00 20 02 00 00"), Ok(vec![]));
}

#[test]
fn reaching_ignores_purposes() {
    let sheet = discloses(0);
    assert_eq!(check(&sheet, "01 00 00 20 00 00 01 01 10 01 00 01 00 00"), Ok(bytes("00 02 00 01 00 10 01 00 01 00")));
    assert_eq!(check(&sheet, "01 00 00 20 01 00 01 01 30 01 00 01 00 02 00 00"), Err(18));
    assert_eq!(check(&sheet, "01 00 00 20 00 00 01 02 10 01 00 01 00 00"), Err(17));
}

#[test]
fn question_15_ignores_purposes() {
    assert_eq!(charter_answer("01 00 00 08 01 01 30 01 05 01 00 00 00 00"), Err(15));
    assert_eq!(charter_answer("01 00 00 28 00 00 01 01 10 01 05 01 00 00"), Err(15));
    assert_eq!(charter_answer("01 00 00 28 00 00 01 01 30 01 01 01 00 00 00 00"), Ok(vec![]));
}

#[test]
fn nondisclose_is_no_grant() {
    let sheet = discloses(0);
    assert!(check(&sheet, "01 00 00 10 01 00 01 00 01 01 28 01 00 00").is_ok());
    assert!(check(&sheet, "01 00 00 10 01 00 01 00 01 01 28 00 00 00").is_ok());
}

#[test]
fn each_permission_goes_by_the_purpose() {
    for (flags, uncovered) in [("36", "read"), ("35", "write"), ("33", "access"), ("37", "")] {
        let charter = |purposes: u16| format!("01 00 00 {flags} 01 00 01 00 {} 00", map(purposes));
        let told = |purposes: u16| list(&bytes(&all_four(9)), &bytes(&charter(purposes)), &names().write());
        let sentence = |act: &str| format!("refused 18\nGaa may not {act}: Kaa\n");
        let granted = if uncovered.is_empty() { "accepted\n0 0:9 r w a d0:1/1\n".to_string() } else { sentence(uncovered) };
        assert_eq!(told(0x0200), granted);
        assert_eq!(told(0xfdff), sentence("read"));
    }
}

/// Charters of two nodes, which grant the disclosure for these purposes.
fn both(at_root: u16, at_one: u16) -> String {
    format!("01 00 00 30 01 00 01 00 {} 01 01 30 01 00 01 00 {} 00", map(at_root), map(at_one))
}

#[test]
fn one_of_two_groups_grants_for_the_purpose() {
    let told = |purpose: u8, at_root: u16, at_one: u16| list(&bytes(&discloses(purpose)), &bytes(&both(at_root, at_one)), &names().write());
    assert_eq!(told(2, 0x0004, 0x0008), "accepted\n0 0.1:2 d0:1/1\n");
    assert_eq!(told(3, 0x0004, 0x0008), "accepted\n0 0.1:3 d0:1/1\n");
    assert_eq!(told(3, 0x000c, 0x0008), "accepted\n0 0.1:3 d0:1/2\n");
    assert_eq!(told(4, 0x000c, 0x0008), "refused 18\nGaa/Gab may not disclose to Gaa: Kaa\n");
}

#[test]
fn a_group_grants_once_for_a_purpose_though_it_stands_twice() {
    let charter = "01 00 00 00 02 01 30 01 00 01 00 02 00 00 02 00 01 01 30 01 00 01 00 02 00 00";
    let sheet = "02 02 00 00 00 01 00 00 02 00 02 02 04 01 01 06 00 01 00";
    assert_eq!(list(&bytes(sheet), &bytes(charter), &[]), "accepted\n0 0.2.1:1 d0:1/1\n");
}

#[test]
fn two_components_of_one_path_with_two_purposes_have_a_count_each() {
    let interface = "00 02 00 01 00 10 01 00 01 00 00 02 00 01 01 10 01 00 01 00";
    assert_eq!(check(&two(0, 1), ONCE), Ok(bytes(interface)));
    assert_eq!(list(&bytes(&two(0, 1)), &bytes(ONCE), &[]), "accepted\n0 0.1:0 d0:1/1\n0 0.1:1 d0:1/1\n");
    assert_eq!(check(&two(1, 1), ONCE), Err(18));
    assert_eq!(list(&bytes(&two(1, 1)), &bytes(TWICE), &[]), "accepted\n0 0.1:1 d0:2/2\n0 0.1:1 d0:2/2\n");
}

#[test]
fn both_orders_of_the_groups_with_one_purpose_and_with_two() {
    let sheet = |first: u8, second: u8| {
        format!("02 02 00 00 00 01 00 00 01 02 00 04 01 {first:02X} 06 00 01 00 02 01 04 00 {second:02X} 06 00 01 00")
    };
    assert_eq!(check(&sheet(15, 15), ONCE), Err(18));
    assert_eq!(list(&bytes(&sheet(15, 15)), &bytes(TWICE), &[]), "accepted\n0 0.1:15 d0:2/2\n0 1.0:15 d0:2/2\n");
    assert_eq!(list(&bytes(&sheet(15, 7)), &bytes(ONCE), &[]), "accepted\n0 0.1:15 d0:1/1\n0 1.0:7 d0:1/1\n");
}

#[test]
fn the_class_that_a_charter_does_not_serve_is_refused() {
    assert_eq!(check(&two(0, 1), &once_for(0b01)), Err(18));
    assert_eq!(check(&two(0, 1), &once_for(0b10)), Err(18));
    assert!(check(&two(0, 1), &once_for(0b11)).is_ok());
}

#[test]
fn the_slack_form_has_the_purpose_and_its_sums() {
    let mut output = [0; 24];
    let charter = "01 00 00 30 01 00 04 00 02 00 01 01 10 01 00 01 00 00";
    assert_eq!(independent::slack(&bytes(&two(0, 1)), &bytes(charter), &mut output), Ok(24));
    assert_eq!(output.to_vec(), bytes("00 02 00 01 00 10 01 00 01 00 01 00 00 02 00 01 01 10 01 00 01 00 05 00"));
    assert_eq!(independent::slack(&bytes(&two(0, 1)), &bytes(charter), &mut [0; 23]), Err(19));
}

#[test]
fn the_interface_has_the_purpose_after_the_path() {
    assert_eq!(check(&discloses(3), ONCE), Ok(bytes("00 02 00 01 03 10 01 00 01 00")));
    assert_eq!(check(&discloses(3), &once_for(8)), Ok(bytes("00 02 00 01 03 10 01 00 01 00")));
    let output = |length: usize| independent::check(&bytes(&discloses(3)), &bytes(ONCE), &mut vec![0; length]);
    assert_eq!((output(10), output(9)), (Ok(10), Err(19)));
}

#[test]
fn the_sentence_has_no_purpose() {
    let told = list(&bytes(&discloses(5)), &bytes(&once_for(1)), &names().write());
    assert_eq!(told, "refused 18\nGaa/Gab may not disclose to Gaa: Kaa\n");
}

#[test]
fn records_have_no_purpose() {
    for (first, second) in [(0, 0), (4, 4), (0, 15), (15, 0)] {
        let written = run(&bytes(&two(first, second)), &bytes(TWICE), &bytes("02 01 02 00"));
        assert_eq!(written, bytes("00 03 00 00 01 00 01 FF 00 03 00 00 01 00 00 FF"));
    }
    assert_eq!(run(&bytes(&two(4, 4)), &bytes(ONCE), &bytes("02 01 02 00")), b"refused 18\n");
}

#[test]
fn charters_are_written_as_they_were_read() {
    for charter in ["01 00 00 20 00 80 00", "01 03 05 38 01 05 FF FF FF FF 01 06 27 01 00 00", &both(0, 0xffff), &once_for(9), ONCE] {
        assert_eq!(charter::read(&bytes(charter)).unwrap().write(), bytes(charter));
    }
}

/// What demand 3 finds after sends to the environment by threads 0, 0, .. in a run of two components, by another charter than the one
/// that accepts them.
fn found(first: u8, second: u8, looked_at: &str, sends: usize) -> Result<(), String> {
    let mut accepted = independent::accept(&bytes(&two(first, second)), &bytes(TWICE)).unwrap();
    accepted.charter = charter::read(&bytes(looked_at)).unwrap();
    let mut watch = Watch::new(&accepted);
    let mut state = State::start(&accepted.sheet).unwrap();
    for _ in 0..sends {
        let taken = state.step(&Move::Send(0)).unwrap();
        watch.note(&state, &taken);
    }
    watch.look(&state)
}

#[test]
fn demand_3_goes_by_path_and_purpose() {
    for sends in 0..=2 {
        assert_eq!(found(0, 1, ONCE, sends), Ok(()));
        assert_eq!(found(1, 1, TWICE, sends), Ok(()));
        assert!(found(1, 1, ONCE, sends).unwrap_err().starts_with("class of component 0: kind 0, group 0"));
        assert_eq!(found(0, 1, &once_for(0b11), sends), Ok(()));
    }
    assert!(found(0, 1, &once_for(0b01), 2).unwrap_err().starts_with("component 1: kind 0, group 0"));
    assert!(found(0, 1, &once_for(0b10), 2).unwrap_err().starts_with("component 0: kind 0, group 0"));
}

#[test]
fn an_act_that_the_purpose_lacks_is_an_error() {
    let error = "its next act needs Disclose(0) of kind 0, which its grant lacks";
    assert_eq!(found(0, 1, &once_for(0b01), 0), Err(format!("thread 1: {error}")));
    assert_eq!(found(0, 1, &once_for(0b01), 1), Err(format!("thread 0: {error}")));
    assert_eq!(found(0, 1, &once_for(0b10), 0), Err(format!("thread 0: {error}")));
}
