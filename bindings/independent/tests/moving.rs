//! Sheets moved over to the form with purposes and back, and the service check as it was before there were purposes.
mod society;

use independent::dialect::Dialect;
use independent::{before, check, downgrade, sheet, upgrade, LONGEST};
use society::{bytes, CHARTER, W};

/// W before there were purposes.
const OLD_W: &str = "02 02 00 00 00 01 00 00 02 00 01 04 01 06 00 01 00 04 02 05 00 01 00 00 05 02 00 00 00";

/// Sheets in both forms: without components, W, untypable, with many bytes 04 of which one is a component, and with all forms.
const BOTH: [[&str; 2]; 5] = [
    ["00 00", "00 00"],
    [OLD_W, W],
    ["00 04 00 06 09 09 00", "00 04 00 00 06 09 09 00"],
    ["01 01 04 04 02 3F 04 04 05 04 01 04 04 06 04 04 00", "01 01 04 04 02 3F 04 04 00 05 04 01 04 04 06 04 04 00"],
    [
        "01 04 03 02 01 00 0F 03 00 01 01 04 07 07 01 05 00 01 02 03 00 03 02 05 06 07 06 01 FF 00 01 00 02 09 04 08 00",
        "01 04 03 02 01 00 0F 03 00 01 01 04 07 00 07 01 05 00 01 02 03 00 03 02 05 06 07 06 01 FF 00 01 00 02 09 04 08 00 00",
    ],
];

type Service = fn(&[u8], &mut [u8]) -> Result<usize, u32>;

/// What a service writes into an output of so many bytes, or its number; memory it may not write has to keep its bytes.
fn written(service: Service, sheet: &[u8], length: usize) -> Result<Vec<u8>, u32> {
    let mut output = vec![0xa5; length];
    let answer = service(sheet, &mut output);
    assert!(output[answer.unwrap_or(0)..].iter().all(|&byte| byte == 0xa5));
    answer.map(|length| output[..length].to_vec())
}

fn up(old: &str) -> Result<Vec<u8>, u32> {
    written(upgrade, &bytes(old), LONGEST)
}

fn down(new: &str) -> Result<Vec<u8>, u32> {
    written(downgrade, &bytes(new), LONGEST)
}

#[test]
fn sheets_are_moved_both_ways() {
    for [old, new] in BOTH {
        assert_eq!((up(old), down(new)), (Ok(bytes(new)), Ok(bytes(old))));
    }
}

#[test]
fn a_sheet_is_written_as_it_was_read() {
    for [old, new] in BOTH {
        assert_eq!(sheet::read_in(Dialect::Old, &bytes(old)).unwrap().write(Dialect::Old), bytes(old));
        assert_eq!(sheet::read(&bytes(new)).unwrap().write(Dialect::New), bytes(new));
    }
    let purposes = "00 01 04 00 0F 00 04 00 01 00";
    assert_eq!(sheet::read(&bytes(purposes)).unwrap().write(Dialect::New), bytes(purposes));
}

#[test]
fn an_exact_fit_passes_and_one_byte_less_is_19() {
    for [old, new] in BOTH.map(|forms| forms.map(bytes)) {
        for (service, from, to) in [(upgrade as Service, &old, &new), (downgrade, &new, &old)] {
            assert_eq!(written(service, from, to.len()), Ok(to.clone()));
            assert_eq!(written(service, from, to.len() + 1), Ok(to.clone()));
            assert_eq!(written(service, from, to.len() - 1), Err(19));
            assert_eq!(written(service, from, 0), Err(19));
        }
    }
}

#[test]
fn old_sheets_are_refused() {
    for (sheet, number) in [("", 2), ("00 04 00", 2), ("00 00 00", 3), ("00 04 00 00 00", 3), ("21", 4), ("00 05", 4), ("00 04 40 00", 4)] {
        assert_eq!(up(sheet), Err(number), "{sheet}");
    }
    assert_eq!(up("00 04 00 08"), Err(4));
    assert_eq!(up("00 04 00 04 00"), Err(4));
    assert_eq!(up(&format!("00 {}00", "01 04 00 00 ".repeat(33))), Err(5));
    assert_eq!(up("00 02 00 04 00 00"), Err(6));
    assert_eq!(up("00 02 00 04 00 08"), Err(6));
}

#[test]
fn new_sheets_are_refused() {
    for (sheet, number) in [("", 2), ("00 04 00 00", 2), ("00 00 00", 3), ("00 04 00 10 00", 4), ("00 04 00 FF", 4)] {
        assert_eq!(down(sheet), Err(number), "{sheet}");
    }
    assert_eq!(down("00 04 00 00 08"), Err(4));
    assert_eq!(down(&format!("00 {}00", "01 04 00 00 00 ".repeat(33))), Err(5));
    assert_eq!(down("00 02 00 04 00 00 00"), Err(6));
    assert_eq!(down("00 02 00 04 00 10 00"), Err(6));
}

#[test]
fn another_purpose_is_asked_after_6_and_before_19() {
    for purpose in 1..16 {
        assert_eq!(down(&format!("00 04 00 {purpose:02X} 00")), Err(41));
        assert_eq!(down(&format!("00 01 04 00 00 00 04 00 {purpose:02X} 00")), Err(41));
    }
    assert_eq!(written(downgrade, &bytes("00 04 00 01 00"), 0), Err(41));
    assert_eq!(down("00 04 00 01"), Err(2));
    assert_eq!(down("00 04 00 01 00 00"), Err(3));
    assert_eq!(down("00 01 04 00 01 00 04 00 10 00"), Err(4));
    assert_eq!(down("00 01 04 00 01 00 02 01 04 01 00 00"), Err(6));
}

/// Parts side by side, as evenly nested as can be.
fn parallel(parts: &[Vec<u8>]) -> Vec<u8> {
    if let [part] = parts {
        return part.clone();
    }
    let (left, right) = parts.split_at(parts.len() / 2);
    [vec![1], parallel(left), parallel(right)].concat()
}

/// An old sheet of components that have so many nothings side by side: two bytes for each component and for each nothing.
fn long(nothings: &[usize]) -> Vec<u8> {
    let component = |&count: &usize| [vec![4, 0], parallel(&vec![vec![0]; count])].concat();
    [vec![0], parallel(&nothings.iter().map(component).collect::<Vec<_>>())].concat()
}

#[test]
fn the_length_of_the_new_form_is_asked_after_6() {
    let sheet = long(&[63; 32]);
    assert_eq!(sheet.len(), LONGEST);
    assert_eq!(written(upgrade, &sheet, 0), Err(1));
    assert_eq!(written(upgrade, &sheet[..LONGEST - 1], 0), Err(2));
    assert_eq!(written(upgrade, &[&sheet[..], &[0]].concat(), 0), Err(1));
    assert_eq!(written(upgrade, &long(&[2047]), 5000), Err(1));
    assert_eq!(written(upgrade, &[&long(&[2046]), &[0, 0][..]].concat(), 5000), Err(3));
}

#[test]
fn the_longest_new_forms_are_moved_both_ways() {
    for nothings in [vec![1022, 1023], [[62; 16], [63; 16]].concat()] {
        let old = long(&nothings);
        let new = written(upgrade, &old, LONGEST).unwrap();
        assert_eq!((old.len() + nothings.len(), new.len()), (LONGEST, LONGEST));
        assert_eq!(written(downgrade, &new, LONGEST), Ok(old));
        assert_eq!(written(downgrade, &[&new[..], &[0]].concat(), LONGEST), Err(1));
        assert_eq!(written(downgrade, &new[..LONGEST - 1], LONGEST), Err(2));
    }
}

#[test]
fn the_longest_sheet_without_components_is_moved_to_itself() {
    let idle = [vec![0], parallel(&vec![vec![0]; LONGEST / 2])].concat();
    assert_eq!(idle.len(), LONGEST);
    assert_eq!(written(upgrade, &idle, LONGEST), Ok(idle.clone()));
    assert_eq!(written(downgrade, &idle, LONGEST), Ok(idle));
}

#[test]
fn the_interface_had_no_purposes() {
    let checked = |sheet: &[u8], output: &mut [u8]| before(sheet, &bytes(CHARTER), output);
    let interface = bytes("00 02 00 01 10 01 00 01 00 00 02 00 02 05");
    assert_eq!(written(checked, &bytes(OLD_W), interface.len()), Ok(interface.clone()));
    assert_eq!(written(checked, &bytes(OLD_W), interface.len() - 1), Err(19));
}

#[test]
fn a_map_of_purposes_was_11() {
    let charter = bytes("01 00 00 20 FF FF 00");
    assert_eq!(check(&[0, 0], &charter, &mut []), Ok(0));
    assert_eq!(before(&[0, 0], &charter, &mut []), Err(11));
    assert_eq!(before(&[0, 0], &bytes("01 00 00 00 01 01 20 00 00 00"), &mut []), Err(11));
    assert_eq!(before(&bytes("00 04 00 06 00 00 00"), &charter, &mut []), Err(7));
}

#[test]
fn a_moved_sheet_is_answered_as_the_old_one_was() {
    let strict = ["01 00 00 08 02 01 00 00 02 05 00", "01 00 00 08 01 01 10 01 00 01 00 00", "00", "02 00 00 00 00 00 00 00 00", "01"];
    let sheets = [OLD_W, "00 00", "00 04 00 06 09 09 00", "01 00 00 04 00 06 00 00 00"];
    for charter in strict.into_iter().chain([CHARTER]).map(bytes) {
        for old in sheets {
            let was = before(&bytes(old), &charter, &mut [0; 64]).map(|_| ());
            assert_eq!(check(&up(old).unwrap(), &charter, &mut [0; 64]).map(|_| ()), was);
        }
    }
    assert_eq!(before(&bytes(OLD_W), &bytes("01 00 00 08 02 01 00 00 02 05 00"), &mut [0; 64]), Err(18));
}
