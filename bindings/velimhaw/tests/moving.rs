//! Tests the services that move a sheet between the old form and the new one: what is answered, and what the output holds then.
mod w;

use velimhaw::*;

const KEPT: u8 = 0xaa;

type Service = fn(&[u8], &mut [u8]) -> Answer;

/// What a service writes into an output of so many bytes, or its number; the bytes past what it writes are kept.
fn written(service: Service, sheet: &[u8], length: usize) -> Result<Vec<u8>, usize> {
    let mut output = vec![KEPT; length];
    let answer = service(sheet, &mut output).result();
    assert!(output[answer.unwrap_or(0)..].iter().all(|&byte| byte == KEPT));
    answer.map(|length| output[..length].to_vec()).map_err(Refusal::number)
}

/// Sheets in both forms: W, one without components, and one that no charter accepts.
const BOTH: [[&[u8]; 2]; 3] = [[&w::OLD_SHEET, &w::SHEET], [&[0, 0], &[0, 0]], [&[0, 4, 0, 6, 9, 9, 0], &[0, 4, 0, 0, 6, 9, 9, 0]]];

#[test]
fn sheets_are_moved_both_ways() {
    for [old, new] in BOTH {
        for (service, from, to) in [(upgrade as Service, old, new), (downgrade, new, old)] {
            for length in [to.len(), to.len() + 1, MOVED_MAX] {
                assert_eq!(written(service, from, length), Ok(to.to_vec()));
            }
            assert_eq!(written(service, from, to.len() - 1), Err(19));
            assert_eq!(written(service, from, 0), Err(19));
        }
    }
}

#[test]
fn sheets_that_are_not_moved() {
    let not_over: [(&[u8], usize); 5] = [(&[], 2), (&[0, 4, 0], 2), (&[0, 0, 0], 3), (&[0, 4, 0, 8], 4), (&[0, 2, 0, 4, 0, 0], 6)];
    let not_back: [(&[u8], usize); 5] =
        [(&[0, 4, 0, 0], 2), (&[0, 4, 0, PURPOSES, 0], 4), (&[0, 4, 0, 1, 0, 0], 3), (&[0, 4, 0, 1, 0], 41), (&[0, 2, 0, 4, 0, 0, 0], 6)];
    for length in [0, MOVED_MAX] {
        not_over.iter().for_each(|&(sheet, number)| assert_eq!(written(upgrade, sheet, length), Err(number)));
        not_back.iter().for_each(|&(sheet, number)| assert_eq!(written(downgrade, sheet, length), Err(number)));
    }
}

/// A process of so many bytes, as evenly nested as can be.
fn process(length: usize) -> Vec<u8> {
    match length {
        1 => vec![0],
        2 => vec![7, 0],
        _ => [vec![1], process((length - 1) / 2), process(length / 2)].concat(),
    }
}

/// A sheet of so many bytes with one component, up to whose process it is given.
fn long(head: &[u8], length: usize) -> Vec<u8> {
    [head, &process(length - head.len())].concat()
}

#[test]
fn the_new_form_has_at_most_4096_bytes() {
    let (old, new) = (long(&[0, 4, 0], SHEET_MAX - 1), long(&[0, 4, 0, 0], SHEET_MAX));
    assert_eq!(written(upgrade, &old, MOVED_MAX), Ok(new.clone()));
    assert_eq!(written(downgrade, &new, MOVED_MAX), Ok(old));
    let longest = long(&[0, 4, 0], SHEET_MAX);
    assert_eq!(written(upgrade, &longest, 5000), Err(1));
    assert_eq!(written(upgrade, &longest[..SHEET_MAX - 1], 5000), Err(2));
    assert_eq!(written(upgrade, &long(&[0, 4, 0], SHEET_MAX + 1), 5000), Err(1));
    assert_eq!(written(downgrade, &long(&[0, 4, 0, 1], SHEET_MAX + 1), 5000), Err(1));
    assert_eq!(written(downgrade, &long(&[0, 4, 0, 1], SHEET_MAX), 5000), Err(41));
}

#[test]
fn try_services_answer_the_moved_sheet() {
    let (mut old, mut new) = ([KEPT; MOVED_MAX], [KEPT; MOVED_MAX]);
    let back = try_downgrade(&w::SHEET, &mut old).unwrap();
    assert_eq!(back, w::OLD_SHEET);
    assert_eq!(try_upgrade(back, &mut new), Ok(&w::SHEET[..]));
    assert_eq!(try_upgrade(&[], &mut []), Err(Refusal::new(2)));
    assert_eq!(try_downgrade(&[0, 4, 0, 1, 0], &mut []), Err(Refusal::new(41)));
}
