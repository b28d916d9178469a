//! Document 01's table of answers, each component with purpose 0, put to the independent implementation.
mod society;

use society::{bytes, CHARTER, W};

/// The interface that check writes, or its number; memory it may not write has to keep its bytes.
fn check(sheet: &str, charter: &str) -> Result<Vec<u8>, u32> {
    let mut output = vec![0xa5; 64];
    let answer = independent::check(&bytes(sheet), &bytes(charter), &mut output);
    assert!(output[answer.unwrap_or(0)..].iter().all(|&byte| byte == 0xa5));
    answer.map(|length| output[..length].to_vec())
}

fn play(script: &str) -> Vec<u8> {
    let mut log = vec![0xa5; 64];
    let moves = independent::play(&bytes(W), &bytes(CHARTER), &bytes(script), &mut log).unwrap();
    assert!(log[8 * moves..].iter().all(|&byte| byte == 0xa5));
    log[..8 * moves].to_vec()
}

#[test]
fn w_is_accepted() {
    assert_eq!(check(W, CHARTER), Ok(bytes("00 02 00 01 00 10 01 00 01 00 00 02 00 02 00 05")));
    assert_eq!(independent::text::list(&bytes(W), &bytes(CHARTER), &[]), "accepted\n0 0.1:0 d0:1/1\n0 0.2:0 r a\n");
    assert_eq!(check("00 00", "00"), Ok(vec![]));
}

#[test]
fn charters_are_refused() {
    assert_eq!(check(W, "01 00 00 08 02 01 00 00 02 05 00"), Err(18));
    assert_eq!(check(W, "01 00 00 08 01 01 10 01 00 01 00 00"), Err(17));
    assert_eq!(check(W, "00"), Err(16));
    assert_eq!(check(&W.replacen("01 00 06 00", "01 00 07 06 00", 1), CHARTER), Err(18));
}

#[test]
fn sheets_are_refused() {
    assert_eq!(check("", "00"), Err(2));
    assert_eq!(check("00 00 00", "00"), Err(3));
    assert_eq!(check("00 02 00 04 00 00 00", "00"), Err(6));
    assert_eq!(check(&W.replacen("06 00 01", "06 03 01", 1), CHARTER), Err(7));
    assert_eq!(check("01 00 00 04 00 00 06 00 00 00", "00"), Err(8));
    assert_eq!(check(&W.replacen("06 00 01", "06 01 01", 1), CHARTER), Err(9));
    assert_eq!(check(&W.replacen("02 02 00 00 00", "02 02 03 00 00", 1), CHARTER), Err(10));
}

#[test]
fn short_memory_is_refused_untouched() {
    let mut output = [0xa5; 15];
    assert_eq!(independent::check(&bytes(W), &bytes(CHARTER), &mut output), Err(19));
    assert_eq!(output, [0xa5; 15]);
    let mut log = [0xa5; 7];
    assert_eq!(independent::play(&bytes(W), &bytes(CHARTER), &[1, 0], &mut log), Err(22));
    assert_eq!(log, [0xa5; 7]);
}

#[test]
fn w_runs() {
    let records = "00 01 00 00 01 00 00 01 00 05 FF FF 02 00 FF FF 00 02 01 00 02 00 01 FF";
    assert_eq!(play("04 00 01 05 00 00 03 00 02 00"), bytes(records));
    assert_eq!(play("03 01 00 00"), bytes("21 00 00 00 00 00 00 00"));
}
