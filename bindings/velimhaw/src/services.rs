//! The services on a sheet and its charter, as the static library answers and as results; and what an answer is.

use crate::{Entries, Records, Refusal, SlackEntries, RECORD_LENGTH};

/// What all services but `explain` and `no_looser` answer.
#[derive(Clone, Copy, Debug, PartialEq, Eq)]
pub enum Answer {
    /// The number of moves (play) or the length written (all others).
    Accepted(usize),
    /// The number of the first question that fails; the memory lent keeps its bytes.
    Refused(usize),
}

impl Answer {
    /// The number that the call was accepted with, or the refusal.
    pub fn result(self) -> Result<usize, Refusal> {
        match self {
            Answer::Accepted(number) => Ok(number),
            Answer::Refused(number) => Err(Refusal::new(number)),
        }
    }
}

/// What `explain` answers.
#[derive(Clone, Copy, Debug, PartialEq, Eq)]
pub enum Explanation {
    /// Questions 1 to 18 pass: there is nothing to explain, and nothing is written.
    Accepted,
    /// Question 18 fails; the length of the sentence written, 1 to [`SENTENCE_MAX`](crate::SENTENCE_MAX).
    Sentence(usize),
    /// The number of the first question that fails: 1 to 17 as for `check`; where 18 fails, 40 for names that break their rules, 19 for
    /// a line shorter than the sentence. The line keeps its bytes.
    Refused(usize),
}

/// A slice as C takes it: where its bytes are, and how many.
#[repr(C)]
pub(crate) struct Bytes {
    at: *const u8,
    length: usize,
}

#[repr(C)]
pub(crate) struct Lent {
    at: *mut u8,
    length: usize,
}

extern "C" {
    fn velimhaw_check(sheet: Bytes, charter: Bytes, output: Lent) -> u64;
    fn velimhaw_slack(sheet: Bytes, charter: Bytes, output: Lent) -> u64;
    fn velimhaw_explain(sheet: Bytes, charter: Bytes, names: Bytes, line: Lent) -> u64;
    fn velimhaw_play(sheet: Bytes, charter: Bytes, script: Bytes, log: Lent) -> u64;
}

pub(crate) fn bytes(s: &[u8]) -> Bytes {
    Bytes { at: s.as_ptr(), length: s.len() }
}

pub(crate) fn lent(s: &mut [u8]) -> Lent {
    Lent { at: s.as_mut_ptr(), length: s.len() }
}

/// Below 64: the number of a question. From 64 on: accepted.
pub(crate) fn answer(code: u64) -> Answer {
    if code < 64 {
        Answer::Refused(code as usize)
    } else {
        Answer::Accepted((code - 64) as usize)
    }
}

/// As [`answer`]; no sentence is empty, so 64 itself says that there is nothing to explain.
fn explanation(code: u64) -> Explanation {
    match answer(code) {
        Answer::Refused(number) => Explanation::Refused(number),
        Answer::Accepted(0) => Explanation::Accepted,
        Answer::Accepted(length) => Explanation::Sentence(length),
    }
}

/// Infers the permissions that a sheet needs, accepts or refuses it against the charter, and writes the interface into the output.
pub fn check(sheet: &[u8], charter: &[u8], output: &mut [u8]) -> Answer {
    // SAFETY: each slice is valid for its length for the time of the call, and `output` is lent to the call alone. The function is
    // proved for any bytes in all three, and writes nothing but `output`.
    answer(unsafe { velimhaw_check(bytes(sheet), bytes(charter), lent(output)) })
}

/// Tells how much a charter leaves over: accepts or refuses a sheet as [`check`] does, and writes the slack form, the needed sums beside
/// the granted ones, into the output.
pub fn slack(sheet: &[u8], charter: &[u8], output: &mut [u8]) -> Answer {
    // SAFETY: as for `check`.
    answer(unsafe { velimhaw_slack(bytes(sheet), bytes(charter), lent(output)) })
}

/// Says in words why a sheet is refused with 18: writes the sentence for the first permission that the charter does not cover into the
/// line. Names are the bytes of a names file: a name of 1 to 20 letters, ended by the byte 0A, for each of the 64 groups and then of the
/// 16 kinds.
pub fn explain(sheet: &[u8], charter: &[u8], names: &[u8], line: &mut [u8]) -> Explanation {
    // SAFETY: as for `check`; the function is proved for any bytes in all four slices, and writes nothing but `line`.
    explanation(unsafe { velimhaw_explain(bytes(sheet), bytes(charter), bytes(names), lent(line)) })
}

/// Runs a script of moves on a sheet that its charter accepts, and writes a record of eight bytes for each move into the log.
pub fn play(sheet: &[u8], charter: &[u8], script: &[u8], log: &mut [u8]) -> Answer {
    // SAFETY: as for `check`; the function is proved for any bytes in all four slices, and writes nothing but `log`.
    answer(unsafe { velimhaw_play(bytes(sheet), bytes(charter), bytes(script), lent(log)) })
}

/// As [`check`]; answers the entries written. An output of [`INTERFACE_MAX`](crate::INTERFACE_MAX) bytes is always long enough.
pub fn try_check<'a>(sheet: &[u8], charter: &[u8], output: &'a mut [u8]) -> Result<Entries<'a>, Refusal> {
    let length = check(sheet, charter, output).result()?;
    Ok(Entries::new(&output[..length]))
}

/// As [`slack`]; answers the entries written. An output of [`SLACK_MAX`](crate::SLACK_MAX) bytes is always long enough.
pub fn try_slack<'a>(sheet: &[u8], charter: &[u8], output: &'a mut [u8]) -> Result<SlackEntries<'a>, Refusal> {
    let length = slack(sheet, charter, output).result()?;
    Ok(SlackEntries::new(&output[..length]))
}

/// As [`explain`]; answers the sentence written, nothing where questions 1 to 18 pass. A line of [`SENTENCE_MAX`](crate::SENTENCE_MAX)
/// bytes is always long enough.
pub fn try_explain<'a>(sheet: &[u8], charter: &[u8], names: &[u8], line: &'a mut [u8]) -> Result<Option<&'a str>, Refusal> {
    match explain(sheet, charter, names, line) {
        Explanation::Accepted => Ok(None),
        Explanation::Sentence(length) => Ok(Some(std::str::from_utf8(&line[..length]).expect("a sentence is ASCII"))),
        Explanation::Refused(number) => Err(Refusal::new(number)),
    }
}

/// As [`play`]; answers the records written. A log of [`LOG_MAX`](crate::LOG_MAX) bytes is always long enough.
pub fn try_play<'a>(sheet: &[u8], charter: &[u8], script: &[u8], log: &'a mut [u8]) -> Result<Records<'a>, Refusal> {
    let moves = play(sheet, charter, script, log).result()?;
    Ok(Records::new(&log[..moves * RECORD_LENGTH]))
}
