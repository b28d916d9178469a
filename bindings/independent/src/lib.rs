//! Document 01 (flow sheets, charters and runs), the sentence for a refused sheet, the counts that components share, what a charter leaves
//! over, the purposes for which it grants, sheets moved between the forms without and with purposes, and charters compared, in plain Rust,
//! written from the documents and the list of readings that decides their open points. It shares no code with the proved library, but
//! those readings it shares: an agreement of the two says nothing about an open point that the list itself reads wrongly.

pub mod bytes;
pub mod charter;
pub mod comparing;
pub mod cover;
pub mod demand3;
pub mod dialect;
pub mod moving;
pub mod names;
pub mod permissions;
pub mod running;
pub mod script;
pub mod sentence;
pub mod sharing;
pub mod sheet;
pub mod slack;
pub mod text;
pub mod types;
pub mod typing;
pub mod writing;

use charter::Charter;
pub use comparing::no_looser;
use cover::{Uncovered, Verdict};
use dialect::Dialect;
pub use moving::{downgrade, upgrade};
use permissions::Entry;
use running::State;
use sheet::Sheet;

/// The most bytes that a sheet or a charter may have (question 1).
pub const LONGEST: usize = 4096;

/// A sheet that passed questions 1 to 17 against its charter, and what the covering test answers for each entry of its interface.
pub struct Judged {
    pub sheet: Sheet,
    pub charter: Charter,
    pub interface: Vec<Entry>,
    pub verdicts: Vec<Verdict>,
}

impl Judged {
    /// The entries of the interface, each with its verdict.
    pub fn entries(&self) -> impl Iterator<Item = (&Entry, &Verdict)> {
        self.interface.iter().zip(&self.verdicts)
    }

    /// The first uncovered permission: entries in order, and within an entry the order of its permissions.
    pub fn uncovered(&self) -> Option<Uncovered> {
        self.entries().find_map(|(entry, verdict)| {
            let need = verdict.uncovered()?;
            Some(Uncovered { path: self.sheet.components[entry.component].path.clone(), need, kind: entry.kind })
        })
    }

    /// Question 18.
    fn accepted(self) -> Result<Judged, u32> {
        if self.uncovered().is_none() { Ok(self) } else { Err(18) }
    }
}

/// Puts questions 1 to 17 and makes the covering test; the number of the first question that fails is the error.
pub fn judge(sheet: &[u8], charter: &[u8]) -> Result<Judged, u32> {
    judge_in(Dialect::New, sheet, charter)
}

/// The same of a sheet and a charter of a dialect.
fn judge_in(dialect: Dialect, sheet: &[u8], charter: &[u8]) -> Result<Judged, u32> {
    if sheet.len() > LONGEST || charter.len() > LONGEST {
        return Err(1);
    }
    let sheet = sheet::read_in(dialect, sheet)?;
    typing::check_sheet(&sheet)?;
    let charter = charter::read_in(dialect, charter)?;
    charter.check()?;
    let interface = typing::interface(&sheet);
    let verdicts = cover::verdicts(&sheet, &charter, &interface)?;
    Ok(Judged { sheet, charter, interface, verdicts })
}

/// Puts questions 1 to 18; the number of the first that fails is the error.
pub fn accept(sheet: &[u8], charter: &[u8]) -> Result<Judged, u32> {
    judge(sheet, charter)?.accepted()
}

/// The service check: the length of the interface written to `output`, or the question's number.
pub fn check(sheet: &[u8], charter: &[u8], output: &mut [u8]) -> Result<usize, u32> {
    write_interface(accept(sheet, charter)?, output)
}

/// The service check as it was before there were purposes in sheets, charters and interfaces.
pub fn before(sheet: &[u8], charter: &[u8], output: &mut [u8]) -> Result<usize, u32> {
    write_interface(judge_in(Dialect::Old, sheet, charter)?.accepted()?, output)
}

fn write_interface(accepted: Judged, output: &mut [u8]) -> Result<usize, u32> {
    write(&permissions::write_interface(&accepted.sheet, &accepted.interface), output)
}

/// The service slack: the length of the slack form written to `output`, or the question's number.
pub fn slack(sheet: &[u8], charter: &[u8], output: &mut [u8]) -> Result<usize, u32> {
    write(&slack::write(&accept(sheet, charter)?), output)
}

/// The service explain: the length of the sentence written to `line`, 0 where questions 1 to 18 pass, or the question's number.
pub fn explain(sheet: &[u8], charter: &[u8], names: &[u8], line: &mut [u8]) -> Result<usize, u32> {
    let Some(uncovered) = judge(sheet, charter)?.uncovered() else { return Ok(0) };
    let names = names::read(names)?;
    write(sentence::sentence(&names, &uncovered).as_bytes(), line)
}

/// Writes bytes to the start of lent memory: how many, or 19 where it is too short.
fn write(bytes: &[u8], lent: &mut [u8]) -> Result<usize, u32> {
    let room = lent.get_mut(..bytes.len()).ok_or(19u32)?;
    room.copy_from_slice(bytes);
    Ok(bytes.len())
}

/// The service play: the number of moves whose records were written to `log`, or the question's number.
pub fn play(sheet: &[u8], charter: &[u8], script: &[u8], log: &mut [u8]) -> Result<usize, u32> {
    let accepted = accept(sheet, charter)?;
    let mut state = State::start(&accepted.sheet)?;
    let moves = script::read(script)?;
    let room = log.get_mut(..moves.len() * 8).ok_or(22u32)?;
    for (a_move, record) in moves.iter().zip(room.chunks_exact_mut(8)) {
        record.copy_from_slice(&running::record(&state.step(a_move)));
    }
    Ok(moves.len())
}
