//! Sheets moved between the old form and the new one: what the two sides answer and write, and the way there and back.

use crate::case::{Case, Outcome, MARGIN};
use crate::subject::{Independent, Proved, Subject, Way};
use velimhaw::{MOVED_MAX, SHEET_MAX};

/// A sheet of a case, and the way to move it.
#[derive(Clone, Copy)]
pub struct Moving<'a> {
    case: &'a Case,
    pub way: Way,
    sheet: &'a [u8],
}

/// Both sheets of a case, each moved both ways: one of the ways reads it in the wrong form.
pub fn all(case: &Case) -> impl Iterator<Item = Moving<'_>> {
    let sheets = [&case.old, &case.sheet];
    sheets.into_iter().flat_map(move |sheet| [Way::Upgrade, Way::Downgrade].map(|way| Moving { case, way, sheet }))
}

/// What the two sides do differently in moving a case's sheets.
pub fn difference(case: &Case) -> Option<String> {
    all(case).find_map(|moving| moving.difference())
}

/// What the library moves of a case's sheets and does not give back.
pub fn loss(case: &Case) -> Option<String> {
    all(case).find_map(|moving| moving.loss())
}

impl Moving<'_> {
    /// The sheet moved, with plenty of memory.
    pub fn moved(&self, side: &dyn Subject) -> Result<Vec<u8>, u32> {
        let mut output = [0; MOVED_MAX];
        let length = side.moved(self.way, self.sheet, &mut output)?;
        Ok(output[..length].to_vec())
    }

    /// Moves the sheet into an output of so many bytes.
    fn outcome(&self, side: &dyn Subject, output: usize) -> Outcome {
        self.case.lend(output, |output| side.moved(self.way, self.sheet, output))
    }

    /// What the two sides do differently, with an output of just the length that is written, one byte less, none, and more.
    fn difference(&self) -> Option<String> {
        let length = self.moved(&Independent).map_or(0, |moved| moved.len());
        let compare = |output: usize| {
            let (left, right) = (self.outcome(&Independent, output), self.outcome(&Proved, output));
            self.case.compare(self.way.name(), 1, &left, &right)
        };
        [length, length.saturating_sub(1), 0, length + MARGIN].into_iter().find_map(compare)
    }

    /// Whether the library moves the sheet and does not give it back.
    fn loss(&self) -> Option<String> {
        let there = self.moved(&Proved).ok()?;
        let back = Moving { way: self.way.back(), sheet: &there, ..*self }.moved(&Proved);
        (back.as_deref() != Ok(self.sheet)).then(|| format!("{} to {there:02x?}, and back: {back:02x?}", self.way.name()))
    }

    /// What is worth counting.
    pub fn met(&self) -> Vec<&'static str> {
        let (moved, length) = (self.moved(&Independent).map(|moved| moved.len()), self.sheet.len());
        let told = [
            (moved.is_ok(), "all"),
            (moved.is_ok_and(|moved| moved != length), "with components"),
            (moved.is_ok_and(|moved| moved.max(length) == SHEET_MAX), "with a new form of 4,096 bytes"),
            (moved == Err(1) && length <= SHEET_MAX, "none, the new form is too long"),
        ];
        told.into_iter().filter(|(holds, _)| *holds).map(|(_, what)| what).collect()
    }
}
