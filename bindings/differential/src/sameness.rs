//! Sheets answered as before: under a charter without maps of purposes, check answers a moved sheet as it did the old one before there were
//! purposes.

use crate::case::Case;
use crate::subject::{Proved, Subject, Way};
use independent::charter;
use velimhaw::{INTERFACE_MAX, MOVED_MAX};

/// Accepted, or the number of the question that fails.
type Verdict = Result<(), u32>;

/// What the library's check answers to a case's moved sheet otherwise than check did to the old one.
pub fn fault(case: &Case) -> Option<String> {
    let (was, is) = (before(case)?, after(case, &Proved)?);
    (was != is).then(|| format!("the old sheet was answered {was:?}, the moved one is {is:?}"))
}

/// What check answered to a case's old sheet; nothing where the charter reads and has maps of purposes.
pub fn before(case: &Case) -> Option<Verdict> {
    let has_maps = charter::read(&case.charter).is_ok_and(|charter| charter.has_maps());
    (!has_maps).then(|| independent::before(&case.old, &case.charter, &mut [0; INTERFACE_MAX]).map(drop))
}

/// What a side's check answers to the sheet that the same side makes of a case's old one; nothing where it makes none.
pub fn after(case: &Case, side: &dyn Subject) -> Option<Verdict> {
    let mut moved = [0; MOVED_MAX];
    let length = side.moved(Way::Upgrade, &case.old, &mut moved).ok()?;
    Some(side.check(&moved[..length], &case.charter, &mut [0; INTERFACE_MAX]).map(drop))
}
