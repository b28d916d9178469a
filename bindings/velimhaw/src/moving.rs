//! The services that move a sheet between the old form, without purposes, and the form that all other services read.

use crate::services::{answer, bytes, lent, Answer, Bytes, Lent};
use crate::Refusal;

extern "C" {
    fn velimhaw_upgrade(sheet: Bytes, output: Lent) -> u64;
    fn velimhaw_downgrade(sheet: Bytes, output: Lent) -> u64;
}

/// Moves an old sheet over: asks 1 to 6 of it, and 1 of its new form, and writes it with purpose 0 at each component into the output.
/// Nothing in a sheet says of which form it is.
pub fn upgrade(sheet: &[u8], output: &mut [u8]) -> Answer {
    // SAFETY: each slice is valid for its length for the time of the call, and `output` is lent to the call alone. The function is
    // proved for any bytes in both, and writes nothing but `output`.
    answer(unsafe { velimhaw_upgrade(bytes(sheet), lent(output)) })
}

/// Moves a sheet back: asks 1 to 6 of it, and 41, whether all its purposes are 0, and writes it without them into the output.
pub fn downgrade(sheet: &[u8], output: &mut [u8]) -> Answer {
    // SAFETY: as for `upgrade`.
    answer(unsafe { velimhaw_downgrade(bytes(sheet), lent(output)) })
}

/// As [`upgrade`]; answers the new form. An output of [`MOVED_MAX`](crate::MOVED_MAX) bytes is always long enough.
pub fn try_upgrade<'a>(sheet: &[u8], output: &'a mut [u8]) -> Result<&'a [u8], Refusal> {
    let length = upgrade(sheet, output).result()?;
    Ok(&output[..length])
}

/// As [`downgrade`]; answers the old form. An output of [`MOVED_MAX`](crate::MOVED_MAX) bytes is always long enough.
pub fn try_downgrade<'a>(sheet: &[u8], output: &'a mut [u8]) -> Result<&'a [u8], Refusal> {
    let length = downgrade(sheet, output).result()?;
    Ok(&output[..length])
}
