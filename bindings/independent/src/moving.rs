//! Old sheets moved over to the form with purposes, and back: the services upgrade and downgrade.

use crate::dialect::Dialect;
use crate::sheet::{self, Sheet};
use crate::{write, LONGEST};

/// The service upgrade: the length of the new form of an old sheet, written to `output` with purpose 0 at each component, or the question's
/// number. Question 1 is put to both forms, to the new one after 6.
pub fn upgrade(sheet: &[u8], output: &mut [u8]) -> Result<usize, u32> {
    let moved = read(Dialect::Old, sheet)?.write(Dialect::New);
    write(fitting(&moved)?, output)
}

/// The service downgrade: the length of the old form of a sheet whose purposes are all 0, written to `output`, or the question's number.
pub fn downgrade(sheet: &[u8], output: &mut [u8]) -> Result<usize, u32> {
    let sheet = read(Dialect::New, sheet)?;
    if sheet.components.iter().any(|component| component.purpose != 0) {
        return Err(41);
    }
    write(&sheet.write(Dialect::Old), output)
}

/// Questions 1 to 6, of a sheet alone.
fn read(dialect: Dialect, sheet: &[u8]) -> Result<Sheet, u32> {
    sheet::read_in(dialect, fitting(sheet)?)
}

/// Question 1 of one form of a sheet.
fn fitting(sheet: &[u8]) -> Result<&[u8], u32> {
    if sheet.len() <= LONGEST { Ok(sheet) } else { Err(1) }
}
