//! Sizes that always suffice, and limits of the formats.

/// The bytes of a sheet; a longer one is refused.
pub const SHEET_MAX: usize = 4096;
/// The bytes of a charter; a longer one is refused.
pub const CHARTER_MAX: usize = 4096;
/// The bytes of a script, 1,024 moves of seven bytes, the longest; a longer one is refused.
pub const SCRIPT_MAX: usize = 7168;
/// The bytes of a names file, 80 names of 20 letters, each with the byte that ends it; a longer one breaks its rules.
pub const NAMES_FILE_MAX: usize = 1680;
/// The length of an output for which `check` never refuses with 19.
pub const INTERFACE_MAX: usize = 18_944;
/// The length of an output for which `slack` never refuses with 19.
pub const SLACK_MAX: usize = 27_136;
/// The length of a line for which `explain` never refuses with 19: the bytes of the longest sentence.
pub const SENTENCE_MAX: usize = 230;
/// The length of an output for which neither `upgrade` nor `downgrade` refuses with 19.
pub const MOVED_MAX: usize = SHEET_MAX;
/// The length of a log for which `play` never refuses with 22.
pub const LOG_MAX: usize = RECORD_LENGTH * MOVES_MAX;
/// The length of a move's record.
pub const RECORD_LENGTH: usize = 8;
/// The moves of a script.
pub const MOVES_MAX: usize = 1024;

/// Kinds are 0 to 15.
pub const KINDS: u8 = 16;
/// Groups are 0 to 63.
pub const GROUPS: u8 = 64;
/// Purposes are 0 to 15; 0 is ordinary work.
pub const PURPOSES: u8 = 16;
/// The groups of a path.
pub const PATH_MAX: u8 = 8;
/// Components are 0 to 31.
pub const COMPONENTS_MAX: u8 = 32;
/// Names are 0 to 1,023.
pub const NAMES_MAX: u16 = 1024;
/// A finite count is 1 to 4,095.
pub const COUNT_MAX: u16 = 4095;
/// A finite needed sum is 1 to 4,096.
pub const NEEDED_MAX: u16 = 4096;
/// A finite granted sum is 1 to 32,760: a count for each group of a path.
pub const GRANTED_MAX: u16 = PATH_MAX as u16 * COUNT_MAX;
/// The count or sum that stands for unlimited.
pub const UNLIMITED: u16 = 65_535;
