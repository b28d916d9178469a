//! Velimhaw's seven services from Rust: check a sheet against a charter, tell how much the charter leaves over, explain a refusal with 18,
//! play a script on an accepted sheet, move an old sheet over to the form with purposes and a sheet back to the old form, and say whether
//! a charter is no looser than another. The work is done by the proved static library; this package declares its seven functions, and takes
//! their answers and the bytes they write apart.
//!
//! [`try_check`], [`try_slack`] and [`try_play`] answer what was written as an iterator, [`try_explain`] as a sentence, [`try_upgrade`]
//! and [`try_downgrade`] as bytes, or the [`Refusal`]; [`check`], [`slack`], [`explain`], [`play`], [`upgrade`] and [`downgrade`] answer
//! the plain number. [`no_looser`] answers yes or no, and writes nothing. Any bytes of any length may be lent. On refusal the output, line
//! or log keeps its bytes, and so do on acceptance those past what is written.
//!
//! "Question N" is that of docs/REFERENCE.md.

mod comparing;
mod entries;
mod interface;
mod limits;
mod moving;
mod records;
mod refusal;
mod services;
mod sums;

pub use comparing::no_looser;
pub use entries::{EntriesOf, EntryOf};
pub use interface::{Disclosure, Entries, Entry};
pub use limits::*;
pub use moving::{downgrade, try_downgrade, try_upgrade, upgrade};
pub use records::{Record, Records};
pub use refusal::{question, Refusal};
pub use services::{check, explain, play, slack, try_check, try_explain, try_play, try_slack, Answer, Explanation};
pub use sums::{SlackEntries, SlackEntry, Sums};
