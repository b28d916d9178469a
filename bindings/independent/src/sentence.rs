//! The sentence for the volunteer: what an uncovered permission is, in the society's names.

use crate::cover::Uncovered;
use crate::names::Names;
use crate::permissions::Need;

/// The bytes of the longest sentence: ten names of 20 letters, seven strokes, and the words.
pub const LONGEST: usize = 230;

/// The sentence, without the byte that ends its line.
pub fn sentence(names: &Names, uncovered: &Uncovered) -> String {
    let group = |number: &u8| names.groups[*number as usize].as_str();
    let path: Vec<&str> = uncovered.path.iter().map(group).collect();
    let act = match uncovered.need {
        Need::Read => "read".to_string(),
        Need::Write => "write".to_string(),
        Need::Access => "access".to_string(),
        Need::Disclose(into) => format!("disclose to {}", group(&into)),
    };
    format!("{} may not {}: {}", path.join("/"), act, names.kinds[uncovered.kind as usize])
}
