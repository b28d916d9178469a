//! The two dialects of sheets, charters and interfaces.

#[derive(Clone, Copy, PartialEq, Eq, Debug)]
pub enum Dialect {
    /// Before there were purposes: nothing of them is stored, and each component's is 0.
    Old,
    /// Each component's purpose is stored, and a charter's node may have a map of purposes.
    New,
}
