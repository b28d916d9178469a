//! Types of names: plain data of a kind, or a channel of a group carrying a type.

use crate::bytes::Reader;

/// A type: its groups, the outermost first, and its kind. No group means plain data.
#[derive(Clone, Copy, PartialEq, Eq, Hash, Debug)]
pub struct Type {
    depth: u8,
    groups: [u8; 4],
    pub kind: u8,
}

impl Type {
    /// The type with these groups (at most 4), the outermost first, around data of `kind`.
    pub fn new(groups: &[u8], kind: u8) -> Type {
        let mut stored = [0; 4];
        stored[..groups.len()].copy_from_slice(groups);
        Type { depth: groups.len() as u8, groups: stored, kind }
    }

    /// The groups, the outermost first.
    pub fn groups(&self) -> &[u8] {
        &self.groups[..self.depth as usize]
    }

    /// The outermost group of a channel.
    pub fn outermost(&self) -> Option<u8> {
        self.groups().first().copied()
    }

    /// The type that a channel carries.
    pub fn carried(&self) -> Option<Type> {
        let (_, inner) = self.groups().split_first()?;
        Some(Type::new(inner, self.kind))
    }

    /// Appends the stored form.
    pub fn write(&self, out: &mut Vec<u8>) {
        out.push(self.depth);
        out.extend_from_slice(self.groups());
        out.push(self.kind);
    }
}

/// Reads a stored type; `missing` and `range` are the numbers of a missing byte and of one out of range.
pub fn read(reader: &mut Reader, missing: u32, range: u32) -> Result<Type, u32> {
    let depth = reader.below(5, missing, range)?;
    let mut groups = [0; 4];
    for group in &mut groups[..depth as usize] {
        *group = reader.below(64, missing, range)?;
    }
    let kind = reader.below(16, missing, range)?;
    Ok(Type { depth, groups, kind })
}
