//! Names files: a name for each group and each kind, and their reader (question 40).

use crate::bytes::Reader;
use std::collections::BTreeSet;

/// The names of the 64 groups and of the 16 kinds.
#[derive(Clone, PartialEq, Eq, Debug)]
pub struct Names {
    pub groups: Vec<String>,
    pub kinds: Vec<String>,
}

/// The most letters that a name may have.
pub const LONGEST: usize = 20;

const BROKEN: u32 = 40;
const END: u8 = 0x0a;

/// Reads a whole names file; every fault has the number 40.
pub fn read(bytes: &[u8]) -> Result<Names, u32> {
    let mut reader = Reader::new(bytes);
    let groups = read_list(&mut reader, 64)?;
    let kinds = read_list(&mut reader, 16)?;
    if reader.at_end() { Ok(Names { groups, kinds }) } else { Err(BROKEN) }
}

/// Reads so many names, which have to be distinct.
fn read_list(reader: &mut Reader, count: usize) -> Result<Vec<String>, u32> {
    let names = (0..count).map(|_| read_name(reader)).collect::<Result<Vec<String>, u32>>()?;
    let distinct: BTreeSet<&String> = names.iter().collect();
    if distinct.len() == count { Ok(names) } else { Err(BROKEN) }
}

/// Reads one name with the byte that ends it.
fn read_name(reader: &mut Reader) -> Result<String, u32> {
    let mut name = String::new();
    loop {
        match reader.byte(BROKEN)? {
            END if !name.is_empty() => return Ok(name),
            letter if letter.is_ascii_alphabetic() && name.len() < LONGEST => name.push(letter as char),
            _ => return Err(BROKEN),
        }
    }
}

impl Names {
    /// The stored form.
    pub fn write(&self) -> Vec<u8> {
        self.groups.iter().chain(&self.kinds).flat_map(|name| name.bytes().chain([END])).collect()
    }
}
