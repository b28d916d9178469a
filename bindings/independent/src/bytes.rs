//! A reader of bytes that remembers where it stands.

/// The bytes still to be read.
pub struct Reader<'a> {
    rest: &'a [u8],
}

impl<'a> Reader<'a> {
    pub fn new(bytes: &'a [u8]) -> Reader<'a> {
        Reader { rest: bytes }
    }

    /// The next byte, or the number `missing`.
    pub fn byte(&mut self, missing: u32) -> Result<u8, u32> {
        let (&first, rest) = self.rest.split_first().ok_or(missing)?;
        self.rest = rest;
        Ok(first)
    }

    /// The next byte, which has to be below `limit`.
    pub fn below(&mut self, limit: u8, missing: u32, range: u32) -> Result<u8, u32> {
        let byte = self.byte(missing)?;
        if byte < limit { Ok(byte) } else { Err(range) }
    }

    /// The next two bytes as a number, the low byte first.
    pub fn two(&mut self, missing: u32) -> Result<u16, u32> {
        Ok(u16::from_le_bytes([self.byte(missing)?, self.byte(missing)?]))
    }

    pub fn at_end(&self) -> bool {
        self.rest.is_empty()
    }
}
