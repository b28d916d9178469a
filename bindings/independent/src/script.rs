//! Scripts: lists of moves, and their reader (question 21).

use crate::bytes::Reader;
use crate::types::{self, Type};

#[derive(Clone, Copy, PartialEq, Eq, Debug)]
pub enum Move {
    Unfold(u8),
    Send(u8),
    Receive(u8, u16),
    Communicate(u8, u8),
    EnvironmentName(Type),
}

const UNREADABLE: u32 = 21;

/// The most moves of a script.
pub const MOST_MOVES: usize = 1024;

/// Reads a whole script; every fault has the number 21.
pub fn read(bytes: &[u8]) -> Result<Vec<Move>, u32> {
    let mut reader = Reader::new(bytes);
    let mut moves = Vec::new();
    while !reader.at_end() {
        if moves.len() == MOST_MOVES {
            return Err(UNREADABLE);
        }
        moves.push(read_move(&mut reader)?);
    }
    Ok(moves)
}

fn read_move(reader: &mut Reader) -> Result<Move, u32> {
    Ok(match reader.byte(UNREADABLE)? {
        1 => Move::Unfold(reader.byte(UNREADABLE)?),
        2 => Move::Send(reader.byte(UNREADABLE)?),
        3 => Move::Receive(reader.byte(UNREADABLE)?, reader.two(UNREADABLE)?),
        4 => Move::Communicate(reader.byte(UNREADABLE)?, reader.byte(UNREADABLE)?),
        5 => Move::EnvironmentName(types::read(reader, UNREADABLE, UNREADABLE)?),
        _ => return Err(UNREADABLE),
    })
}

impl Move {
    /// Appends the stored form.
    pub fn write(&self, out: &mut Vec<u8>) {
        match *self {
            Move::Unfold(i) => out.extend_from_slice(&[1, i]),
            Move::Send(i) => out.extend_from_slice(&[2, i]),
            Move::Receive(i, v) => {
                out.extend_from_slice(&[3, i]);
                out.extend_from_slice(&v.to_le_bytes());
            }
            Move::Communicate(i, j) => out.extend_from_slice(&[4, i, j]),
            Move::EnvironmentName(made) => {
                out.push(5);
                made.write(out);
            }
        }
    }
}
