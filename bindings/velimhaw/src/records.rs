//! The log: a record of eight bytes for each move of the script, in order.
//!
//! Bytes of a record: 0; label; channel and name, two bytes each, low byte first; component that acts; component that receives. Fields
//! that the label does not have are all ones. Of a refused move: the number of the first question that fails, 30 to 35; seven zeros.

use crate::{Refusal, COMPONENTS_MAX, NAMES_MAX, RECORD_LENGTH};
use std::fmt;
use std::iter::FusedIterator;

/// What a move did. The number is the label of its record.
#[derive(Clone, Copy, Debug, PartialEq, Eq)]
pub enum Record {
    /// The move was refused, and changed nothing.
    Refused(Refusal),
    /// 1: a component sends a name to another, or to itself.
    Communication { channel: u16, name: u16, sender: u8, receiver: u8 },
    /// 2: a component receives a name from the environment.
    Input { channel: u16, name: u16, component: u8 },
    /// 3: a component sends a name to the environment, which knows it already.
    Output { channel: u16, name: u16, component: u8 },
    /// 4: a component sends a name to the environment, which did not know it before.
    Extrusion { channel: u16, name: u16, component: u8 },
    /// 5: the environment makes a name.
    EnvironmentName { name: u16 },
    /// 6: a replication of a component is unfolded once.
    Unfolding { component: u8 },
}

/// The records in the bytes of a log. It ends where none is left, or where the bytes do not go on with a record.
#[derive(Clone, Debug)]
pub struct Records<'a> {
    rest: &'a [u8],
}

impl<'a> Records<'a> {
    pub fn new(log: &'a [u8]) -> Records<'a> {
        Records { rest: log }
    }

    /// The bytes that no record was taken off yet. After the last record: empty, unless the bytes there are malformed.
    pub fn rest(&self) -> &'a [u8] {
        self.rest
    }
}

impl Iterator for Records<'_> {
    type Item = Record;

    fn next(&mut self) -> Option<Record> {
        let (bytes, after) = self.rest.split_first_chunk()?;
        let record = record(*bytes)?;
        self.rest = after;
        Some(record)
    }
}

impl FusedIterator for Records<'_> {}

/// What the bytes of a record say; nothing if they do not have the fields of a label.
fn record(bytes: [u8; RECORD_LENGTH]) -> Option<Record> {
    let [_, label, c0, c1, n0, n1, acting, receiving] = bytes;
    Some(match bytes {
        [number @ 30..=35, 0, 0, 0, 0, 0, 0, 0] => Record::Refused(Refusal::new(number.into())),
        [0, 1, ..] => Record::Communication {
            channel: name(c0, c1)?,
            name: name(n0, n1)?,
            sender: component(acting)?,
            receiver: component(receiving)?,
        },
        [0, 2..=4, .., 255] => with_environment(label, name(c0, c1)?, name(n0, n1)?, component(acting)?),
        [0, 5, 255, 255, _, _, 255, 255] => Record::EnvironmentName { name: name(n0, n1)? },
        [0, 6, 255, 255, 255, 255, _, 255] => Record::Unfolding { component: component(acting)? },
        _ => return None,
    })
}

/// The record with label 2, 3 or 4.
fn with_environment(label: u8, channel: u16, name: u16, component: u8) -> Record {
    match label {
        2 => Record::Input { channel, name, component },
        3 => Record::Output { channel, name, component },
        _ => Record::Extrusion { channel, name, component },
    }
}

fn name(low: u8, high: u8) -> Option<u16> {
    Some(u16::from_le_bytes([low, high])).filter(|name| *name < NAMES_MAX)
}

fn component(byte: u8) -> Option<u8> {
    Some(byte).filter(|component| *component < COMPONENTS_MAX)
}

impl fmt::Display for Record {
    fn fmt(&self, f: &mut fmt::Formatter) -> fmt::Result {
        match self {
            Record::Refused(refusal) => write!(f, "{refusal}"),
            Record::Communication { channel, name, sender, receiver } => {
                write!(f, "communication of name {name} on channel {channel} at component {sender} to component {receiver}")
            }
            Record::Input { channel, name, component } => write!(f, "input of name {name} on channel {channel} at component {component}"),
            Record::Output { channel, name, component } => write!(f, "output of name {name} on channel {channel} at component {component}"),
            Record::Extrusion { channel, name, component } => {
                write!(f, "first output of name {name} on channel {channel} at component {component}")
            }
            Record::EnvironmentName { name } => write!(f, "name {name} made by the environment"),
            Record::Unfolding { component } => write!(f, "unfolding at component {component}"),
        }
    }
}
