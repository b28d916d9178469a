//! Sheets as trees, and their reader (questions 2 to 6), which reads both dialects.

use crate::bytes::Reader;
use crate::dialect::Dialect;
use crate::types::{self, Type};

/// A sheet: the dialect that it was read in, the types of its free names, its system, and its components in sheet order.
pub struct Sheet {
    pub dialect: Dialect,
    pub free: Vec<Type>,
    pub system: System,
    pub components: Vec<Component>,
}

/// What a component's rights hang on: its path, which is the groups passed on the way to it, its own last, and its purpose.
pub struct Component {
    pub path: Vec<u8>,
    pub purpose: u8,
}

pub enum System {
    Nothing,
    Parallel(Box<System>, Box<System>),
    Group(u8, Box<System>),
    New(Type, Box<System>),
    Component(usize, Process),
}

/// Names in a process are binder numbers: free names first, then each binder on the way in.
pub enum Process {
    Nothing,
    Parallel(Box<Process>, Box<Process>),
    New(Type, Box<Process>),
    Receive { channel: u8, bound: Type, then: Box<Process> },
    Send { channel: u8, name: u8, then: Box<Process> },
    Repeat(Box<Process>),
}

const MISSING: u32 = 2;
const LEFT_OVER: u32 = 3;
const RANGE: u32 = 4;
const LIMIT: u32 = 5;
const NOT_NEW: u32 = 6;

/// How many purposes there are.
pub const PURPOSES: u8 = 16;

/// Reads a whole sheet; the error is the number of the question that its first failing byte fails.
pub fn read(bytes: &[u8]) -> Result<Sheet, u32> {
    read_in(Dialect::New, bytes)
}

/// Reads a whole sheet of a dialect.
pub fn read_in(dialect: Dialect, bytes: &[u8]) -> Result<Sheet, u32> {
    let mut reader = Reader::new(bytes);
    let count = reader.below(33, MISSING, RANGE)?;
    let mut free = Vec::new();
    for _ in 0..count {
        free.push(types::read(&mut reader, MISSING, RANGE)?);
    }
    let mut walk = Walk { reader, dialect, path: Vec::new(), components: Vec::new() };
    let system = walk.system(1, free.len())?;
    if !walk.reader.at_end() {
        return Err(LEFT_OVER);
    }
    Ok(Sheet { dialect, free, system, components: walk.components })
}

/// The reader on its way through the forms: the groups passed so far and the components met so far.
struct Walk<'a> {
    reader: Reader<'a>,
    dialect: Dialect,
    path: Vec<u8>,
    components: Vec<Component>,
}

impl Walk<'_> {
    /// Reads the system at nesting `level` with `names` names in scope.
    fn system(&mut self, level: usize, names: usize) -> Result<System, u32> {
        let code = self.reader.below(5, MISSING, RANGE)?;
        self.limits(code, level, names)?;
        Ok(match code {
            0 => System::Nothing,
            1 => System::Parallel(
                Box::new(self.system(level + 1, names)?),
                Box::new(self.system(level + 1, names)?),
            ),
            2 => self.group_form(level, names)?,
            3 => System::New(self.a_type()?, Box::new(self.system(level + 1, names + 1)?)),
            _ => self.component(level, names)?,
        })
    }

    fn group_form(&mut self, level: usize, names: usize) -> Result<System, u32> {
        let group = self.enter_group()?;
        let inner = self.system(level + 1, names)?;
        self.path.pop();
        Ok(System::Group(group, Box::new(inner)))
    }

    fn component(&mut self, level: usize, names: usize) -> Result<System, u32> {
        let number = self.components.len();
        self.enter_group()?;
        let purpose = self.purpose()?;
        self.components.push(Component { path: self.path.clone(), purpose });
        let process = self.process(level + 1, names)?;
        self.path.pop();
        Ok(System::Component(number, process))
    }

    /// Reads a component's purpose, where the dialect stores it.
    fn purpose(&mut self) -> Result<u8, u32> {
        match self.dialect {
            Dialect::Old => Ok(0),
            Dialect::New => self.reader.below(PURPOSES, MISSING, RANGE),
        }
    }

    /// Reads a group that has to be new to the path, and adds it.
    fn enter_group(&mut self) -> Result<u8, u32> {
        let group = self.reader.below(64, MISSING, RANGE)?;
        if self.path.contains(&group) {
            return Err(NOT_NEW);
        }
        self.path.push(group);
        Ok(group)
    }

    /// Reads the process at nesting `level` with `names` names in scope.
    fn process(&mut self, level: usize, names: usize) -> Result<Process, u32> {
        let code = self.reader.byte(MISSING)?;
        if !matches!(code, 0 | 1 | 3 | 5 | 6 | 7) {
            return Err(RANGE);
        }
        self.limits(code, level, names)?;
        Ok(match code {
            0 => Process::Nothing,
            1 => Process::Parallel(
                Box::new(self.process(level + 1, names)?),
                Box::new(self.process(level + 1, names)?),
            ),
            3 => Process::New(self.a_type()?, Box::new(self.process(level + 1, names + 1)?)),
            5 => Process::Receive {
                channel: self.reader.byte(MISSING)?,
                bound: self.a_type()?,
                then: Box::new(self.process(level + 1, names + 1)?),
            },
            6 => Process::Send {
                channel: self.reader.byte(MISSING)?,
                name: self.reader.byte(MISSING)?,
                then: Box::new(self.process(level + 1, names)?),
            },
            _ => Process::Repeat(Box::new(self.process(level + 1, names)?)),
        })
    }

    /// Question 5, asked at the code byte of a form.
    fn limits(&self, code: u8, level: usize, names: usize) -> Result<(), u32> {
        let binds = code == 3 || code == 5;
        let groups = code == 2 || code == 4;
        let too_many = level > 64
            || (binds && names >= 64)
            || (groups && self.path.len() >= 8)
            || (code == 4 && self.components.len() >= 32);
        if too_many { Err(LIMIT) } else { Ok(()) }
    }

    fn a_type(&mut self) -> Result<Type, u32> {
        types::read(&mut self.reader, MISSING, RANGE)
    }
}
