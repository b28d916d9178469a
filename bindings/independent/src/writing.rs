//! The stored form of a sheet, in either dialect.

use crate::dialect::Dialect;
use crate::sheet::{Process, Sheet, System};
use crate::types::Type;

impl Sheet {
    /// The stored form; in the old dialect the purposes are left out.
    pub fn write(&self, dialect: Dialect) -> Vec<u8> {
        let mut writer = Writer { sheet: self, dialect, out: vec![self.free.len() as u8] };
        self.free.iter().for_each(|free| free.write(&mut writer.out));
        writer.system(&self.system);
        writer.out
    }
}

struct Writer<'a> {
    sheet: &'a Sheet,
    dialect: Dialect,
    out: Vec<u8>,
}

impl Writer<'_> {
    fn system(&mut self, system: &System) {
        match system {
            System::Nothing => self.out.push(0),
            System::Parallel(left, right) => {
                self.out.push(1);
                self.system(left);
                self.system(right);
            }
            System::Group(group, inner) => {
                self.out.extend([2, *group]);
                self.system(inner);
            }
            System::New(bound, inner) => {
                self.binder(&[3], bound);
                self.system(inner);
            }
            System::Component(number, process) => {
                self.component(*number);
                self.process(process);
            }
        }
    }

    /// What stands before a component's process: its code, its own group, which is the last of its path, and its purpose.
    fn component(&mut self, number: usize) {
        let component = &self.sheet.components[number];
        self.out.push(4);
        self.out.extend(component.path.last());
        if self.dialect == Dialect::New {
            self.out.push(component.purpose);
        }
    }

    fn process(&mut self, process: &Process) {
        match process {
            Process::Nothing => self.out.push(0),
            Process::Parallel(left, right) => {
                self.out.push(1);
                self.process(left);
                self.process(right);
            }
            Process::New(bound, then) => {
                self.binder(&[3], bound);
                self.process(then);
            }
            Process::Receive { channel, bound, then } => {
                self.binder(&[5, *channel], bound);
                self.process(then);
            }
            Process::Send { channel, name, then } => {
                self.out.extend([6, *channel, *name]);
                self.process(then);
            }
            Process::Repeat(then) => {
                self.out.push(7);
                self.process(then);
            }
        }
    }

    /// The bytes of a binder before its type, and the type.
    fn binder(&mut self, bytes: &[u8], bound: &Type) {
        self.out.extend(bytes);
        bound.write(&mut self.out);
    }
}
