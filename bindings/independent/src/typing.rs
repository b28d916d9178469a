//! The typing rules (questions 7 to 10), what an act needs, and inference.

use crate::permissions::{ByKind, Count, Entry, Need};
use crate::sheet::{Process, Sheet, System};
use crate::types::Type;

/// A receive or a send, its names still binder numbers.
#[derive(Clone, Copy)]
pub enum Act {
    Receive { channel: u8, bound: Type },
    Send { channel: u8, name: u8 },
}

impl Process {
    /// The receive or send that this form is, if it is one.
    pub fn act(&self) -> Option<Act> {
        match *self {
            Process::Receive { channel, bound, .. } => Some(Act::Receive { channel, bound }),
            Process::Send { channel, name, .. } => Some(Act::Send { channel, name }),
            _ => None,
        }
    }
}

/// Questions 7 to 10 of one act; `scope` gives the type of each binder number.
pub fn check_act(act: Act, scope: &[Type], path: &[u8]) -> Result<(), u32> {
    let named = |number: u8| scope.get(number as usize).copied().ok_or(7u32);
    let (channel, passed) = match act {
        Act::Receive { channel, bound } => (named(channel)?, bound),
        Act::Send { channel, name } => (named(channel)?, named(name)?),
    };
    let (Some(carried), Some(group)) = (channel.carried(), channel.outermost()) else { return Err(8) };
    if carried != passed {
        return Err(9);
    }
    if !path.contains(&group) {
        return Err(10);
    }
    Ok(())
}

/// What an act on a channel of this type needs, and of which kind.
pub fn need(receives: bool, channel: Type) -> Option<(u8, Need)> {
    let need = match (channel.groups(), receives) {
        ([_], true) => Need::Read,
        ([_], false) => Need::Write,
        ([_, _], true) => Need::Access,
        ([group, _], false) => Need::Disclose(*group),
        _ => return None,
    };
    Some((channel.kind, need))
}

/// What a well-typed act needs.
pub fn act_need(act: Act, scope: &[Type]) -> Option<(u8, Need)> {
    match act {
        Act::Receive { channel, .. } => need(true, scope[channel as usize]),
        Act::Send { channel, .. } => need(false, scope[channel as usize]),
    }
}

/// Questions 7 to 10 put to a whole sheet, one after the other.
pub fn check_sheet(sheet: &Sheet) -> Result<(), u32> {
    let mut worst = Ok(());
    each_component(&sheet.system, &mut sheet.free.clone(), &mut |component, process, scope| {
        worst = earlier(worst, check_process(process, scope, &sheet.components[component].path));
    });
    worst
}

/// Of two answers the one whose question comes first; a pass comes last.
fn earlier(a: Result<(), u32>, b: Result<(), u32>) -> Result<(), u32> {
    match (a, b) {
        (Err(m), Err(n)) => Err(m.min(n)),
        (Err(m), Ok(())) | (Ok(()), Err(m)) => Err(m),
        _ => Ok(()),
    }
}

/// The first of questions 7 to 10 that some act of a process fails.
pub fn check_process(process: &Process, scope: &mut Vec<Type>, path: &[u8]) -> Result<(), u32> {
    let here = match process.act() {
        Some(act) => check_act(act, scope, path),
        None => Ok(()),
    };
    let mut below = Ok(());
    each_part(process, scope, &mut |part, scope| below = earlier(below, check_process(part, scope, path)));
    earlier(here, below)
}

/// Adds what a well-typed process needs; `repeated` says whether it stands under a repeat.
pub fn infer(process: &Process, scope: &mut Vec<Type>, repeated: bool, into: &mut ByKind) {
    if let Some((kind, need)) = process.act().and_then(|act| act_need(act, scope)) {
        let count = if repeated { Count::Unlimited } else { Count::Finite(1) };
        into.entry(kind).or_default().add(need, count);
    }
    let repeated = repeated || matches!(process, Process::Repeat(_));
    each_part(process, scope, &mut |part, scope| infer(part, scope, repeated, into));
}

/// The interface of a well-typed sheet: by component, then rising kind.
pub fn interface(sheet: &Sheet) -> Vec<Entry> {
    let mut entries = Vec::new();
    each_component(&sheet.system, &mut sheet.free.clone(), &mut |component, process, scope| {
        let mut needs = ByKind::new();
        infer(process, scope, false, &mut needs);
        entries.extend(needs.into_iter().map(|(kind, permissions)| Entry { component, kind, permissions }));
    });
    entries
}

/// Visits each component in sheet order with the types of the names in scope at its process.
fn each_component<'a>(system: &'a System, scope: &mut Vec<Type>, visit: &mut dyn FnMut(usize, &'a Process, &mut Vec<Type>)) {
    match system {
        System::Nothing => {}
        System::Parallel(left, right) => {
            each_component(left, scope, visit);
            each_component(right, scope, visit);
        }
        System::Group(_, inner) => each_component(inner, scope, visit),
        System::New(bound, inner) => {
            scope.push(*bound);
            each_component(inner, scope, visit);
            scope.pop();
        }
        System::Component(number, process) => visit(*number, process, scope),
    }
}

/// Visits the direct parts of a process, a bound name's stored type in scope where it binds.
fn each_part<'a>(process: &'a Process, scope: &mut Vec<Type>, visit: &mut dyn FnMut(&'a Process, &mut Vec<Type>)) {
    match process {
        Process::Nothing => {}
        Process::Parallel(left, right) => {
            visit(left, scope);
            visit(right, scope);
        }
        Process::New(bound, then) | Process::Receive { bound, then, .. } => {
            scope.push(*bound);
            visit(then, scope);
            scope.pop();
        }
        Process::Send { then, .. } | Process::Repeat(then) => visit(then, scope),
    }
}
