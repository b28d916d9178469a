//! Running: the state, its start (question 20), and the steps with their records.

use crate::script::Move;
use crate::sheet::{Process, Sheet, System};
use crate::types::Type;

pub const MOST_THREADS: usize = 64;
pub const MOST_NAMES: usize = 1024;

/// A thread: its component, whose path and purpose it keeps, the form it stands at, and the run name of each binder already passed.
#[derive(Clone)]
pub struct Thread<'a> {
    pub component: usize,
    pub process: &'a Process,
    pub names: Vec<u16>,
}

/// The threads in order, the type of each name given so far, and which names are known to the environment.
#[derive(Clone)]
pub struct State<'a> {
    pub threads: Vec<Thread<'a>>,
    pub types: Vec<Type>,
    pub known: Vec<bool>,
}

/// What a taken move did.
#[derive(Clone, Copy, PartialEq, Eq, Debug)]
pub struct Taken {
    pub label: Label,
    pub channel: Option<u16>,
    pub name: Option<u16>,
    pub component: Option<usize>,
    pub receiver: Option<usize>,
}

#[derive(Clone, Copy, PartialEq, Eq, Debug)]
pub enum Label {
    Communication = 1,
    In = 2,
    Out = 3,
    OutNew = 4,
    EnvironmentName = 5,
    Unfold = 6,
}

/// The eight bytes of a move's record.
pub fn record(answer: &Result<Taken, u32>) -> [u8; 8] {
    match answer {
        Err(number) => [*number as u8, 0, 0, 0, 0, 0, 0, 0],
        Ok(taken) => {
            let channel = taken.channel.unwrap_or(0xffff).to_le_bytes();
            let name = taken.name.unwrap_or(0xffff).to_le_bytes();
            let component = |p: Option<usize>| p.map_or(0xff, |p| p as u8);
            let (acting, receiver) = (component(taken.component), component(taken.receiver));
            [0, taken.label as u8, channel[0], channel[1], name[0], name[1], acting, receiver]
        }
    }
}

/// Splits processes into threads and numbers its new names from `first` on.
struct Maker {
    first: usize,
    types: Vec<Type>,
}

impl Maker {
    fn new_name(&mut self, made: Type, names: &mut Vec<u16>) {
        names.push((self.first + self.types.len()) as u16);
        self.types.push(made);
    }

    fn system<'a>(&mut self, system: &'a System, mut names: Vec<u16>, into: &mut Vec<Thread<'a>>) {
        match system {
            System::Nothing => {}
            System::Parallel(left, right) => {
                self.system(left, names.clone(), into);
                self.system(right, names, into);
            }
            System::Group(_, inner) => self.system(inner, names, into),
            System::New(made, inner) => {
                self.new_name(*made, &mut names);
                self.system(inner, names, into);
            }
            System::Component(number, process) => self.process(*number, process, names, into),
        }
    }

    fn process<'a>(&mut self, component: usize, process: &'a Process, mut names: Vec<u16>, into: &mut Vec<Thread<'a>>) {
        match process {
            Process::Nothing => {}
            Process::Parallel(left, right) => {
                self.process(component, left, names.clone(), into);
                self.process(component, right, names, into);
            }
            Process::New(made, then) => {
                self.new_name(*made, &mut names);
                self.process(component, then, names, into);
            }
            Process::Receive { .. } | Process::Send { .. } | Process::Repeat(_) => into.push(Thread { component, process, names }),
        }
    }

    /// The products of a thread's continuation, a received name added to its names.
    fn continuation<'a>(&mut self, thread: &Thread<'a>, then: &'a Process, received: Option<u16>) -> Vec<Thread<'a>> {
        let mut names = thread.names.clone();
        names.extend(received);
        let mut products = Vec::new();
        self.process(thread.component, then, names, &mut products);
        products
    }
}

impl<'a> Thread<'a> {
    /// The run name of a binder number.
    pub fn run_name(&self, binder: u8) -> u16 {
        self.names[binder as usize]
    }

    /// Channel, name sent and continuation of a thread that sends.
    pub fn sending(&self) -> Option<(u16, u16, &'a Process)> {
        match self.process {
            Process::Send { channel, name, then } => Some((self.run_name(*channel), self.run_name(*name), then)),
            _ => None,
        }
    }

    /// Channel, bound type and continuation of a thread that receives.
    pub fn receiving(&self) -> Option<(u16, Type, &'a Process)> {
        match self.process {
            Process::Receive { channel, bound, then } => Some((self.run_name(*channel), *bound, then)),
            _ => None,
        }
    }

    /// The repeated process of a thread that repeats.
    pub fn repeating(&self) -> Option<&'a Process> {
        match self.process {
            Process::Repeat(body) => Some(body),
            _ => None,
        }
    }
}

impl<'a> State<'a> {
    /// The start of a well-typed sheet, or 20.
    pub fn start(sheet: &'a Sheet) -> Result<State<'a>, u32> {
        let free = sheet.free.len();
        let mut maker = Maker { first: free, types: Vec::new() };
        let mut threads = Vec::new();
        maker.system(&sheet.system, (0..free as u16).collect(), &mut threads);
        let mut state = State { threads, types: sheet.free.clone(), known: vec![true; free] };
        state.give(maker.types);
        let fits = state.threads.len() <= MOST_THREADS && state.types.len() <= MOST_NAMES;
        if fits { Ok(state) } else { Err(20) }
    }

    /// Makes one move; a refused one gives its number and changes nothing.
    pub fn step(&mut self, a_move: &Move) -> Result<Taken, u32> {
        match *a_move {
            Move::Unfold(i) => self.unfold(i as usize),
            Move::Send(i) => self.send(i as usize),
            Move::Receive(i, v) => self.receive(i as usize, v),
            Move::Communicate(i, j) => self.communicate(i as usize, j as usize),
            Move::EnvironmentName(made) => self.environment_name(made),
        }
    }

    pub fn is_known(&self, name: u16) -> bool {
        self.known.get(name as usize) == Some(&true)
    }

    fn unfold(&mut self, i: usize) -> Result<Taken, u32> {
        let thread = self.threads.get(i).ok_or(30u32)?;
        let body = thread.repeating().ok_or(31u32)?;
        let mut maker = self.maker();
        let products = maker.continuation(thread, body, None);
        self.room(self.threads.len() + products.len(), &maker)?;
        let taken = Taken { label: Label::Unfold, channel: None, name: None, component: Some(thread.component), receiver: None };
        self.threads.splice(i..i, products);
        self.give(maker.types);
        Ok(taken)
    }

    fn send(&mut self, i: usize) -> Result<Taken, u32> {
        let thread = self.threads.get(i).ok_or(30u32)?;
        let (channel, name, then) = thread.sending().ok_or(31u32)?;
        if !self.is_known(channel) {
            return Err(32);
        }
        let label = if self.is_known(name) { Label::Out } else { Label::OutNew };
        let taken = Taken { label, channel: Some(channel), name: Some(name), component: Some(thread.component), receiver: None };
        self.replace(i, then, None)?;
        self.known[name as usize] = true;
        Ok(taken)
    }

    fn receive(&mut self, i: usize, v: u16) -> Result<Taken, u32> {
        let thread = self.threads.get(i).ok_or(30u32)?;
        let (channel, bound, then) = thread.receiving().ok_or(31u32)?;
        if !self.is_known(channel) || !self.is_known(v) {
            return Err(32);
        }
        if self.types[v as usize] != bound {
            return Err(33);
        }
        let taken = Taken { label: Label::In, channel: Some(channel), name: Some(v), component: Some(thread.component), receiver: None };
        self.replace(i, then, Some(v))?;
        Ok(taken)
    }

    fn communicate(&mut self, i: usize, j: usize) -> Result<Taken, u32> {
        let (Some(sender), Some(receiver)) = (self.threads.get(i), self.threads.get(j)) else { return Err(30) };
        let (Some(sent), Some(got)) = (sender.sending(), receiver.receiving()) else { return Err(31) };
        let (channel, name, after_send) = sent;
        if channel != got.0 {
            return Err(34);
        }
        let mut maker = self.maker();
        let from_sender = maker.continuation(sender, after_send, None);
        let from_receiver = maker.continuation(receiver, got.2, Some(name));
        self.room(self.threads.len() - 2 + from_sender.len() + from_receiver.len(), &maker)?;
        let components = (Some(sender.component), Some(receiver.component));
        self.put_both(i, from_sender, j, from_receiver);
        self.give(maker.types);
        Ok(Taken { label: Label::Communication, channel: Some(channel), name: Some(name), component: components.0, receiver: components.1 })
    }

    fn environment_name(&mut self, made: Type) -> Result<Taken, u32> {
        let name = self.types.len();
        if name >= MOST_NAMES {
            return Err(35);
        }
        self.types.push(made);
        self.known.push(true);
        Ok(Taken { label: Label::EnvironmentName, channel: None, name: Some(name as u16), component: None, receiver: None })
    }

    fn maker(&self) -> Maker {
        Maker { first: self.types.len(), types: Vec::new() }
    }

    /// Question 35 for a state with so many threads and the maker's names added.
    fn room(&self, threads: usize, maker: &Maker) -> Result<(), u32> {
        let fits = threads <= MOST_THREADS && maker.first + maker.types.len() <= MOST_NAMES;
        if fits { Ok(()) } else { Err(35) }
    }

    /// Puts the products of thread i's continuation in its place, if there is room.
    fn replace(&mut self, i: usize, then: &'a Process, received: Option<u16>) -> Result<(), u32> {
        let mut maker = self.maker();
        let products = maker.continuation(&self.threads[i], then, received);
        self.room(self.threads.len() - 1 + products.len(), &maker)?;
        self.threads.splice(i..=i, products);
        self.give(maker.types);
        Ok(())
    }

    /// Puts products in two places, the later place first so that the other keeps its number.
    fn put_both(&mut self, i: usize, at_i: Vec<Thread<'a>>, j: usize, at_j: Vec<Thread<'a>>) {
        let (low, at_low, high, at_high) = if i < j { (i, at_i, j, at_j) } else { (j, at_j, i, at_i) };
        self.threads.splice(high..=high, at_high);
        self.threads.splice(low..=low, at_low);
    }

    /// Adds new names, which are not known to the environment.
    fn give(&mut self, types: Vec<Type>) {
        self.types.extend(types);
        self.known.resize(self.types.len(), false);
    }
}
