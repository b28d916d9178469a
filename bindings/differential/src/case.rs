//! One case, and how the two sides are held against each other on it: answers and all lent memory.

use crate::subject::Subject;
use independent::demand3::Watch;
use independent::running::State;
use independent::text;
use velimhaw::{SlackEntries, SLACK_MAX};

/// The inputs of one case; `old` is a sheet of the old form, `stricter` and `looser` are charters to compare with the charter, `output`,
/// `line` and `log` are the lengths of the lent memory, and `trim` chooses a count of the charter.
#[derive(Clone)]
pub struct Case {
    pub sheet: Vec<u8>,
    pub old: Vec<u8>,
    pub charter: Vec<u8>,
    pub stricter: Vec<u8>,
    pub looser: Vec<u8>,
    pub names: Vec<u8>,
    pub script: Vec<u8>,
    pub output: usize,
    pub line: usize,
    pub log: usize,
    pub pattern: u8,
    pub trim: usize,
}

/// A call's answer and the memory afterwards, with the margins around what was lent.
#[derive(PartialEq, Eq)]
pub struct Outcome {
    pub answer: Result<usize, u32>,
    memory: Vec<u8>,
}

/// The bytes around what is lent.
pub const MARGIN: usize = 24;

impl Case {
    pub fn check(&self, subject: &dyn Subject) -> Outcome {
        self.lend(self.output, |output| subject.check(&self.sheet, &self.charter, output))
    }

    /// The service slack with an output of so many bytes.
    pub fn slack(&self, subject: &dyn Subject, output: usize) -> Outcome {
        self.lend(output, |output| subject.slack(&self.sheet, &self.charter, output))
    }

    pub fn explain(&self, subject: &dyn Subject) -> Outcome {
        self.lend(self.line, |line| subject.explain(&self.sheet, &self.charter, &self.names, line))
    }

    pub fn play(&self, subject: &dyn Subject) -> Outcome {
        self.lend(self.log, |log| subject.play(&self.sheet, &self.charter, &self.script, log))
    }

    /// Lends patterned memory with a margin on both sides to a call.
    pub fn lend(&self, length: usize, call: impl FnOnce(&mut [u8]) -> Result<usize, u32>) -> Outcome {
        let mut memory = self.patterned(length + 2 * MARGIN);
        let answer = call(&mut memory[MARGIN..MARGIN + length]);
        Outcome { answer, memory }
    }

    fn patterned(&self, length: usize) -> Vec<u8> {
        (0..length).map(|i| self.pattern.wrapping_add((i * 7) as u8)).collect()
    }

    /// What the two sides answer differently, or what one of them does to memory it may not touch.
    pub fn difference(&self, left: &dyn Subject, right: &dyn Subject) -> Option<String> {
        self.compare("check", 1, &self.check(left), &self.check(right))
            .or_else(|| self.compare("explain", 1, &self.explain(left), &self.explain(right)))
            .or_else(|| self.compare("play", 8, &self.play(left), &self.play(right)))
    }

    /// What the two sides do differently in slack, with an output of just the length that is written, one byte less, and more.
    pub fn slack_difference(&self, left: &dyn Subject, right: &dyn Subject) -> Option<String> {
        let length = self.slack(left, SLACK_MAX).answer.unwrap_or(0);
        let lengths = [length, length.saturating_sub(1), length + MARGIN];
        lengths.into_iter().find_map(|output| self.compare("slack", 1, &self.slack(left, output), &self.slack(right, output)))
    }

    /// What the entries of a side's slack form show otherwise than the list program prints them.
    pub fn list_difference(&self, subject: &dyn Subject) -> Option<String> {
        let outcome = self.slack(subject, SLACK_MAX);
        outcome.answer.ok()?;
        let lines: String = SlackEntries::new(outcome.written()).map(|entry| format!("{entry}\n")).collect();
        let printed = text::list(&self.sheet, &self.charter, &self.names);
        (printed != format!("accepted\n{lines}")).then(|| format!("list prints {printed:?}, the slack form shows {lines:?}"))
    }

    /// What of the outcomes of a call differs, or what both do to memory past `unit` bytes for each of the number that they answer.
    pub fn compare(&self, service: &str, unit: usize, left: &Outcome, right: &Outcome) -> Option<String> {
        if left.answer != right.answer {
            return Some(format!("{service}: independent {:?}, proved {:?}", left.answer, right.answer));
        }
        if let Some(at) = (0..left.memory.len()).find(|&i| left.memory[i] != right.memory[i]) {
            let (a, b) = (left.memory[at], right.memory[at]);
            return Some(format!("{service}: byte {} is {a:02x} and {b:02x}", at as isize - MARGIN as isize));
        }
        let written = left.answer.unwrap_or(0) * unit;
        let fresh = self.patterned(left.memory.len());
        let kept = |i: &usize| *i >= MARGIN && *i < MARGIN + written;
        let touched = (0..fresh.len()).filter(|i| !kept(i)).find(|&i| fresh[i] != left.memory[i]);
        touched.map(|at| format!("{service}: both touch byte {} beyond what they write", at as isize - MARGIN as isize))
    }

    /// What of demand 3 does not hold after some move of an accepted sheet's run.
    pub fn violation(&self) -> Option<String> {
        let accepted = independent::accept(&self.sheet, &self.charter).ok()?;
        let mut state = State::start(&accepted.sheet).ok()?;
        let moves = independent::script::read(&self.script).ok()?;
        let mut watch = Watch::new(&accepted);
        if let Err(what) = watch.look(&state) {
            return Some(format!("demand 3 at the start: {what}"));
        }
        for (number, a_move) in moves.iter().enumerate() {
            if let Ok(taken) = state.step(a_move) {
                watch.note(&state, &taken);
            }
            if let Err(what) = watch.look(&state) {
                return Some(format!("demand 3 after move {number}: {what}"));
            }
        }
        None
    }

    pub fn print(&self) {
        let sheets = [("sheet", &self.sheet), ("old sheet", &self.old)];
        let charters = [("charter", &self.charter), ("stricter charter", &self.stricter), ("looser charter", &self.looser)];
        let others = [("names", &self.names), ("script", &self.script)];
        for (name, bytes) in sheets.into_iter().chain(charters).chain(others) {
            println!("{name} ({} bytes): {}", bytes.len(), hex(bytes));
        }
        let lengths = format!("output {} bytes, line {} bytes, log {} bytes", self.output, self.line, self.log);
        println!("{lengths}, pattern {:02x}, trim {}", self.pattern, self.trim);
    }
}

impl Outcome {
    /// The bytes that an accepted call of another service than play wrote.
    pub fn written(&self) -> &[u8] {
        &self.memory[MARGIN..][..self.answer.unwrap_or(0)]
    }

    /// The records in an accepted play's log.
    pub fn records(&self) -> impl Iterator<Item = &[u8]> {
        self.memory[MARGIN..].chunks(8).take(self.answer.unwrap_or(0))
    }
}

fn hex(bytes: &[u8]) -> String {
    bytes.iter().map(|byte| format!("{byte:02x}")).collect::<Vec<_>>().join(" ")
}
