//! Refusals, and what each question asks for.

use std::fmt;

/// A call or a move that was refused, with the number of the first question that fails. It shows as the number and the question's line.
#[derive(Clone, Copy, Debug, PartialEq, Eq, Hash)]
pub struct Refusal {
    number: usize,
}

impl Refusal {
    /// The refusal with a question's number.
    pub fn new(number: usize) -> Refusal {
        Refusal { number }
    }

    /// The question's number: 1 to 22, 40 and 41 of a call, 30 to 35 of a move.
    pub fn number(self) -> usize {
        self.number
    }
}

impl fmt::Display for Refusal {
    fn fmt(&self, f: &mut fmt::Formatter) -> fmt::Result {
        let line = question(self.number).unwrap_or("no question has this number");
        write!(f, "refused {}, not met: {line}", self.number)
    }
}

impl std::error::Error for Refusal {}

/// What a question asks for, in one line (docs/REFERENCE.md, question N); nothing for a number that no question has.
pub fn question(number: usize) -> Option<&'static str> {
    Some(match number {
        1 => "sheet, charter and moved sheet of at most 4,096 bytes each",
        2 => "a byte wherever the sheet needs one",
        3 => "no byte left over after the sheet",
        4 => "each code, group, purpose, kind and count of the sheet in its range",
        5 => "at most 64 nested forms, 64 names in scope, 8 groups in a path and 32 components",
        6 => "each group new to its path",
        7 => "each used name in scope",
        8 => "each name used as a channel of a channel type",
        9 => "each channel carrying the type of the name sent or bound",
        10 => "each used channel's outermost group in the component's path",
        11 => "a charter that reads, in its ranges, to its end",
        12 => "no two trees of the charter for one kind",
        13 => "no node of the charter below a node of its group",
        14 => "the same permissions and purposes at all nodes of one group in a tree of the charter",
        15 => "below a node with nondisclose, disclosure only to groups of that node or of nodes below it",
        16 => "a tree of the charter for each entry's kind",
        17 => "each group of each entry's path at a node that the path reaches",
        18 => "each entry covered by its path's grant for its purpose, counts added over components with the same groups and purpose",
        19 => "an output long enough for the interface, the slack or the moved sheet, or a line for the sentence",
        20 => "a start of at most 64 threads and 1,024 names",
        21 => "a script of at most 1,024 whole moves, each field in its range",
        22 => "a log of at least 8 bytes a move",
        30 => "a thread at each number that the move gives",
        31 => "threads of the form that the move needs",
        32 => "the channel, and a name received, known to the environment",
        33 => "the name received of the type of the bound name",
        34 => "sender and receiver on the same channel",
        35 => "at most 64 threads and 1,024 names after the move",
        40 => "a name of 1 to 20 letters, ended by 0A, for each of 64 groups and 16 kinds, no two alike in a list, and nothing after",
        41 => "purpose 0 at each component of a sheet that goes back to the old form",
        _ => return None,
    })
}
