//! The charters of a case compared: what the two sides answer, whether the answers keep the relation's laws, and whether a sheet that one
//! charter accepts is accepted alike by another that it is no looser than.

use crate::case::Case;
use crate::conditions::{self, Condition};
use crate::subject::{Independent, Proved, Subject};
use std::collections::BTreeSet;
use velimhaw::{INTERFACE_MAX, LOG_MAX};

/// What a side answers on the charters of a case: of each, whether it is no looser than each.
pub struct Comparison<'a> {
    case: &'a Case,
    side: &'a dyn Subject,
    answers: [[bool; 3]; 3],
}

/// The numbers of two charters of a case; the first is to take the second's place.
pub type Pair = [usize; 2];

/// What is written, or the question's number.
type Written = Result<Vec<u8>, u32>;

/// What the two sides answer differently.
pub fn difference(case: &Case) -> Option<String> {
    let (left, right) = (Comparison::of(case, &Independent), Comparison::of(case, &Proved));
    let pair = pairs().find(|&pair| left.answer(pair) != right.answer(pair))?;
    Some(format!("{}: independent {}, proved {}", name(pair), left.answer(pair), right.answer(pair)))
}

/// What the library answers otherwise than the conditions, looked at one by one, tell.
pub fn misjudged(case: &Case) -> Option<String> {
    let compared = Comparison::of(case, &Proved);
    let pair = pairs().find(|&pair| compared.answer(pair) != compared.failing(pair).is_empty())?;
    Some(format!("{}: proved {}, failing {:?}", name(pair), compared.answer(pair), compared.failing(pair)))
}

/// What of the library's answers is not reflexive, for charters under which it accepts a sheet without components, or not transitive.
pub fn unlawful(case: &Case) -> Option<String> {
    let compared = Comparison::of(case, &Proved);
    let passes = |number: usize| Proved.check(&[0, 0], charters(case)[number], &mut []).is_ok();
    let itself = (0..3).find(|&one| compared.answer([one, one]) != passes(one));
    let chain = triples().find(|&[a, b, c]| compared.chained([a, b, c]) && !compared.answer([a, c]));
    itself
        .map(|one| format!("{}: {}", name([one, one]), compared.answer([one, one])))
        .or_else(|| chain.map(|[a, b, c]| format!("not {}, though it is through {}", name([a, c]), NAMES[b])))
}

/// What a side answers to a sheet under a charter that accepts it and otherwise under one that the charter is no looser than.
pub fn broken(case: &Case) -> Option<String> {
    let sides: [(&str, &dyn Subject); 2] = [("independent", &Independent), ("proved", &Proved)];
    sides.into_iter().find_map(|(side, subject)| {
        let broken = Comparison::of(case, subject).kept().into_iter().find(|(_, kept)| kept.is_none());
        broken.map(|(pair, _)| format!("{}, {side}: a sheet that the first accepts is answered otherwise", name(pair)))
    })
}

const NAMES: [&str; 3] = ["the stricter charter", "the charter", "the looser charter"];

fn name([first, second]: Pair) -> String {
    format!("{} no looser than {}", NAMES[first], NAMES[second])
}

/// The charters of a case, from what is meant to be the strictest on.
fn charters(case: &Case) -> [&[u8]; 3] {
    [&case.stricter, &case.charter, &case.looser]
}

/// All pairs of charters, each with itself too.
fn pairs() -> impl Iterator<Item = Pair> {
    (0..9).map(|number| [number / 3, number % 3])
}

/// All threes of charters, with some of them more than once too.
fn triples() -> impl Iterator<Item = [usize; 3]> {
    (0..27).map(|number| [number / 9, number / 3 % 3, number % 3])
}

impl<'a> Comparison<'a> {
    pub fn of(case: &'a Case, side: &'a dyn Subject) -> Comparison<'a> {
        let answers = charters(case).map(|first| charters(case).map(|second| side.no_looser(first, second)));
        Comparison { case, side, answers }
    }

    fn answer(&self, [first, second]: Pair) -> bool {
        self.answers[first][second]
    }

    /// Whether the first of three charters is no looser than the second, and that than the third.
    fn chained(&self, [a, b, c]: [usize; 3]) -> bool {
        self.answer([a, b]) && self.answer([b, c])
    }

    /// Whether two charters have other bytes.
    fn differ(&self, [first, second]: Pair) -> bool {
        charters(self.case)[first] != charters(self.case)[second]
    }

    /// The pairs of charters with other bytes.
    pub fn pairs(&self) -> impl Iterator<Item = Pair> + '_ {
        pairs().filter(|&pair| self.differ(pair))
    }

    pub fn failing(&self, [first, second]: Pair) -> BTreeSet<Condition> {
        conditions::failing(charters(self.case)[first], charters(self.case)[second])
    }

    /// The pairs of which the first is no looser, each with what is worth counting of the answers to the case's sheet; nothing where the
    /// first accepts it and the second does not, or writes another interface or log.
    pub fn kept(&self) -> Vec<(Pair, Option<Vec<&'static str>>)> {
        let related: Vec<Pair> = self.pairs().filter(|&pair| self.answer(pair)).collect();
        let answers = if related.is_empty() { Vec::new() } else { charters(self.case).map(|charter| self.written(charter)).to_vec() };
        related.into_iter().map(|pair| (pair, alike(pair.map(|number| &answers[number])))).collect()
    }

    /// The interface of the case's sheet under a charter, and the log of its script.
    fn written(&self, charter: &[u8]) -> [Written; 2] {
        let (mut output, mut log) = (vec![0; INTERFACE_MAX], vec![0; LOG_MAX]);
        let length = self.side.check(&self.case.sheet, charter, &mut output);
        let moves = self.side.play(&self.case.sheet, charter, &self.case.script, &mut log);
        [length.map(|length| output[..length].to_vec()), moves.map(|moves| log[..8 * moves].to_vec())]
    }

    /// What is worth counting of the answers.
    pub fn met(&self) -> Vec<&'static str> {
        let with_itself = (0..3).map(|one| if self.answer([one, one]) { "with itself, yes" } else { "with itself, no" });
        let compared = self.pairs().flat_map(|[first, second]| match (self.answer([first, second]), self.answer([second, first])) {
            (true, true) => vec!["yes", "yes, both ways"],
            (true, false) => vec!["yes"],
            (false, _) => vec!["no"],
        });
        let distinct = |[a, b, c]: &[usize; 3]| self.differ([*a, *b]) && self.differ([*b, *c]) && self.differ([*a, *c]);
        let chains = triples().filter(|three| distinct(three) && self.chained(*three)).map(|_| "through a third");
        with_itself.chain(compared).chain(chains).collect()
    }
}

/// What is worth counting of the answers under two charters; nothing where the first accepts and the second does not answer the same.
fn alike([first, second]: [&[Written; 2]; 2]) -> Option<Vec<&'static str>> {
    let told = |what: &'static str, written: &Written| written.as_ref().is_ok_and(|bytes| !bytes.is_empty()).then_some(what);
    match (&first[0], &second[0]) {
        (Ok(_), _) if first != second => None,
        (Ok(_), _) => {
            let more = [told("accepted by both, with entries", &first[0]), told("accepted by both, with records", &first[1])];
            Some(["accepted by both"].into_iter().chain(more.into_iter().flatten()).collect())
        }
        (Err(_), Ok(_)) => Some(vec!["accepted by the second alone"]),
        (Err(_), Err(_)) => Some(vec!["refused by both"]),
    }
}
