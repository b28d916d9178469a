//! Makes a failing case smaller while it still fails.

use crate::case::Case;
use crate::charters::each_node;
use crate::pruning::{prune, CHARTERS};
use independent::charter::{self, Charter};
use independent::script::{self, Move};

/// The smallest case found by dropping moves, bytes, parts of its charters and lent memory while `fails` holds, with 0 for bytes where it
/// still does then.
pub fn shrink(case: Case, fails: &dyn Fn(&Case) -> bool) -> Case {
    let mut best = case;
    loop {
        let size = weight(&best);
        best = drop_moves(best, fails);
        best = drop_bytes(best, fails, |case| &mut case.script);
        best = drop_bytes(best, fails, |case| &mut case.names);
        best = CHARTERS.into_iter().fold(best, |best, field| drop_bytes(best, fails, field));
        best = drop_bytes(best, fails, |case| &mut case.sheet);
        best = drop_bytes(best, fails, |case| &mut case.old);
        best = drop_maps(prune(best, fails), fails);
        best = lend_less(best, fails);
        if weight(&best) == size {
            return put_zeros(best, fails);
        }
    }
}

fn weight(case: &Case) -> usize {
    let lent = case.output + case.line + case.log;
    let charters = case.charter.len() + case.stricter.len() + case.looser.len();
    case.sheet.len() + case.old.len() + charters + case.names.len() + case.script.len() + lent
}

/// Drops runs of things, long ones first, while the case built from the rest fails.
fn drop_runs<T: Clone>(mut things: Vec<T>, still_fails: &dyn Fn(&[T]) -> bool) -> Vec<T> {
    let mut run = things.len();
    while run > 0 {
        let mut at = 0;
        while at + run <= things.len() {
            let mut fewer = things.clone();
            fewer.drain(at..at + run);
            if still_fails(&fewer) {
                things = fewer;
            } else {
                at += run.div_ceil(2);
            }
        }
        run /= 2;
    }
    things
}

fn drop_bytes(case: Case, fails: &dyn Fn(&Case) -> bool, field: fn(&mut Case) -> &mut Vec<u8>) -> Case {
    let with = |bytes: &[u8]| {
        let mut other = case.clone();
        *field(&mut other) = bytes.to_vec();
        other
    };
    let start = field(&mut case.clone()).clone();
    let bytes = drop_runs(start, &|bytes| fails(&with(bytes)));
    with(&bytes)
}

fn drop_moves(case: Case, fails: &dyn Fn(&Case) -> bool) -> Case {
    let Ok(moves) = script::read(&case.script) else { return case };
    let with = |moves: &[Move]| {
        let mut script = Vec::new();
        moves.iter().for_each(|a_move| a_move.write(&mut script));
        Case { script, ..case.clone() }
    };
    let moves = drop_runs(moves, &|moves| fails(&with(moves)));
    with(&moves)
}

/// Takes maps of purposes away from the charter, a node at a time.
fn drop_maps(case: Case, fails: &dyn Fn(&Case) -> bool) -> Case {
    let Ok(mut charter) = charter::read(&case.charter) else { return case };
    let mut best = case;
    for number in 0.. {
        let Some(fewer) = without_map(&charter, number) else { break };
        let other = Case { charter: fewer.write(), ..best.clone() };
        if weight(&other) < weight(&best) && fails(&other) {
            (best, charter) = (other, fewer);
        }
    }
    best
}

/// The charter without a map at its node of such a number, nothing where it has none of it.
fn without_map(charter: &Charter, number: usize) -> Option<Charter> {
    let (mut fewer, mut nodes) = (charter.clone(), 0);
    for tree in &mut fewer.trees {
        each_node(&mut tree.root, &mut |node| {
            if nodes == number {
                node.purposes = None;
            }
            nodes += 1;
        });
    }
    (number < nodes).then_some(fewer)
}

/// Puts 0 for bytes of the sheets and of the charters.
fn put_zeros(case: Case, fails: &dyn Fn(&Case) -> bool) -> Case {
    let mut best = case;
    let sheets: [fn(&mut Case) -> &mut Vec<u8>; 2] = [|case| &mut case.sheet, |case| &mut case.old];
    for field in sheets.into_iter().chain(CHARTERS) {
        for at in 0..field(&mut best).len() {
            let mut other = best.clone();
            field(&mut other)[at] = 0;
            if fails(&other) {
                best = other;
            }
        }
    }
    best
}

fn lend_less(case: Case, fails: &dyn Fn(&Case) -> bool) -> Case {
    let mut best = case;
    for length in [0, 1, 8, 16, 64, 256, 1024] {
        let output = Case { output: length, ..best.clone() };
        let line = Case { line: length, ..best.clone() };
        let log = Case { log: length, ..best.clone() };
        for other in [output, line, log] {
            if weight(&other) < weight(&best) && fails(&other) {
                best = other;
            }
        }
    }
    best
}
