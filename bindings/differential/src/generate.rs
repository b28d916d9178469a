//! Puts whole cases together.

use crate::case::Case;
use crate::random::Random;
use crate::{chain, charters, classes, damage, edges, growing, names, old, repeats, scripts, sheets};
use independent::charter::Charter;
use independent::permissions::Entry;
use independent::running::State;
use independent::sheet::{self, Sheet};
use independent::typing;

/// The next case.
pub fn case(random: &mut Random) -> Case {
    let (mut sheet, mut charter) = match random.below(100) {
        0..=9 => edges::edge(random),
        10..=14 => (damage::noise(random), damage::noise(random)),
        15..=20 => (vec![0, 0], growing::charter(random).write()),
        _ => pair(random),
    };
    let mut script = script(random, &sheet, &charter);
    let old = old::old(random, &sheet);
    if random.chance(15) {
        match random.below(3) {
            0 => damage::damage(random, &mut sheet),
            1 => damage::damage(random, &mut charter),
            _ => damage::damage(random, &mut script),
        }
    }
    let [stricter, looser] = chain::around(random, &charter);
    let names = names::names(random);
    let (pattern, trim) = (random.byte(), random.below(1 << 16));
    let mut case = Case { sheet, old, charter, stricter, looser, names, script, output: 0, line: 0, log: 0, pattern, trim };
    case.output = around(random, needed_output(&case), 3);
    case.line = around(random, needed_line(&case), 3);
    case.log = around(random, needed_log(&case), 9);
    case
}

/// A generated sheet with a charter derived from what it infers.
fn pair(random: &mut Random) -> (Vec<u8>, Vec<u8>) {
    let plan = sheets::plan(random);
    let bytes = sheets::sheet(random, plan);
    let Some(read) = sheet::read(&bytes).ok().filter(|read| typing::check_sheet(read).is_ok()) else {
        return (bytes, vec![0]);
    };
    let interface = typing::interface(&read);
    let classes = classes::classes(&read, &interface);
    let mut charter = charters::covering(random, &classes);
    let tipped = random.chance(50) && classes::tip(random, &mut charter, &classes);
    if !tipped || random.chance(20) {
        change(random, &mut charter, &read, &interface);
    }
    (bytes, charter.write())
}

/// Leaves a charter as it is, or changes it here and there.
fn change(random: &mut Random, charter: &mut Charter, sheet: &Sheet, interface: &[Entry]) {
    if random.chance(20) {
        charters::loosen(random, charter);
    }
    if random.chance(45) {
        (0..random.between(1, 2)).for_each(|_| charters::perturb(random, charter));
    }
    if random.chance(25) {
        (0..random.between(1, 2)).for_each(|_| charters::withhold(random, charter, sheet, interface));
    }
    if random.chance(12) {
        repeats::repeat(random, charter);
    }
    if random.chance(30) {
        let nodes = random.between(1, 8);
        growing::grow(random, charter, nodes);
    }
}

/// A script for a sheet; where the sheet is refused, a short one.
fn script(random: &mut Random, sheet: &[u8], charter: &[u8]) -> Vec<u8> {
    let accepted = independent::accept(sheet, charter);
    let state = accepted.as_ref().ok().and_then(|accepted| State::start(&accepted.sheet).ok());
    let length = match random.below(200) {
        0 => random.between(1022, 1026),
        1..=9 => random.between(100, 400),
        _ => random.between(0, 30),
    };
    match state {
        Some(state) => scripts::script(random, state, length),
        None if random.chance(50) => Vec::new(),
        None => damage::noise(random),
    }
}

/// The length of an accepted answer, found with plenty of memory.
fn needed_output(case: &Case) -> usize {
    independent::check(&case.sheet, &case.charter, &mut [0; 8192]).unwrap_or(0)
}

/// The length of the sentence, found with the longest line.
fn needed_line(case: &Case) -> usize {
    let mut line = [0; independent::sentence::LONGEST];
    independent::explain(&case.sheet, &case.charter, &case.names, &mut line).unwrap_or(0)
}

fn needed_log(case: &Case) -> usize {
    8 * independent::script::read(&case.script).map_or(0, |moves| moves.len())
}

/// Mostly enough, sometimes short of the need, sometimes exact.
fn around(random: &mut Random, need: usize, near: usize) -> usize {
    match random.below(10) {
        0 => random.between(need.saturating_sub(near), need + near),
        1 => random.below(need + 1),
        2..=5 => need,
        _ => need + random.below(40),
    }
}

/// The same case with every length of lent memory around the need.
pub fn lengths(case: &Case) -> Vec<Case> {
    let (output, line, log) = (needed_output(case), needed_line(case), needed_log(case));
    let mut cases = vec![Case { output: 0, line: 0, log: log.saturating_sub(8), ..case.clone() }];
    for step in 0..=8 {
        let near = |need: usize| (need + step).saturating_sub(4);
        cases.push(Case { output: near(output), line: near(line), log: near(log), ..case.clone() });
    }
    cases
}
