//! The differential tester: generates inputs and compares the independent implementation with the proved library. It also looks at demand 3
//! after every move, by path and purpose, trims a charter by the slack that is told, moves sheets to the old form and to the new one, and
//! compares charters, with what their comparison promises of sheets.
//! Usage: differential [--cases N] [--seconds S] [--seed X] [--first K] [--show]
//! `--first` starts at a later case of the same seed; `--show` prints each case before it is run.

mod case;
mod chain;
mod charters;
mod classes;
mod comparing;
mod conditions;
mod damage;
mod edges;
mod faults;
mod generate;
mod growing;
mod moving;
mod names;
mod old;
mod pruning;
mod purposes;
mod random;
mod repeats;
mod sameness;
mod scripts;
mod served;
mod shared;
mod sharers;
mod sheets;
mod shrink;
mod steps;
mod subject;
mod totals;
mod trimming;

use case::Case;
use random::Random;
use std::process::ExitCode;
use std::time::{Duration, Instant, SystemTime, UNIX_EPOCH};
use subject::{Independent, Proved};
use totals::Totals;

struct Options {
    cases: u64,
    seconds: Option<u64>,
    seed: u64,
    first: u64,
    show: bool,
}

fn main() -> ExitCode {
    let Some(options) = options() else {
        eprintln!("usage: differential [--cases N] [--seconds S] [--seed X] [--first K] [--show]");
        return ExitCode::from(2);
    };
    println!("seed {}", options.seed);
    let mut totals = Totals::default();
    let outcome = run(&options, &mut totals);
    totals.print();
    outcome
}

fn options() -> Option<Options> {
    let now = SystemTime::now().duration_since(UNIX_EPOCH).map_or(1, |since| since.as_nanos() as u64);
    let mut options = Options { cases: 0, seconds: None, seed: now % 1_000_000_007, first: 0, show: false };
    let mut arguments = std::env::args().skip(1);
    while let Some(argument) = arguments.next() {
        if argument == "--show" {
            options.show = true;
            continue;
        }
        let value: u64 = arguments.next()?.parse().ok()?;
        match argument.as_str() {
            "--cases" => options.cases = value,
            "--seconds" => options.seconds = Some(value),
            "--seed" => options.seed = value,
            "--first" => options.first = value,
            _ => return None,
        }
    }
    if options.cases == 0 {
        options.cases = if options.seconds.is_some() { u64::MAX } else { 10_000 };
    }
    Some(options)
}

fn run(options: &Options, totals: &mut Totals) -> ExitCode {
    let end = options.seconds.map(|seconds| Instant::now() + Duration::from_secs(seconds));
    let mut number = options.first;
    while totals.cases < options.cases && end.is_none_or(|end| Instant::now() < end) {
        let mut random = Random::new(options.seed, number);
        let case = generate::case(&mut random);
        if options.show {
            println!("case {number}");
            case.print();
        }
        if let Some(what) = examine(&case, random.chance(10), totals) {
            println!("case {number}: {what}");
            return ExitCode::FAILURE;
        }
        number += 1;
    }
    ExitCode::SUCCESS
}

/// A look at a case; it answers the fault that it finds.
type Look = fn(&Case) -> Option<String>;

/// The looks at each case, whatever the lengths of its output, line and log.
const LOOKS: [Look; 11] = [
    Case::violation,
    |case| case.slack_difference(&Independent, &Proved),
    |case| case.list_difference(&Proved),
    trimming::fault,
    moving::difference,
    moving::loss,
    sameness::fault,
    comparing::difference,
    comparing::misjudged,
    comparing::unlawful,
    comparing::broken,
];

/// Looks at a case, and compares the two sides on it, with `sweep` at every length around the need; the answer is a shown fault.
fn examine(case: &Case, sweep: bool, totals: &mut Totals) -> Option<String> {
    totals.count(case);
    let mut cases = vec![case.clone()];
    if sweep {
        cases.extend(generate::lengths(case));
    }
    let differs: Look = |case| case.difference(&Independent, &Proved);
    LOOKS.into_iter().find_map(|look| found(case, look)).or_else(|| cases.iter().find_map(|case| found(case, differs)))
}

/// What a look finds; the case is then printed, made as small as it gets.
fn found(case: &Case, look: Look) -> Option<String> {
    let what = look(case)?;
    let small = shrink::shrink(case.clone(), &|case| look(case).is_some());
    println!("a fault, shrunk:");
    small.print();
    println!("{}", look(&small).expect("a case that still fails"));
    Some(what)
}
