//! The benchmark: times the independent implementation and the proved library in one process on the same inputs.
//! For each workload it prints the time per call of each side, the best of several repetitions, their ratio, and, where valgrind
//! is there, the instructions of a call of each side as callgrind counts them.
//! `benchmark --calls WORKLOAD SIDE N` makes N calls of one side alone (0 independent, 1 proved), for a profiler.

mod inputs;
mod instructions;
mod policies;
mod shared;
mod workloads;

use std::time::{Duration, Instant};
use workloads::Workload;

const REPETITIONS: usize = 25;
const LEAST: Duration = Duration::from_millis(4);

fn main() {
    let arguments: Vec<String> = std::env::args().skip(1).collect();
    match arguments.iter().map(String::as_str).collect::<Vec<_>>()[..] {
        [] => table(),
        ["--calls", workload, side, calls] => only(number(workload), number(side), number(calls)),
        _ => panic!("benchmark [--calls WORKLOAD SIDE N]"),
    }
}

fn number(argument: &str) -> usize {
    argument.parse().unwrap_or_else(|_| panic!("not a number: {argument}"))
}

/// Makes calls of one side of a workload and nothing else.
fn only(workload: usize, side: usize, calls: usize) {
    let workload = &workloads::all()[workload];
    let mut lent = workloads::lent();
    for _ in 0..calls {
        workload.call(side, &mut lent);
    }
}

fn table() {
    let counted = instructions::available();
    println!("{:<40} {:>12} {:>12} {:>6} {:>12} {:>12} {:>6}", "call", "independent", "proved", "ratio", "independent", "proved", "ratio");
    for (index, workload) in workloads::all().iter().enumerate() {
        workload.agree();
        let times = best(workload);
        print!("{:<40} {:>9.2} us {:>9.2} us {:>6.2}", workload.name, times[0], times[1], times[1] / times[0]);
        if counted {
            let counts = [instructions::per_call(index, 0), instructions::per_call(index, 1)];
            print!(" {:>12} {:>12} {:>6.2}", counts[0], counts[1], counts[1] as f64 / counts[0] as f64);
        }
        println!();
    }
    if !counted {
        println!("valgrind is not there: no instruction counts");
    }
}

/// The shortest times per call of both sides, in microseconds. The sides take turns, so that what else the machine does meets both.
fn best(workload: &Workload) -> [f64; 2] {
    let mut lent = workloads::lent();
    let calls = [0, 1].map(|side| enough(workload, side, &mut lent));
    let mut shortest = [f64::INFINITY; 2];
    for _ in 0..REPETITIONS {
        for side in [0, 1] {
            let elapsed = time(workload, side, calls[side], &mut lent).as_nanos() as f64;
            shortest[side] = shortest[side].min(elapsed / calls[side] as f64 / 1000.0);
        }
    }
    shortest
}

/// So many calls that they take a time that can be measured.
fn enough(workload: &Workload, side: usize, lent: &mut [u8]) -> usize {
    let mut calls = 1;
    while time(workload, side, calls, lent) < LEAST {
        calls *= 2;
    }
    calls
}

fn time(workload: &Workload, side: usize, calls: usize, lent: &mut [u8]) -> Duration {
    let start = Instant::now();
    for _ in 0..calls {
        workload.call(side, lent);
    }
    start.elapsed()
}
