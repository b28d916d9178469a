//! Instructions of a call, counted by callgrind: the program runs itself under valgrind with few and with more calls of one side,
//! and the difference is what the further calls take.

use std::process::Command;

const FEW: u64 = 2;
const MORE: u64 = 12;

/// Is valgrind there?
pub fn available() -> bool {
    Command::new("valgrind").arg("--version").output().is_ok_and(|output| output.status.success())
}

/// The instructions of one call of a side of a workload.
pub fn per_call(workload: usize, side: usize) -> u64 {
    (collected(workload, side, MORE) - collected(workload, side, FEW)) / (MORE - FEW)
}

/// The instructions of a process that makes so many calls.
fn collected(workload: usize, side: usize, calls: u64) -> u64 {
    let program = std::env::current_exe().expect("the program's own path");
    let output = Command::new("valgrind")
        .args(["--tool=callgrind", "--callgrind-out-file=/dev/null"])
        .arg(program)
        .args(["--calls", &workload.to_string(), &side.to_string(), &calls.to_string()])
        .output()
        .expect("valgrind runs");
    let text = String::from_utf8_lossy(&output.stderr);
    let line = text.lines().find(|line| line.contains("Collected :")).unwrap_or_else(|| panic!("no count: {text}"));
    line.rsplit(' ').next().and_then(|number| number.parse().ok()).unwrap_or_else(|| panic!("no number: {line}"))
}
