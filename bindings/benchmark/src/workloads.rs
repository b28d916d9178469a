//! The workloads of the benchmark: a call of `check`, `slack`, `play`, `upgrade`, `downgrade` or `no_looser` on given inputs, of either
//! side.

use crate::{inputs, policies, shared};
use std::hint::black_box;

pub struct Workload {
    pub name: String,
    sheet: Vec<u8>,
    charter: Vec<u8>,
    service: Service,
}

/// What is called; `play` with its script, `no_looser` with the charter that its own is to replace.
enum Service {
    Check,
    Slack,
    Play(Vec<u8>),
    Upgrade,
    Downgrade,
    NoLooser(Vec<u8>),
}

/// Memory to lend to a call: room for any interface, any slack form, any log and any sheet.
pub fn lent() -> Vec<u8> {
    vec![0; velimhaw::SLACK_MAX]
}

pub fn all() -> Vec<Workload> {
    let mut all = Vec::new();
    for (service, call) in [("check", check as Call), ("slack", slack)] {
        all.push(call(&format!("{service}, W"), inputs::W_SHEET.to_vec(), inputs::W_CHARTER.to_vec()));
        all.push(call(&format!("{service}, typical: 12 components, 300 bytes"), inputs::sheet(300, 12, 3), inputs::charter(3)));
        all.push(call(&format!("{service}, largest: 4,096 bytes, 64 nodes"), inputs::sheet(4096, 32, 16), inputs::charter(16)));
    }
    for (size, components) in [(256, 2), (1024, 8), (4096, 32)] {
        all.push(check(&format!("check, growth: {size} bytes"), inputs::sheet(size, components, 4), inputs::charter(4)));
    }
    for posts in [4, 8, 16, 32] {
        all.push(check(&format!("check, deep: {posts} paths of 8, 64 nodes"), inputs::deep_sheet(posts), inputs::deep_charter(posts)));
    }
    for posts in [8, 16, 32] {
        let ((sheet, charter), (own_sheet, own_charter)) = (shared::one_class(posts), shared::of_their_own(posts));
        all.push(check(&format!("check, shared: {posts} posts of one class"), sheet, charter));
        all.push(check(&format!("check, shared: {posts} posts of their own"), own_sheet, own_charter));
    }
    for (moves, idle, threads) in [(1024, 0, "few"), (1024, 60, "64"), (512, 60, "64"), (256, 60, "64"), (24, 0, "few"), (3, 0, "few")] {
        let name = format!("play, {moves} moves, {threads} threads");
        all.push(play(&name, inputs::running_sheet(idle), inputs::running_script(moves, idle)));
    }
    for size in [500, 1000, 2000, 4000] {
        all.push(play(&format!("play, 126 moves, text: {size} bytes"), inputs::text_sheet(size), inputs::text_script(63)));
    }
    all.into_iter().chain(moves()).chain(comparisons()).collect()
}

/// The sheets moved to the new form and to the old one: W, typical, largest and growing.
fn moves() -> Vec<Workload> {
    let mut sheets = vec![
        ("W".to_string(), inputs::W_SHEET.to_vec()),
        ("typical: 300 bytes".to_string(), inputs::sheet(300, 12, 3)),
        ("largest: 4,096 bytes".to_string(), inputs::sheet(4096, 32, 16)),
    ];
    for (size, components) in [(256, 2), (1024, 8), (4096, 32)] {
        sheets.push((format!("growth: {size} bytes"), inputs::sheet(size, components, 4)));
    }
    let upgrades = sheets.iter().map(|(name, sheet)| moved(&format!("upgrade, {name}"), inputs::old_form(sheet), Service::Upgrade));
    let downgrades = sheets.iter().map(|(name, sheet)| moved(&format!("downgrade, {name}"), sheet.clone(), Service::Downgrade));
    upgrades.chain(downgrades).collect()
}

/// Charters compared with looser ones, W's with itself: 16 trees, those of the other charter the other way round; the longest lists; a deep
/// and wide tree, growing.
fn comparisons() -> Vec<Workload> {
    let mut all = vec![
        compared("no_looser, W", inputs::W_CHARTER.to_vec(), inputs::W_CHARTER.to_vec()),
        compared("no_looser, 16 trees of 4 nodes", policies::trees(1, false), policies::trees(2, true)),
        compared("no_looser, 21 nodes, lists of 64", policies::long_lists(1), policies::long_lists(2)),
    ];
    for nodes in [4, 16, 64] {
        let name = format!("no_looser, growth: {nodes} nodes, {} bytes", 64 * nodes);
        all.push(compared(&name, policies::deep_and_wide(nodes, 1), policies::deep_and_wide(nodes, 2)));
    }
    all
}

/// Makes a workload of a name, a sheet and a charter.
type Call = fn(&str, Vec<u8>, Vec<u8>) -> Workload;

fn check(name: &str, sheet: Vec<u8>, charter: Vec<u8>) -> Workload {
    Workload { name: name.to_string(), sheet, charter, service: Service::Check }
}

fn slack(name: &str, sheet: Vec<u8>, charter: Vec<u8>) -> Workload {
    Workload { service: Service::Slack, ..check(name, sheet, charter) }
}

fn play(name: &str, sheet: Vec<u8>, script: Vec<u8>) -> Workload {
    Workload { service: Service::Play(script), ..check(name, sheet, inputs::RUNNING_CHARTER.to_vec()) }
}

/// A call that takes no charter.
fn moved(name: &str, sheet: Vec<u8>, service: Service) -> Workload {
    Workload { service, ..check(name, sheet, Vec::new()) }
}

/// A call that takes no sheet.
fn compared(name: &str, charter: Vec<u8>, before: Vec<u8>) -> Workload {
    Workload { service: Service::NoLooser(before), ..check(name, Vec::new(), charter) }
}

impl Workload {
    /// One call of a side: 0 is the independent implementation, 1 the proved library. The number that it accepts with, or 1 for yes.
    pub fn call(&self, side: usize, lent: &mut [u8]) -> usize {
        let (sheet, charter) = (black_box(&self.sheet[..]), black_box(&self.charter[..]));
        let answer = match (side, &self.service) {
            (0, Service::Check) => independent::check(sheet, charter, lent),
            (0, Service::Slack) => independent::slack(sheet, charter, lent),
            (0, Service::Play(script)) => independent::play(sheet, charter, script, lent),
            (0, Service::Upgrade) => independent::upgrade(sheet, lent),
            (0, Service::Downgrade) => independent::downgrade(sheet, lent),
            (0, Service::NoLooser(before)) => said(independent::no_looser(charter, black_box(before))),
            (_, Service::Check) => told(velimhaw::check(sheet, charter, lent)),
            (_, Service::Slack) => told(velimhaw::slack(sheet, charter, lent)),
            (_, Service::Play(script)) => told(velimhaw::play(sheet, charter, script, lent)),
            (_, Service::Upgrade) => told(velimhaw::upgrade(sheet, lent)),
            (_, Service::Downgrade) => told(velimhaw::downgrade(sheet, lent)),
            (_, Service::NoLooser(before)) => said(velimhaw::no_looser(charter, black_box(before))),
        };
        black_box(answer).unwrap_or_else(|n| panic!("{}: refused {n}", self.name))
    }

    /// Both sides accept with the same number, or say yes, and write the same, and every move of a run is taken.
    pub fn agree(&self) {
        let (mut left, mut right) = (lent(), lent());
        let number = self.call(0, &mut left);
        assert_eq!(self.call(1, &mut right), number, "{}", self.name);
        assert!(left == right, "{}: what they write differs", self.name);
        if let Service::Play(_) = self.service {
            assert!(left[..8 * number].chunks(8).all(|record| record[0] == 0), "{}: a move is refused", self.name);
        }
    }
}

fn told(answer: velimhaw::Answer) -> Result<usize, u32> {
    match answer {
        velimhaw::Answer::Accepted(number) => Ok(number),
        velimhaw::Answer::Refused(number) => Err(number as u32),
    }
}

/// 1 for yes; no is a refusal.
fn said(yes: bool) -> Result<usize, u32> {
    if yes { Ok(1) } else { Err(0) }
}
