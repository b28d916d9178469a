//! What the cases of a run met: refusals by number, faults of charters that come together, counts that components share, purposes, sums
//! told and counts trimmed, the first uncovered permissions by verb, records by label, sheets moved and what they are answered, charters
//! compared and what sheets are answered under them.

use crate::case::Case;
use crate::comparing::Comparison;
use crate::conditions::Condition;
use crate::subject::Independent;
use crate::trimming::Trimming;
use crate::{classes, faults, moving, sameness, served, shared};
use independent::permissions::Need;
use independent::{charter, sheet, typing};
use std::collections::BTreeMap;
use velimhaw::{SlackEntries, Sums, COUNT_MAX, SLACK_MAX, UNLIMITED};

#[derive(Default)]
pub struct Totals {
    pub cases: u64,
    accepted: u64,
    sentences: u64,
    longest: usize,
    moves: u64,
    taken: u64,
    check: BTreeMap<u32, u64>,
    explain: BTreeMap<u32, u64>,
    play: BTreeMap<u32, u64>,
    faults: BTreeMap<&'static str, u64>,
    shared: BTreeMap<&'static str, u64>,
    sums: BTreeMap<&'static str, u64>,
    purposes: BTreeMap<&'static str, u64>,
    served: BTreeMap<&'static str, u64>,
    told: BTreeMap<&'static str, u64>,
    trimmed: BTreeMap<&'static str, u64>,
    verbs: BTreeMap<&'static str, u64>,
    records: BTreeMap<(u8, u8), u64>,
    moved: BTreeMap<(&'static str, &'static str), u64>,
    unmoved: BTreeMap<(&'static str, u32), u64>,
    same: BTreeMap<Result<(), u32>, u64>,
    compared: BTreeMap<&'static str, u64>,
    failing: BTreeMap<Condition, u64>,
    alone: BTreeMap<Condition, u64>,
    kept: BTreeMap<&'static str, u64>,
}

impl Totals {
    /// Adds what the independent implementation answers on a case.
    pub fn count(&mut self, case: &Case) {
        self.cases += 1;
        self.accepted += independent::accept(&case.sheet, &case.charter).is_ok() as u64;
        tally(&mut self.check, case.check(&Independent).answer);
        self.count_faults(case);
        self.count_shared(case);
        self.count_slack(case);
        self.count_explanation(case);
        self.count_run(case);
        self.count_moving(case);
        self.count_comparing(case);
    }

    /// Adds the faults of a charter that was asked 12 to 15.
    fn count_faults(&mut self, case: &Case) {
        if independent::accept(&case.sheet, &case.charter).is_err_and(|number| number < 12) {
            return;
        }
        let charter = charter::read(&case.charter).expect("a charter that passes 11");
        add(&mut self.faults, faults::met(&charter));
    }

    /// Adds what a sheet that was asked 11 meets of shared counts and of purposes, and, where it was asked 18, what that answers.
    fn count_shared(&mut self, case: &Case) {
        if independent::accept(&case.sheet, &case.charter).is_err_and(|number| number < 11) {
            return;
        }
        let sheet = sheet::read(&case.sheet).expect("a sheet that passes 6");
        let interface = typing::interface(&sheet);
        let classes = classes::classes(&sheet, &interface);
        add(&mut self.shared, shared::met(&classes));
        add(&mut self.purposes, served::met(&sheet, &classes));
        if let Ok(judged) = independent::judge(&case.sheet, &case.charter) {
            add(&mut self.sums, shared::answered(&judged.charter, &classes, judged.uncovered().is_none()));
            add(&mut self.served, served::answered(&judged, &classes));
        }
    }

    /// Adds the sums that an accepted sheet's slack form tells, and how a count of its charter is trimmed.
    fn count_slack(&mut self, case: &Case) {
        let outcome = case.slack(&Independent, SLACK_MAX);
        let sums = SlackEntries::new(outcome.written()).flat_map(|entry| entry.disclose);
        sums.for_each(|sums| add(&mut self.told, vec!["all", size(&sums)]));
        add(&mut self.trimmed, Trimming::of(case).map_or(Vec::new(), |trimming| trimming.met()));
    }

    fn count_explanation(&mut self, case: &Case) {
        let answer = case.explain(&Independent).answer;
        tally(&mut self.explain, answer);
        self.sentences += (answer.unwrap_or(0) > 0) as u64;
        self.longest = self.longest.max(answer.unwrap_or(0));
        let uncovered = independent::judge(&case.sheet, &case.charter).ok().and_then(|judged| judged.uncovered());
        add(&mut self.verbs, uncovered.map(|uncovered| verb(uncovered.need)));
    }

    fn count_run(&mut self, case: &Case) {
        let played = case.play(&Independent);
        tally(&mut self.play, played.answer);
        for record in played.records() {
            self.moves += 1;
            self.taken += (record[0] == 0) as u64;
            *self.records.entry((record[0], record[1])).or_insert(0) += 1;
        }
    }

    /// Adds which sheets are moved, and, where a moved one must be answered as the old one was, the answer.
    fn count_moving(&mut self, case: &Case) {
        for moving in moving::all(case) {
            let way = moving.way.name();
            add(&mut self.moved, moving.met().into_iter().map(|what| (way, what)));
            add(&mut self.unmoved, moving.moved(&Independent).err().map(|number| (way, number)));
        }
        let is = sameness::after(case, &Independent);
        add(&mut self.same, sameness::before(case).filter(|_| is.is_some()));
    }

    /// Adds what comparing the case's charters answers, which conditions fail, and what its sheet is answered under charters of which one
    /// is no looser than the other.
    fn count_comparing(&mut self, case: &Case) {
        let compared = Comparison::of(case, &Independent);
        add(&mut self.compared, compared.met());
        add(&mut self.kept, compared.kept().into_iter().flat_map(|(_, kept)| kept.unwrap_or_default()));
        for failing in compared.pairs().map(|pair| compared.failing(pair)) {
            add(&mut self.alone, failing.first().copied().filter(|_| failing.len() == 1));
            add(&mut self.failing, failing);
        }
    }

    pub fn print(&self) {
        println!("check, refused by number: {:?}", self.check);
        println!("charters with nodes that fail 13 or 14: {:?}", self.faults);
        println!("sheets with a count that components share: {:?}", self.shared);
        println!("question 18 on those: {:?}", self.sums);
        println!("sheets with other purposes than 0: {:?}", self.purposes);
        println!("question 18 by purposes: {:?}", self.served);
        println!("slack, sums told: {:?}", self.told);
        println!("counts trimmed: {:?}", self.trimmed);
        println!("explain, refused by number: {:?}; {} sentences, the longest of {} bytes", self.explain, self.sentences, self.longest);
        println!("first uncovered permission, by verb: {:?}", self.verbs);
        println!("play, refused by number: {:?}", self.play);
        println!("records, by number and label: {:?}", self.records);
        println!("sheets moved: {:?}", self.moved);
        println!("sheets not moved, by number: {:?}", self.unmoved);
        println!("moved sheets answered as the old ones were: {:?}", self.same);
        println!("charters compared: {:?}", self.compared);
        println!("conditions that fail: {:?}", self.failing);
        println!("conditions that fail alone: {:?}", self.alone);
        println!("sheets under a charter and a looser one: {:?}", self.kept);
        println!("{} cases, {} accepted, {} moves, {} of them taken", self.cases, self.accepted, self.moves, self.taken);
    }
}

/// Adds one to each of some things.
fn add<K: Ord>(counts: &mut BTreeMap<K, u64>, met: impl IntoIterator<Item = K>) {
    met.into_iter().for_each(|what| *counts.entry(what).or_insert(0) += 1);
}

fn tally(refused: &mut BTreeMap<u32, u64>, answer: Result<usize, u32>) {
    add(refused, answer.err());
}

/// What is worth counting of the sums for a group.
fn size(sums: &Sums) -> &'static str {
    match (sums.needed, sums.granted) {
        (UNLIMITED, _) => "both unlimited",
        (_, UNLIMITED) => "granted unlimited",
        (needed, granted) if needed == granted => "equal",
        (_, granted) if granted > COUNT_MAX => "granted above 4,095",
        _ => "granted above needed",
    }
}

fn verb(need: Need) -> &'static str {
    match need {
        Need::Read => "read",
        Need::Write => "write",
        Need::Access => "access",
        Need::Disclose(_) => "disclose",
    }
}
