//! What the cases met: refusals, outcomes, causes, kinds, sides of the range and overrides.

use super::fallbacks::{caught, executed, in_evaluation, Fallbacks};
use super::leaving::{expected_leaving, places, Leaving, EVALUATED};
use crate::answer::Outcome;
use crate::cases::{Case, Reply, Service, Success};
use crate::code::CodeFault;
use crate::machine::{join_cases, Observer, Side, Stuck, StuckCause};
use crate::naive;
use crate::run::Denial;
use crate::tabulate::MAX_CHOSEN;
use crate::value::{Failure, Place};
use std::collections::BTreeMap;

/// Counts of what was met.
#[derive(Default)]
pub struct Coverage {
    labels: BTreeMap<&'static str, usize>,
    refusals: BTreeMap<(Service, u8), usize>,
    outcomes: BTreeMap<(Service, u8), usize>,
    /// Tables, by how many variables were chosen.
    chosen: BTreeMap<usize, usize>,
    stuck: BTreeMap<Stuck, usize>,
    code_faults: BTreeMap<CodeFault, usize>,
    book_kinds: BTreeMap<u8, usize>,
    /// First words that rulerun printed.
    printed: BTreeMap<String, usize>,
    executed: Executed,
    digest: u64,
}

/// Counts instructions by kind, joins by case, where the range is left, and overrides.
pub struct Executed {
    kinds: [u64; 256],
    joins: BTreeMap<(Side, Side), usize>,
    leaving: BTreeMap<Leaving, usize>,
    pub fallbacks: Fallbacks,
    /// The label of what runs.
    label: &'static str,
}

impl Default for Executed {
    fn default() -> Self {
        Executed {
            kinds: [0; 256],
            joins: BTreeMap::new(),
            leaving: BTreeMap::new(),
            fallbacks: Fallbacks::default(),
            label: "",
        }
    }
}

impl Observer for &mut Executed {
    fn executes(&mut self, kind: u8) {
        self.kinds[usize::from(kind)] += 1;
        self.fallbacks.meet(self.label, executed(kind));
    }

    fn joins(&mut self, case: (Side, Side)) {
        *self.joins.entry(case).or_default() += 1;
    }

    fn leaves(&mut self, place: Place, side: Failure) {
        *self.leaving.entry((self.label, place, side)).or_default() += 1;
    }

    fn catches(&mut self, depth: usize, code: &[u8], landing: usize) {
        self.fallbacks
            .meet(self.label, caught(depth, code, landing));
    }
}

/// Classes that the random cases must meet.
const LABELS: &[&str] = &[
    "accepted, judged",
    "accepted, evaluated",
    "accepted, compiled",
    "scope, inputs or room refused",
    "small term",
    "one fault",
    "two faults",
    "damaged book",
    "random bytes",
    "compiled code",
    "damaged code",
    "hand-made code",
    "well-formed code",
    "spoiled code",
    "directed code",
    "code of the acceptance table",
    "former code",
    "tabulated",
    "table longer than memory",
    "bad choice",
    "bad list and any choice",
    "absent scope and any choice",
    "faulty book and any choice",
    "damaged book, tabulated",
];

impl Coverage {
    /// What counts a run of code with a label.
    pub fn executed(&mut self, label: &'static str) -> &mut Executed {
        self.executed.label = label;
        &mut self.executed
    }

    /// What an evaluation meets of overrides, and where it leaves the range.
    pub fn evaluated(&mut self, case: &Case, outcome: Outcome) {
        let mut evaluated = self.executed(EVALUATED);
        evaluated.fallbacks.meet(EVALUATED, in_evaluation(case));
        if outcome.is_out_of_range() {
            for (place, side) in places(case) {
                evaluated.leaves(place, side);
            }
        }
    }

    /// Counts of overrides.
    pub fn fallbacks(&mut self) -> &mut Fallbacks {
        &mut self.executed.fallbacks
    }

    pub fn reply(&mut self, case: &Case, reply: &Reply) {
        *self.labels.entry(case.label).or_default() += 1;
        let service = case.service;
        match reply.result {
            Err(refusal) => *self.refusals.entry((service, refusal)).or_default() += 1,
            Ok(Success::Answer(answer)) => {
                let outcome = answer.outcome as u8;
                *self.outcomes.entry((service, outcome)).or_default() += 1;
            }
            Ok(Success::Table(length)) => self.table(case, &reply.memory[..length]),
            Ok(_) => {}
        }
        self.mix(&case.bytes);
        self.mix(&case.chosen);
        self.mix(&case.inputs);
        self.mix(format!("{} {:?}", case.scope, reply.result).as_bytes());
        self.mix(&reply.memory);
    }

    /// The outcomes of the rows, and how many variables were chosen for them.
    fn table(&mut self, case: &Case, table: &[u8]) {
        let rows = table.chunks_exact(table.len() >> case.chosen.len());
        for row in rows {
            *self
                .outcomes
                .entry((Service::Tabulate, row[0]))
                .or_default() += 1;
        }
        *self.chosen.entry(case.chosen.len()).or_default() += 1;
    }

    /// A digest of all cases and replies (FNV-1a), to compare builds by.
    fn mix(&mut self, bytes: &[u8]) {
        for &byte in bytes {
            self.digest = (self.digest ^ u64::from(byte)).wrapping_mul(0x0100_0000_01b3);
        }
    }

    pub fn denial(&mut self, denial: Denial) {
        match denial {
            Denial::BadCode(fault) => *self.code_faults.entry(fault).or_default() += 1,
            Denial::Stuck(stuck) => *self.stuck.entry(stuck).or_default() += 1,
            Denial::Refused(_) => {}
        }
    }

    pub fn printed(&mut self, word: &str) {
        *self.printed.entry(word.to_string()).or_default() += 1;
    }

    /// The kinds of an accepted book.
    pub fn book(&mut self, scopes: &[naive::Scope]) {
        for kind in scopes.iter().flat_map(naive::kinds) {
            *self.book_kinds.entry(kind).or_default() += 1;
        }
    }

    /// Every class that must be met, with how often it was.
    pub fn classes(&self) -> Vec<(String, usize)> {
        let mut all = Vec::new();
        for &label in LABELS {
            all.push((format!("class {label}"), hits(&self.labels, &label)));
        }
        for key in expected_refusals() {
            all.push((format!("refusal {key:?}"), hits(&self.refusals, &key)));
        }
        for key in expected_outcomes() {
            all.push((format!("outcome {key:?}"), hits(&self.outcomes, &key)));
        }
        for key in 0..=MAX_CHOSEN {
            all.push((format!("{key} chosen"), hits(&self.chosen, &key)));
        }
        for key in expected_stuck() {
            all.push((format!("{key:?}"), hits(&self.stuck, &key)));
        }
        for key in expected_code_faults() {
            all.push((format!("code fault {key:?}"), hits(&self.code_faults, &key)));
        }
        for word in ["value", "empty", "conflict", "above", "below", "refused"] {
            let times = hits(&self.printed, &word.to_string());
            all.push((format!("rulerun {word}"), times));
        }
        all.extend(self.classes_within());
        all
    }

    /// Those of what stands in books and of what is done within a run.
    fn classes_within(&self) -> Vec<(String, usize)> {
        let mut all = Vec::new();
        for kind in 1..=20 {
            all.push((format!("book kind {kind}"), hits(&self.book_kinds, &kind)));
        }
        for kind in (4..=7usize).chain(10..=16).chain(32..=44) {
            let times = self.executed.kinds[kind];
            all.push((format!("executed kind {kind}"), times.min(1) as usize));
        }
        for case in join_cases() {
            let times = hits(&self.executed.joins, &case);
            all.push((format!("joined {case:?}"), times));
        }
        for class in expected_leaving().concat() {
            let times = hits(&self.executed.leaving, &class);
            all.push((format!("out of range, {class:?}"), times));
        }
        all.extend(self.executed.fallbacks.classes());
        all
    }

    pub fn print(&self) {
        self.print_services();
        self.print_causes();
        self.print_executed();
        self.executed.fallbacks.print();
        println!("digest of cases and replies {:016x}", self.digest);
    }

    fn print_services(&self) {
        for service in SERVICES {
            let of = |counts: &BTreeMap<(Service, u8), usize>| {
                let own = counts.iter().filter(|((s, _), _)| *s == service);
                let shown = own.map(|((_, number), times)| format!("{number}: {times}"));
                shown.collect::<Vec<_>>().join(", ")
            };
            println!("{service:?} refusals {{{}}}", of(&self.refusals));
            if !of(&self.outcomes).is_empty() {
                println!("{service:?} outcomes {{{}}}", of(&self.outcomes));
            }
        }
        println!("rulerun {:?}", self.printed);
    }

    fn print_causes(&self) {
        println!(
            "{} causes of 17, least met {}",
            self.stuck.len(),
            least(&self.stuck)
        );
        println!(
            "{} causes of 16, least met {}",
            self.code_faults.len(),
            least(&self.code_faults)
        );
        println!(
            "{} kinds in accepted books, least met {}",
            self.book_kinds.len(),
            least(&self.book_kinds)
        );
    }

    fn print_executed(&self) {
        let kinds = self
            .executed
            .kinds
            .iter()
            .filter(|&&times| times > 0)
            .count();
        println!(
            "{kinds} kinds executed, {} instructions",
            self.executed.kinds.iter().sum::<u64>()
        );
        let joins = &self.executed.joins;
        println!(
            "{} cases of the join, least met {}",
            joins.len(),
            least(joins)
        );
        for classes in expected_leaving() {
            let times = |class| hits(&self.executed.leaving, class);
            let shown = classes
                .iter()
                .map(|class @ (_, place, side)| format!("{place:?} {side:?} {}", times(class)));
            let shown: Vec<String> = shown.collect();
            println!("out of range, {}: {}", classes[0].0, shown.join(", "));
        }
    }
}

const SERVICES: [Service; 5] = [
    Service::Judge,
    Service::Evaluate,
    Service::Compile,
    Service::Run,
    Service::Tabulate,
];

pub fn hits<K: Ord>(counts: &BTreeMap<K, usize>, key: &K) -> usize {
    counts.get(key).copied().unwrap_or(0)
}

fn least<K: Ord>(counts: &BTreeMap<K, usize>) -> usize {
    counts.values().copied().min().unwrap_or(0)
}

/// "Compiling knows only 1 to 12 and 15"; "for code: 16, 13, 14, 15, 17"; for a table 18,
/// "after 14, before 15".
pub fn may_refuse(service: Service, number: u8) -> bool {
    match service {
        Service::Judge => (1..=12).contains(&number),
        Service::Evaluate => (1..=15).contains(&number),
        Service::Compile => (1..=12).contains(&number) || number == 15,
        Service::Run => (13..=17).contains(&number),
        Service::Tabulate => (1..=15).contains(&number) || number == 18,
    }
}

fn expected_refusals() -> Vec<(Service, u8)> {
    let pairs = SERVICES
        .iter()
        .flat_map(|&s| (1..=18).map(move |number| (s, number)));
    pairs.filter(|&(s, number)| may_refuse(s, number)).collect()
}

fn expected_outcomes() -> Vec<(Service, u8)> {
    let services = [Service::Evaluate, Service::Run, Service::Tabulate];
    let pairs = services
        .iter()
        .flat_map(|&s| Outcome::ALL.map(|o| (s, o as u8)));
    pairs.collect()
}

/// Each cause with each kind that meets it; 0 is the end of a block.
pub fn expected_stuck() -> Vec<Stuck> {
    use StuckCause::*;
    let table: &[(StuckCause, &[u8])] = &[
        (
            TooFewEntries,
            &[10, 11, 12, 13, 14, 15, 16, 35, 39, 40, 41, 42],
        ),
        (OtherEntry, &[10, 11, 12, 13, 14, 15, 16, 35, 41, 42]),
        (NoOpenTry, &[37]),
        (BelowTryHeight, &[32]),
        (ReadUnset, &[6]),
        (ReadNotEntered, &[7]),
        (StoreToGiven, &[41]),
        (SecondStore, &[41]),
        (SecondOverride, &[42]),
        (OverrideAfterEntry, &[42]),
        (SecondEntry, &[43]),
        (StackOverflow, &[4, 5, 6, 7, 38]),
        (TryOverflow, &[36]),
        (VariableLeftUnset, &[0]),
        (SubscopeNotEntered, &[0]),
    ];
    let pairs = table
        .iter()
        .flat_map(|&(cause, kinds)| kinds.iter().map(move |&kind| Stuck { cause, kind }));
    pairs.collect()
}

/// Each cause of refusal 16, with each kind that meets it where the kind matters.
pub fn expected_code_faults() -> Vec<CodeFault> {
    use CodeFault::*;
    let mut all = vec![
        Truncated,
        UnknownKind,
        OutOfOrder,
        TooManyVariables,
        TooManySubscopes,
        InvalidType,
        InvalidConstant,
        RepeatedScope,
        ScopeNumberTooHigh,
        NoEarlierBlock,
        WeightExceeded,
    ];
    all.extend([6, 41, 44].map(NoSuchVariable));
    all.extend([7, 42, 43].map(NoSuchSubscope));
    all.extend([7, 42].map(NoSuchSubscopeVariable));
    all.extend([34, 35, 36, 40, 44].map(BadDistance));
    all
}
