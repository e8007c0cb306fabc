//! What becomes of override trees: in evaluations and tables, in runs of code, and in what
//! books are compiled to.

use super::coverage::hits;
use super::leaving::{COMPILED, EVALUATED};
use crate::answer::Outcome;
use crate::cases::fallbacks::FORMER;
use crate::cases::{lend, Case, Service};
use crate::evaluate::{observed_evaluate, Observer, Override};
use crate::kind;
use crate::naive::Scope;
use crate::tabulate::observed_tabulate;
use crate::value::{Failure, Value};
use crate::Overriding;
use std::cell::RefCell;
use std::collections::BTreeMap;

pub const TABULATED: &str = "tabulated";

/// How deep a caller is told apart: the scope asked for, its sub-scopes, those of these and
/// deeper ones.
const DEPTHS: usize = 3;

/// What is met of overrides.
#[derive(Clone, Copy, Debug, PartialEq, Eq, PartialOrd, Ord)]
pub enum Overridden {
    /// An override comes to a value, empty, conflict, above or below.
    By(Outcome),
    /// The same behind an empty one of the same call.
    BehindEmpty(Outcome),
    /// An empty one, by the depth of the caller.
    EmptyAtDepth(usize),
    /// How a sub-scope ends that an empty one handed nothing over to.
    SubscopeEnds(Outcome),
    /// Rules, which are never empty, hand over no.
    RulesHandNo,
}

use Overridden::{BehindEmpty, By, EmptyAtDepth, RulesHandNo, SubscopeEnds};

/// What is met, by what meets it.
pub type Met = (&'static str, Overridden);

/// All that must be met: everything in evaluations and in tables; in compiled code what an
/// instruction shows, a value handed over or an empty caught past its 42.
pub fn expected_overridden() -> Vec<Vec<Met>> {
    let depths = || (1..=DEPTHS).map(EmptyAtDepth);
    let mut trees: Vec<Overridden> = Outcome::ALL.map(By).to_vec();
    trees.extend(Outcome::ALL.map(BehindEmpty));
    trees.extend(Outcome::ALL.map(SubscopeEnds));
    trees.extend(depths().chain([RulesHandNo]));
    let code: Vec<Overridden> = [By(Outcome::Values)].into_iter().chain(depths()).collect();
    let of = |label, all: &[Overridden]| all.iter().map(|&one| (label, one)).collect();
    vec![
        of(EVALUATED, &trees),
        of(TABULATED, &trees),
        of(COMPILED, &code),
        of(FORMER, &code[..1]),
    ]
}

/// Keeps what it is told of overrides.
#[derive(Default)]
pub struct Overrides(RefCell<Vec<Overridden>>);

fn outcome<T>(result: Result<T, Failure>) -> Outcome {
    result.map_or_else(Outcome::from, |_| Outcome::Values)
}

impl Observer for Overrides {
    fn overrides(&self, of: Override) {
        let mut met = self.0.borrow_mut();
        let came_to = outcome(of.result);
        met.push(By(came_to));
        if of.after_empty {
            met.push(BehindEmpty(came_to));
        }
        if came_to == Outcome::Empty {
            met.push(EmptyAtDepth(of.depth.min(DEPTHS)));
        }
        if of.rules && of.result == Ok(Value::YesNo(false)) {
            met.push(RulesHandNo);
        }
    }

    fn falls_back(&self, ended: Result<(), Failure>) {
        self.0.borrow_mut().push(SubscopeEnds(outcome(ended)));
    }
}

impl Overrides {
    /// Whether an override was empty.
    pub fn any_empty(&self) -> bool {
        self.0.borrow().contains(&By(Outcome::Empty))
    }

    pub fn met(self) -> Vec<Overridden> {
        self.0.into_inner()
    }
}

/// What the evaluation of a case meets of overrides.
pub fn in_evaluation(case: &Case) -> Vec<Overridden> {
    let (met, mut memory) = (Overrides::default(), lend(case.room));
    let (now, scope, inputs) = (Overriding::FallsBack, case.scope, &case.inputs);
    // The answer is compared elsewhere.
    let _ = observed_evaluate(now, &case.bytes, scope, inputs, &mut memory, &met);
    met.met()
}

/// What the rows of a case's table meet of overrides.
pub fn in_table(case: &Case) -> Vec<Overridden> {
    let (met, mut memory) = (Overrides::default(), lend(case.room));
    let (now, choice) = (Overriding::FallsBack, (&case.chosen[..], &case.inputs[..]));
    // The table is compared elsewhere.
    let _ = observed_tabulate(now, &case.bytes, case.scope, choice, &mut memory, &met);
    met.met()
}

/// What an instruction shows of overrides: a value that is handed over.
pub fn executed(kind: u8) -> Option<Overridden> {
    (kind == kind::OVERRIDE).then_some(By(Outcome::Values))
}

/// What an empty that is caught shows: an override that hands nothing over, where it lands
/// past 37 and 42.
pub fn caught(depth: usize, code: &[u8], landing: usize) -> Option<Overridden> {
    let past = matches!(code[..landing], [.., kind::END_TRY, kind::OVERRIDE, _, _]);
    past.then_some(EmptyAtDepth(depth.min(DEPTHS)))
}

/// The override trees of a book by whether they can be empty: all have the try.
#[derive(Clone, Copy, Debug, PartialEq, Eq, PartialOrd, Ord)]
pub enum Tried {
    /// Never empty.
    Rules,
    /// Never empty: one definition, always, of a constant.
    Constant,
    Other,
}

pub const TRIED: [Tried; 3] = [Tried::Rules, Tried::Constant, Tried::Other];

/// The override trees of a scope.
pub fn tried(scope: &Scope) -> Vec<Tried> {
    let overrides = scope.clauses.iter().filter(|clause| clause[1] != 255);
    let bases: Vec<&Vec<u8>> = overrides.filter(|clause| clause[3] == 255).collect();
    let of = |base: &&Vec<u8>| {
        let same = |clause: &&Vec<u8>| clause[1..3] == base[1..3];
        let alone = scope.clauses.iter().filter(same).count() == 1;
        let always = base[4] == 255;
        match base[0] {
            20 => Tried::Rules,
            _ if alone && always && scope.nodes[usize::from(base[5])][0] < 6 => Tried::Constant,
            _ => Tried::Other,
        }
    };
    let mut targets: Vec<(&[u8], Tried)> = bases.iter().map(|b| (&b[1..3], of(b))).collect();
    targets.sort();
    targets.dedup();
    targets.into_iter().map(|(_, tried)| tried).collect()
}

/// Counts of what is met of overrides, of the trees that are compiled, and of the runs and
/// tables of both meanings by whether an override is empty under the former one.
#[derive(Default)]
pub struct Fallbacks {
    met: BTreeMap<Met, usize>,
    tried: BTreeMap<Tried, usize>,
    former: BTreeMap<(Service, bool), usize>,
}

impl Fallbacks {
    pub fn meet(&mut self, label: &'static str, met: impl IntoIterator<Item = Overridden>) {
        for one in met {
            *self.met.entry((label, one)).or_default() += 1;
        }
    }

    pub fn compiled(&mut self, trees: impl IntoIterator<Item = Tried>) {
        for tree in trees {
            *self.tried.entry(tree).or_default() += 1;
        }
    }

    pub fn former(&mut self, service: Service, any_empty: bool) {
        *self.former.entry((service, any_empty)).or_default() += 1;
    }

    /// Every class that must be met, with how often it was.
    pub fn classes(&self) -> Vec<(String, usize)> {
        let mut all = Vec::new();
        for class in expected_overridden().concat() {
            all.push((format!("override, {class:?}"), hits(&self.met, &class)));
        }
        for tree in TRIED {
            let times = hits(&self.tried, &tree);
            all.push((format!("compiled override {tree:?}"), times));
        }
        for class in FORMER_CLASSES {
            let times = hits(&self.former, &class);
            all.push((format!("empty override before request 5 {class:?}"), times));
        }
        all
    }

    pub fn print(&self) {
        for classes in expected_overridden() {
            let shown = classes
                .iter()
                .map(|class| format!("{:?} {}", class.1, hits(&self.met, class)));
            let shown: Vec<String> = shown.collect();
            println!("overrides, {}: {}", classes[0].0, shown.join(", "));
        }
        println!("compiled overrides {:?}", self.tried);
        for (service, any_empty) in FORMER_CLASSES {
            let times = hits(&self.former, &(service, any_empty));
            let met = if any_empty { "met" } else { "did not meet" };
            println!("{service:?}: {times} {met} an empty override under the former meaning");
        }
    }
}

/// An evaluation or a table that meets an empty override under the former meaning, and one
/// that does not.
const FORMER_CLASSES: [(Service, bool); 4] = [
    (Service::Evaluate, true),
    (Service::Evaluate, false),
    (Service::Tabulate, true),
    (Service::Tabulate, false),
];
