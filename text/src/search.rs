//! A scope evaluated for every choice of its inputs: how runs without values ended, which
//! clauses held and what overrides handed over.

use crate::choices::{typed, Choices};
use crate::ending::{ending_of, Cause, Ending};
use crate::evaluation::{enter, Entry, Fate, Row, Taken, Trial};
use crate::handed::Overrides;
use crate::rulebook::Rulebook;
use std::collections::{BTreeMap, BTreeSet};

/// What the runs of a scope showed.
pub struct Found {
    /// How many choices were tried, and whether these are all cases that there are.
    pub tried: u64,
    pub exact: bool,
    /// Each cause that ended a run, by the scope that it is in and the way there, with
    /// inputs as they are typed.
    pub endings: BTreeMap<(String, usize, Cause), (Ending, String)>,
    /// How often each clause was tried, and how often it held.
    pub trials: Vec<(u64, u64)>,
    /// Clauses of called scopes that held.
    pub held_below: BTreeSet<(usize, u8)>,
    pub overrides: Overrides,
}

/// Tries every choice of a scope's inputs, or as many as may be.
pub fn search(book: &Rulebook, scope: usize) -> Found {
    let choices = Choices::of(book, scope);
    let mut found = Found {
        tried: choices.count,
        exact: choices.exact,
        endings: BTreeMap::new(),
        trials: vec![(0, 0); book.scopes[scope].clauses.len()],
        held_below: BTreeSet::new(),
        overrides: Overrides::default(),
    };
    for number in 0..choices.count {
        let given = choices.given(number);
        let entry = enter(book, scope, given.clone());
        let typed = || typed(book, scope, &given);
        if let Some(ending) = ending_of(book, &entry) {
            let key = (ending.path.clone(), ending.scope, ending.cause);
            let example = || (ending, typed());
            found.endings.entry(key).or_insert_with(example);
        }
        found.entry(book, &entry, typed);
    }
    found
}

impl Found {
    /// Whether a cause in the scope itself ended a run.
    pub fn has(&self, cause: Cause) -> bool {
        let own = |(path, _, found): &(String, usize, Cause)| path.is_empty() && *found == cause;
        self.endings.keys().any(own)
    }

    fn entry(&mut self, book: &Rulebook, entry: &Entry, typed: impl Fn() -> String) {
        for taken in &entry.taken {
            match taken {
                Taken::Given(..) => {}
                Taken::Variable(tree) => self.row(&tree.bases),
                Taken::Call(_, overrides, called) => {
                    let called = called.as_ref();
                    overrides.iter().for_each(|tree| self.row(&tree.bases));
                    called.into_iter().for_each(|called| self.below(called));
                    self.overrides.add(book, overrides, called, &typed);
                }
            }
        }
    }

    /// Marks what held in a called scope, and in those that it calls.
    fn below(&mut self, entry: &Entry) {
        for taken in &entry.taken {
            match taken {
                Taken::Given(..) => {}
                Taken::Variable(tree) => self.row_below(entry.scope, &tree.bases),
                Taken::Call(_, overrides, called) => {
                    for tree in overrides {
                        self.row_below(entry.scope, &tree.bases);
                    }
                    called.iter().for_each(|called| self.below(called));
                }
            }
        }
    }

    fn row_below(&mut self, scope: usize, row: &Row) {
        for trial in &row.trials {
            if holds(trial) {
                self.held_below.insert((scope, trial.clause));
            }
            self.row_below(scope, &trial.exceptions);
        }
    }

    fn row(&mut self, row: &Row) {
        row.trials.iter().for_each(|trial| self.trial(trial));
    }

    fn trial(&mut self, trial: &Trial) {
        let (tried, held) = &mut self.trials[usize::from(trial.clause)];
        *tried += 1;
        *held += u64::from(holds(trial));
        self.row(&trial.exceptions);
    }
}

/// Whether a clause was not passed over by its condition or its exceptions.
fn holds(trial: &Trial) -> bool {
    !matches!(trial.fate, None | Some(Fate::ConditionNo))
}
