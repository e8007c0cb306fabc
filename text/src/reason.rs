//! Why a run has no values, in one line; why an override is empty, and what it fell back
//! to.

use crate::evaluation::{Entry, Fate, Joined, Row, Taken, Tree, Trial};
use crate::explain::Explanation;
use crate::overrides::{empty_override, Fallback};
use crate::rulebook::Rulebook;
use crate::words;
use second::kind::NONE;
use second::value::Failure;

/// Of so many clauses it is said why they did not hold.
const SHOWN: usize = 3;

/// The variable in which a run ended, and why: `speed, since ..`. A variable of a called
/// scope stands behind the sub-scope's name.
pub fn why_failed(book: &Rulebook, file: &str, entry: &Entry) -> String {
    let writer = Explanation {
        book,
        file,
        entry,
        given: "given",
    };
    match entry.taken.last() {
        Some(Taken::Variable(tree)) => writer.failed_tree(tree),
        Some(Taken::Call(_, overrides, None)) => {
            let last = overrides.last();
            last.map_or_else(String::new, |tree| writer.failed_tree(tree))
        }
        Some(Taken::Call(subscope, overrides, Some(inner))) => {
            let name = &book.names[entry.scope].subscopes[usize::from(*subscope)].text;
            let why = why_failed(book, file, inner);
            let fallen = fallen_back(overrides, inner).map_or_else(String::new, |tree| {
                let over = writer.passed_over(&tree.bases);
                format!("; no definition of its override held{over}")
            });
            format!("{name}.{why}{fallen}")
        }
        _ => String::new(),
    }
}

/// The empty override of the own variable in which a called scope ended.
fn fallen_back<'a>(overrides: &'a [Tree], called: &Entry) -> Option<&'a Tree> {
    match called.taken.last()? {
        Taken::Variable(tree) => empty_override(overrides, tree.target.variable),
        _ => None,
    }
}

impl Explanation<'_> {
    /// The target of a tree without a value, and why it has none.
    fn failed_tree(&self, tree: &Tree) -> String {
        let name = self.book.target_name(self.entry.scope, tree.target);
        let failure = tree.result.err().map_or("", words::failure);
        let why = match tree.bases.joined {
            Joined::Nothing if tree.bases.trials.is_empty() => {
                let scope = &self.book.names[self.entry.scope].scope.text;
                format!("it is not given and scope {scope} does not define it")
            }
            Joined::Ended(_) => match (self.why_beyond(&tree.bases), source(&tree.bases)) {
                (Some(beyond), _) => beyond,
                (None, Some(trial)) => format!("{} is {failure}", self.clause_name(trial.clause)),
                (None, None) => self.why_none(&tree.bases),
            },
            _ => self.why_none(&tree.bases),
        };
        format!("{name}, since {why}")
    }

    /// An empty override and what it fell back to: `k.a falls back to scope t, a = 1: ..`.
    pub(crate) fn fell_back(&self, tree: &Tree, fallback: &Fallback) -> String {
        let name = self.book.target_name(self.entry.scope, tree.target);
        let callee = self.book.callee(self.entry.scope, tree.target.subscope);
        let scope = &self.book.names[callee].scope.text;
        let own = self.book.variable_name(callee, NONE, tree.target.variable);
        let to = match fallback {
            Fallback::NotEntered => ", which is not entered".to_string(),
            Fallback::NotReached => format!(", which ends before {own}"),
            Fallback::Own(tree) => match tree.result {
                Ok(value) => format!(", {own} = {}", words::value(value)),
                Err(Failure::Empty) => format!(", where {own} is empty, too"),
                Err(failure) => format!(", where {own} is {}", words::failure(failure)),
            },
        };
        format!("{name} falls back to scope {scope}{to}: no definition of the override held")
    }

    /// The first clauses of a row of which none held, and why.
    pub(crate) fn passed_over(&self, row: &Row) -> String {
        if row.joined != Joined::Nothing {
            return String::new();
        }
        let clauses = &self.book.scopes[self.entry.scope].clauses;
        let said = row.trials.iter().take(SHOWN).map(|trial| {
            let clause = &clauses[usize::from(trial.clause)];
            let name = self.clause_name(trial.clause);
            format!("; {name} was {}", self.fate(clause, trial))
        });
        said.collect()
    }

    /// The clause and the operation by which a row is above or below the range.
    pub(crate) fn why_beyond(&self, row: &Row) -> Option<String> {
        let trial = source(row)?;
        let clause = &self.book.scopes[self.entry.scope].clauses[usize::from(trial.clause)];
        let beyond = match trial.fate? {
            Fate::ConditionFailed(failure) => self.beyond(clause.condition, failure)?,
            Fate::ConsequenceFailed(node, failure) => self.beyond(node, failure)?,
            Fate::Held | Fate::ConditionNo => return None,
        };
        Some(format!("in {} {beyond}", self.clause_name(trial.clause)))
    }
}

/// The trial of the clause in which the end of a row began, where it is one.
fn source(row: &Row) -> Option<&Trial> {
    let Joined::Ended(place) = row.joined else {
        return None;
    };
    let trial = &row.trials[place];
    match trial.fate {
        Some(_) => Some(trial),
        None => source(&trial.exceptions),
    }
}
