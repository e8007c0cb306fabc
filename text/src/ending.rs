//! Where a run without values ended: the scope, the variable and the clauses.

use crate::evaluation::{Entry, Fate, Joined, Row, Taken, Tree};
use crate::explain::giver;
use crate::overrides::empty_override;
use crate::rulebook::Rulebook;
use crate::words;
use second::kind::NONE;
use second::scope::Target;

/// What ended a run; clauses are numbers in their scope.
#[derive(Clone, Copy, Debug, PartialEq, Eq, PartialOrd, Ord)]
pub enum Cause {
    /// Two clauses of one row gave a value, they or exceptions to them.
    Clash(u8, u8),
    /// No clause of a target, by its sub-scope and variable, gave a value.
    Empty(u8, u8),
    /// A variable that nothing gives or defines.
    NotGiven(u8),
    /// A clause is in conflict, above or below the range by itself.
    Clause(u8, &'static str),
}

/// How a run ended.
#[derive(Clone, Debug)]
pub struct Ending {
    /// The call of the scope asked about in which it ended.
    pub call: Option<u8>,
    /// The sub-scopes on the way, each with a dot behind it.
    pub path: String,
    pub scope: usize,
    pub target: Target,
    pub cause: Cause,
    /// The clauses that held, of a clash.
    pub held: Option<(u8, u8)>,
    /// Whether the caller overrides the variable, and the override was empty.
    pub fell_back: bool,
}

/// Where the run of an entered scope ended, if it has no values.
pub fn ending_of(book: &Rulebook, entry: &Entry) -> Option<Ending> {
    entry.failure?;
    match entry.taken.last()? {
        Taken::Given(..) => None,
        Taken::Variable(tree) => in_tree(entry.scope, tree),
        Taken::Call(_, overrides, None) => in_tree(entry.scope, overrides.last()?),
        Taken::Call(k, overrides, Some(inner)) => {
            let name = &book.names[entry.scope].subscopes[usize::from(*k)].text;
            let inner = ending_of(book, inner)?;
            let Target { subscope, variable } = inner.target;
            let own = inner.call.is_none() && subscope == NONE;
            Some(Ending {
                call: Some(*k),
                path: format!("{name}.{}", inner.path),
                fell_back: match own {
                    true => empty_override(overrides, variable).is_some(),
                    false => inner.fell_back,
                },
                ..inner
            })
        }
    }
}

fn in_tree(scope: usize, tree: &Tree) -> Option<Ending> {
    let Target { subscope, variable } = tree.target;
    let (cause, held) = match in_row(&tree.bases) {
        Some(found) => found,
        None if tree.bases.trials.is_empty() => (Cause::NotGiven(variable), None),
        None => (Cause::Empty(subscope, variable), None),
    };
    Some(Ending {
        call: None,
        path: String::new(),
        scope,
        target: tree.target,
        cause,
        held,
        fell_back: false,
    })
}

/// The cause in a row, unless all of its clauses are empty.
fn in_row(row: &Row) -> Option<(Cause, Option<(u8, u8)>)> {
    match row.joined {
        Joined::Nothing => None,
        Joined::Clash(a, b) => {
            let pair = Cause::Clash(row.trials[a].clause, row.trials[b].clause);
            Some((pair, Some((giver(row, a), giver(row, b)))))
        }
        Joined::One(place) | Joined::Ended(place) => {
            let trial = &row.trials[place];
            match trial.fate {
                None => in_row(&trial.exceptions),
                Some(Fate::ConditionFailed(failure) | Fate::ConsequenceFailed(_, failure)) => {
                    Some((Cause::Clause(trial.clause, words::failure(failure)), None))
                }
                Some(_) => None,
            }
        }
    }
}
