//! What became of the clauses of a target, for its drawing.

use crate::evaluation::{Entry, Fate, Row, Taken, Tree};
use crate::overrides::Fallback;
use crate::shape::Mark;
use second::kind::NONE;
use second::scope::Target;
use second::value::Failure;

/// The tree of a target as tried, in the entered scope or in the one that it calls.
pub fn tree_of(entry: &Entry, target: Target) -> Option<&Tree> {
    entry.taken.iter().find_map(|taken| match taken {
        Taken::Variable(tree) if tree.target == target => Some(tree),
        Taken::Call(k, overrides, called) if *k == target.subscope => {
            let own = Target {
                subscope: NONE,
                ..target
            };
            let overridden = overrides.iter().find(|tree| tree.target == target);
            overridden.or_else(|| tree_of(called.as_ref()?, own))
        }
        _ => None,
    })
}

/// What the override of a target fell back to, where it is one and empty.
pub fn fallback_of(entry: &Entry, target: Target) -> Option<Fallback<'_>> {
    entry.taken.iter().find_map(|taken| match taken {
        Taken::Call(_, overrides, called) => {
            let mut overrides = overrides.iter();
            let tree = overrides.find(|tree| tree.target == target)?;
            Fallback::of(tree, called.as_ref())
        }
        _ => None,
    })
}

/// What became of the clauses of a tree, where it was reached.
pub struct Marks<'a> {
    pub tree: Option<&'a Tree>,
}

impl Marks<'_> {
    pub fn of(&self, clause: u8) -> Mark {
        match self.tree {
            Some(tree) => in_row(&tree.bases, clause, tree.result.is_ok()),
            None => Mark::Passed,
        }
    }
}

/// A clause that held gave the value, or met another one where the tree has none.
fn in_row(row: &Row, clause: u8, has_value: bool) -> Mark {
    for trial in &row.trials {
        if trial.clause == clause {
            return match (trial.fate, trial.result) {
                (Some(Fate::Held), _) if has_value => Mark::Held,
                (Some(Fate::Held), _) => Mark::Ended,
                (Some(_), Err(failure)) if failure != Failure::Empty => Mark::Ended,
                _ => Mark::Passed,
            };
        }
        let below = in_row(&trial.exceptions, clause, has_value);
        if below != Mark::Passed {
            return below;
        }
    }
    Mark::Passed
}
