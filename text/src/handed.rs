//! What the overrides of a scope handed over in all of its runs.

use crate::evaluation::{enter, Entry, Joined, Tree};
use crate::rulebook::Rulebook;
use second::kind::NONE;
use second::value::{Failure, Value};
use std::collections::BTreeMap;

/// The most that an override handed over.
#[derive(Clone, Copy, Debug, PartialEq, Eq, PartialOrd, Ord)]
pub enum Handed {
    /// It was always empty.
    Nothing,
    /// What the called scope gives by itself.
    Same,
    Other,
}

/// What is known of an override.
pub struct Override {
    pub handed: Handed,
    /// Inputs with which none of its rules held, so that it handed over no, and the called
    /// scope says yes by itself.
    pub no_for_yes: Option<String>,
}

/// Overrides by sub-scope and variable.
#[derive(Default)]
pub struct Overrides(pub BTreeMap<(u8, u8), Override>);

impl Overrides {
    /// Adds those of a call; `typed` says the inputs of the run.
    pub fn add(
        &mut self,
        book: &Rulebook,
        overrides: &[Tree],
        called: Option<&Entry>,
        typed: impl Fn() -> String,
    ) {
        for tree in overrides {
            let key = (tree.target.subscope, tree.target.variable);
            let known = self.0.entry(key).or_insert(Override {
                handed: Handed::Nothing,
                no_for_yes: None,
            });
            let own = || called.and_then(|called| own_value(book, overrides, key.1, called));
            if known.no_for_yes.is_none() && no_rule_held(tree) && own() == YES {
                known.no_for_yes = Some(typed());
            }
            if known.handed < Handed::Other {
                let handed = match tree.result {
                    Err(Failure::Empty) => Handed::Nothing,
                    Ok(_) if called.is_none() || own() == tree.result.ok() => Handed::Same,
                    _ => Handed::Other,
                };
                known.handed = known.handed.max(handed);
            }
        }
    }
}

const YES: Option<Value> = Some(Value::YesNo(true));

/// Whether a target is no only because none of its rules held.
fn no_rule_held(tree: &Tree) -> bool {
    tree.result.is_ok() && tree.bases.joined == Joined::Nothing
}

/// What the called scope gives for a variable without its override.
fn own_value(book: &Rulebook, overrides: &[Tree], variable: u8, called: &Entry) -> Option<Value> {
    let mut given: Vec<Option<Value>> = vec![None; called.values.len()];
    for other in overrides {
        given[usize::from(other.target.variable)] = other.result.ok();
    }
    given[usize::from(variable)] = None;
    enter(book, called.scope, given).value(NONE, variable)
}
