//! Overrides that are empty, in each way to be so, beside others that are not, at each depth,
//! and on sub-scopes whose own trees come to anything; in books, in code and in tables.

pub mod books;
mod callers;
mod calls;
pub mod codes;
mod empties;
mod trees;
mod ways;

use super::draft::{results_length, Draft, DraftScope, NUMBER};
use super::{terms, Case, Expected, Service};
use crate::answer::Outcome::{self, Values};
use crate::{code_by, code_of, Overriding};
use callers::{chains, switches};
use calls::calls;
use trees::{largest, small_terms};
use ways::ways;

/// The label of runs of code of the translation before request 5.
pub const FORMER: &str = "former code";

/// A node of a sub-scope's own tree. Overrides have other numbers; a yes/no is `yes`.
fn own_part(scope: &mut DraftScope, of: u8, own: Outcome, yes: bool) -> u8 {
    match (own, of) {
        (Values, NUMBER) => scope.number(1_000),
        _ => terms::part(scope, of, own, yes),
    }
}

/// A scope of one variable, which its own tree brings to an outcome.
fn alone(of: u8, own: Outcome, yes: bool) -> DraftScope {
    let mut scope = DraftScope {
        variables: vec![of],
        ..DraftScope::default()
    };
    let node = own_part(&mut scope, of, own, yes);
    scope.define(255, 0, 255, node);
    scope
}

/// A book, what to ask for, and how that ends now and under the former meaning.
pub struct Fallback {
    draft: Draft,
    scope: usize,
    inputs: Vec<u8>,
    ends: Outcome,
    former: Outcome,
}

impl Fallback {
    fn new(draft: Draft, ends: Outcome, former: Outcome) -> Fallback {
        Fallback {
            scope: draft.scopes.len() - 1,
            draft,
            inputs: Vec::new(),
            ends,
            former,
        }
    }

    fn room(&self) -> usize {
        results_length(&self.draft.scopes[self.scope].variables)
    }

    fn evaluation(&self) -> Case {
        let case = Case::new("overridden", Service::Evaluate, self.draft.bytes());
        let case = case.asking(self.scope, self.inputs.clone(), self.room());
        case.expecting(Expected::Ends(self.ends))
    }

    /// "Code compiled before runs as before."
    fn former_run(&self) -> Case {
        let code = code_by(Overriding::EndsCaller, &self.draft.bytes()).unwrap_or_default();
        let case = Case::new(FORMER, Service::Run, code);
        let case = case.asking(self.scope, self.inputs.clone(), self.room());
        case.expecting(Expected::Ends(self.former))
    }
}

fn all() -> Vec<Fallback> {
    let mut all = ways(false);
    all.extend(ways(true));
    all.extend(calls());
    all.extend(chains());
    all.extend(switches());
    all.extend(small_terms());
    all.extend(largest());
    all
}

/// Each book evaluated.
pub fn evaluations() -> Vec<Case> {
    all().iter().map(Fallback::evaluation).collect()
}

/// The largest trees compiled, into memory that the code fits exactly.
pub fn compilations() -> Vec<Case> {
    let compile = |of: Fallback| {
        let bytes = of.draft.bytes();
        let length = code_of(&bytes).map_or(0, |code| code.len());
        let case = Case::new("overridden, compiled", Service::Compile, bytes);
        case.asking(0, Vec::new(), length)
            .expecting(Expected::Accepted)
    };
    largest().into_iter().map(compile).collect()
}

/// The former code of each book, run.
pub fn former_runs() -> Vec<Case> {
    all().iter().map(Fallback::former_run).collect()
}

/// Each book but the small terms tabulated, over its switch where it has one.
pub fn tables() -> Vec<Case> {
    let table = |of: Fallback| {
        let chosen = vec![0; of.inputs.len().min(1)];
        let room = (1 + of.room()) << chosen.len();
        let case = Case::new("overridden, tabulated", Service::Tabulate, of.draft.bytes());
        let case = case.asking(of.scope, Vec::new(), room).choosing(chosen);
        case.expecting(Expected::Accepted)
    };
    let mut all = ways(false);
    all.extend(calls());
    all.extend(chains());
    all.extend(switches());
    all.into_iter().map(table).collect()
}
