//! Evaluating a scope with a record of what became of every clause.

use crate::rulebook::Rulebook;
use crate::terms::Terms;
use second::kind::NONE;
use second::scope::{Clause, Consequence, Scope, Target};
use second::steps::{step_order, Step};
use second::value::{Failure, Value};

pub type Evaluated = Result<Value, Failure>;

/// What became of a clause none of whose exceptions has a value.
#[derive(Clone, Copy, Debug, PartialEq, Eq)]
pub enum Fate {
    /// Its condition is yes, or it has none, and its consequence has a value.
    Held,
    ConditionNo,
    ConditionFailed(Failure),
    /// The node of its consequence has no value.
    ConsequenceFailed(u8, Failure),
}

/// A clause that was tried, with its exceptions. It has a fate of its own only where
/// they leave the matter to it.
#[derive(Debug)]
pub struct Trial {
    pub clause: u8,
    pub exceptions: Row,
    pub fate: Option<Fate>,
    pub result: Evaluated,
}

/// Clauses that are the exceptions of one term, as tried. Those after one that ended
/// in conflict, above or below the range are not tried.
#[derive(Debug)]
pub struct Row {
    pub trials: Vec<Trial>,
    pub joined: Joined,
}

/// What came of a row; clauses are named by their places in it.
#[derive(Clone, Copy, Debug, PartialEq, Eq)]
pub enum Joined {
    /// All are empty.
    Nothing,
    One(usize),
    /// The first two that have a value.
    Clash(usize, usize),
    /// The one that is in conflict, above or below the range.
    Ended(usize),
}

impl Row {
    fn of(trials: Vec<Trial>) -> Row {
        let joined = joined(&trials);
        Row { trials, joined }
    }

    /// The result, unless all are empty.
    fn result(&self) -> Option<Evaluated> {
        match self.joined {
            Joined::Nothing => None,
            Joined::One(place) | Joined::Ended(place) => Some(self.trials[place].result),
            Joined::Clash(..) => Some(Err(Failure::Conflict)),
        }
    }
}

/// The tree of a target: its bases as tried, and what came of them.
#[derive(Debug)]
pub struct Tree {
    pub target: Target,
    pub bases: Row,
    pub result: Evaluated,
}

/// A step as taken.
#[derive(Debug)]
pub enum Taken {
    Given(u8, Value),
    Variable(Tree),
    /// Overrides in variable order; an empty one hands nothing over. There is no entry
    /// where one ended in conflict, above or below the range.
    Call(u8, Vec<Tree>, Option<Entry>),
}

/// An entered scope: its values at the end, its steps as far as they went.
#[derive(Debug)]
pub struct Entry {
    pub scope: usize,
    pub values: Vec<Option<Value>>,
    pub called: Vec<Vec<Option<Value>>>,
    pub taken: Vec<Taken>,
    pub left: Vec<Step>,
    pub failure: Option<Failure>,
}

impl Entry {
    /// The value of a variable, where it has one.
    pub fn value(&self, subscope: u8, variable: u8) -> Option<Value> {
        let values = match subscope {
            NONE => &self.values,
            k => self.called.get(usize::from(k))?,
        };
        values.get(usize::from(variable)).copied().flatten()
    }

    /// Scopes entered: this one and those that its calls entered.
    pub fn count(&self) -> usize {
        let entries = self.taken.iter().filter_map(|taken| match taken {
            Taken::Call(_, _, entry) => entry.as_ref(),
            _ => None,
        });
        1 + entries.map(Entry::count).sum::<usize>()
    }
}

/// Evaluates a scope of an accepted book, `given` holding its variables.
pub fn enter(book: &Rulebook, scope: usize, given: Vec<Option<Value>>) -> Entry {
    let own = &book.scopes[scope];
    let called = own
        .subscopes
        .iter()
        .map(|&k| book.scopes[usize::from(k)].variables.len());
    let mut run = Run {
        book,
        scope: own,
        entry: Entry {
            scope,
            values: given,
            called: called.map(|count| vec![None; count]).collect(),
            taken: Vec::new(),
            left: step_order(own).unwrap_or_default(),
            failure: None,
        },
    };
    while run.entry.failure.is_none() && !run.entry.left.is_empty() {
        let step = run.entry.left.remove(0);
        let taken = run.step(step);
        run.entry.taken.push(taken);
    }
    run.entry
}

struct Run<'a> {
    book: &'a Rulebook,
    scope: &'a Scope,
    entry: Entry,
}

impl Run<'_> {
    fn step(&mut self, step: Step) -> Taken {
        match step {
            Step::Variable(variable) => self.variable(variable as u8),
            Step::Call(subscope) => self.call(subscope as u8),
        }
    }

    fn variable(&mut self, variable: u8) -> Taken {
        let slot = usize::from(variable);
        if let Some(value) = self.entry.values[slot] {
            return Taken::Given(variable, value);
        }
        let tree = self.tree(Target {
            subscope: NONE,
            variable,
        });
        match tree.result {
            Ok(value) => self.entry.values[slot] = Some(value),
            Err(failure) => self.entry.failure = Some(failure),
        }
        Taken::Variable(tree)
    }

    /// The called scope uses its own tree for what is not handed over.
    fn call(&mut self, subscope: u8) -> Taken {
        let callee = usize::from(self.scope.subscopes[usize::from(subscope)]);
        let mut given = vec![None; self.book.scopes[callee].variables.len()];
        let mut overrides = Vec::new();
        for (variable, given) in (0u8..).zip(&mut given) {
            let target = Target { subscope, variable };
            let mut clauses = self.scope.clauses.iter();
            if !clauses.any(|clause| clause.target == target) {
                continue;
            }
            let tree = self.tree(target);
            let result = tree.result;
            overrides.push(tree);
            if ends(result) {
                self.entry.failure = result.err();
                return Taken::Call(subscope, overrides, None);
            }
            *given = result.ok();
        }
        let entry = enter(self.book, callee, given);
        self.entry.failure = entry.failure;
        self.entry.called[usize::from(subscope)].clone_from(&entry.values);
        Taken::Call(subscope, overrides, Some(entry))
    }

    /// With rules no base gives no, without them empty.
    fn tree(&self, target: Target) -> Tree {
        let mut clauses = self.scope.clauses.iter();
        let rules = clauses.any(|clause| clause.target == target && clause.is_rule());
        let bases = self.row(|clause| clause.target == target && clause.parent == NONE);
        let otherwise = match rules {
            true => Ok(Value::YesNo(false)),
            false => Err(Failure::Empty),
        };
        Tree {
            target,
            result: bases.result().unwrap_or(otherwise),
            bases,
        }
    }

    /// Tries clauses in number order, up to one that ends the row.
    fn row(&self, wanted: impl Fn(&Clause) -> bool) -> Row {
        let mut trials = Vec::new();
        for (number, clause) in (0u8..).zip(&self.scope.clauses) {
            if !wanted(clause) {
                continue;
            }
            let trial = self.trial(number);
            let ended = ends(trial.result);
            trials.push(trial);
            if ended {
                break;
            }
        }
        Row::of(trials)
    }

    fn trial(&self, number: u8) -> Trial {
        let exceptions = self.row(|clause| clause.parent == number);
        let (fate, result) = match exceptions.result() {
            Some(result) => (None, result),
            None => {
                let (fate, result) = self.by_itself(number);
                (Some(fate), result)
            }
        };
        Trial {
            clause: number,
            exceptions,
            fate,
            result,
        }
    }

    /// A clause whose exceptions are all empty: its condition, then its consequence.
    fn by_itself(&self, number: u8) -> (Fate, Evaluated) {
        let clause = &self.scope.clauses[usize::from(number)];
        let condition = match clause.condition {
            NONE => Ok(Value::YesNo(true)),
            node => self.node(node),
        };
        match condition {
            Err(failure) => return (Fate::ConditionFailed(failure), Err(failure)),
            Ok(Value::YesNo(true)) => {}
            Ok(_) => return (Fate::ConditionNo, Err(Failure::Empty)),
        }
        let node = match clause.consequence {
            Consequence::Constant(yes) => return (Fate::Held, Ok(Value::YesNo(yes))),
            Consequence::Node(node) => node,
        };
        match self.node(node) {
            Ok(value) => (Fate::Held, Ok(value)),
            Err(failure) => (Fate::ConsequenceFailed(node, failure), Err(failure)),
        }
    }

    fn node(&self, number: u8) -> Evaluated {
        let terms = Terms {
            nodes: &self.scope.nodes,
            entry: &self.entry,
        };
        terms.node(number)
    }
}

/// Conflict, above and below end a row and a call; empty does not.
fn ends(result: Evaluated) -> bool {
    matches!(result, Err(failure) if failure != Failure::Empty)
}

/// What comes of a row of exceptions.
fn joined(trials: &[Trial]) -> Joined {
    if let Some(place) = trials.iter().position(|trial| ends(trial.result)) {
        return Joined::Ended(place);
    }
    let mut held = (0..trials.len()).filter(|&place| trials[place].result.is_ok());
    match (held.next(), held.next()) {
        (None, _) => Joined::Nothing,
        (Some(one), None) => Joined::One(one),
        (Some(one), Some(two)) => Joined::Clash(one, two),
    }
}
