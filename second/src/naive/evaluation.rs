//! Evaluation by definition: every exception is evaluated before any is looked at,
//! clauses are searched for anew each time, and yes/no values are 1 and 0.

use super::Scope;
use crate::answer::Outcome;
use crate::overriding::Overriding;
use crate::steps::Step;

type Result = std::result::Result<i64, Outcome>;

/// A book with the order of the steps of each scope.
pub struct Rules<'a> {
    pub overriding: Overriding,
    pub scopes: &'a [Scope],
    pub steps: &'a [Vec<Step>],
    /// Scopes entered.
    pub count: usize,
}

/// Values of the own variables and of the sub-scopes called so far.
struct Environment {
    own: Vec<Option<i64>>,
    called: Vec<Vec<i64>>,
}

impl Rules<'_> {
    /// Values of all variables of a scope with some of them given.
    pub fn enter(
        &mut self,
        number: usize,
        given: Vec<Option<i64>>,
    ) -> std::result::Result<Vec<i64>, Outcome> {
        self.count += 1;
        let scope = &self.scopes[number];
        let mut environment = Environment {
            own: given,
            called: vec![Vec::new(); scope.subscopes.len()],
        };
        for step in &self.steps[number] {
            match *step {
                Step::Variable(v) if environment.own[v].is_some() => {}
                Step::Variable(v) => {
                    let value = target(scope, &environment, 255, v).unwrap_or(Err(Outcome::Empty));
                    environment.own[v] = Some(value?);
                }
                Step::Call(k) => environment.called[k] = self.call(scope, &environment, k)?,
            }
        }
        Ok(environment.own.into_iter().flatten().collect())
    }

    fn call(
        &mut self,
        scope: &Scope,
        environment: &Environment,
        k: usize,
    ) -> std::result::Result<Vec<i64>, Outcome> {
        let callee = scope.subscopes[k];
        let mut given = Vec::new();
        for v in 0..self.scopes[callee].variables.len() {
            given.push(match target(scope, environment, k as u8, v) {
                Some(Err(Outcome::Empty)) if self.overriding == Overriding::FallsBack => None,
                handed => handed.transpose()?,
            });
        }
        self.enter(callee, given)
    }
}

/// The tree of a target, nothing without clauses.
fn target(scope: &Scope, environment: &Environment, k: u8, v: usize) -> Option<Result> {
    let numbered = scope.clauses.iter().enumerate();
    let own = numbered.filter(|(_, clause)| clause[1] == k && usize::from(clause[2]) == v);
    let own: Vec<(usize, &Vec<u8>)> = own.collect();
    let bases: Vec<usize> = own
        .iter()
        .filter(|(_, c)| c[3] == 255)
        .map(|&(i, _)| i)
        .collect();
    let rules = own.iter().any(|(_, clause)| clause[0] == 20);
    let evaluated = || bases.iter().map(|&i| clause(scope, environment, i));
    match (rules, bases.len()) {
        (_, 0) => None,
        (false, 1) => evaluated().next(),
        (false, _) => Some(default(
            evaluated().collect(),
            || Ok(1),
            || Err(Outcome::Empty),
        )),
        (true, _) => Some(default(evaluated().collect(), || Ok(1), || Ok(0))),
    }
}

fn clause(scope: &Scope, environment: &Environment, number: usize) -> Result {
    let children = (0..scope.clauses.len())
        .filter(|&i| scope.clauses[i][3] != 255 && usize::from(scope.clauses[i][3]) == number);
    let exceptions = children.map(|i| clause(scope, environment, i)).collect();
    let record = &scope.clauses[number];
    let condition = || match record[4] {
        255 => Ok(1),
        byte => node(scope, environment, byte),
    };
    let consequence = || match record[0] {
        20 => Ok(i64::from(record[5])),
        _ => node(scope, environment, record[5]),
    };
    default(exceptions, condition, consequence)
}

/// "The first that is conflict or out of range", on either side, "is the result. Else two
/// or more that are not empty give conflict; exactly one is the result. With none, the
/// justification is evaluated; yes evaluates the consequence, no gives empty."
fn default(
    exceptions: Vec<Result>,
    justification: impl FnOnce() -> Result,
    consequence: impl FnOnce() -> Result,
) -> Result {
    use Outcome::{Above, Below, Conflict};
    let stops = |one: &&Result| matches!(one, Err(Conflict | Above | Below));
    if let Some(&first) = exceptions.iter().find(stops) {
        return first;
    }
    let present: Vec<Result> = exceptions.into_iter().filter(|one| one.is_ok()).collect();
    match present[..] {
        [] if justification()? == 1 => consequence(),
        [] => Err(Outcome::Empty),
        [one] => one,
        _ => Err(Outcome::Conflict),
    }
}

fn in_range(n: i64) -> Result {
    match n {
        2_147_483_648.. => Err(Outcome::Above),
        -2_147_483_648.. => Ok(n),
        _ => Err(Outcome::Below),
    }
}

fn node(scope: &Scope, environment: &Environment, number: u8) -> Result {
    let record = &scope.nodes[usize::from(number)][..];
    let of = |byte: u8| node(scope, environment, byte);
    match *record {
        [4, yes] => Ok(i64::from(yes)),
        [5, a, b, c, d] => Ok(i64::from(i32::from_be_bytes([a, b, c, d]))),
        [6, v] => Ok(environment.own[usize::from(v)].expect("done before")),
        [7, k, v] => Ok(environment.called[usize::from(k)][usize::from(v)]),
        [8, _] => Err(Outcome::Empty),
        [9, _] => Err(Outcome::Conflict),
        [10, a] => Ok(1 - of(a)?),
        [11, a] => in_range(-of(a)?),
        [17, condition, then, other] => match of(condition)? {
            1 => of(then),
            _ => of(other),
        },
        [18, x, y, z, justification, consequence] => {
            let present = [x, y, z].into_iter().filter(|&e| e != 255);
            let exceptions = present.map(of).collect();
            default(exceptions, || of(justification), || of(consequence))
        }
        [kind, a, b] => {
            let (left, right) = (of(a)?, of(b)?);
            match kind {
                12 => Ok(left * right),
                13 => in_range(left + right),
                14 => in_range(left - right),
                15 => Ok(i64::from(left == right)),
                _ => Ok(i64::from(left < right)),
            }
        }
        _ => unreachable!("a node of an accepted book"),
    }
}
