//! Which values of a scope's number inputs decide every condition. There are such values
//! where each number that is given is compared with constants only.

use crate::overrides::can_fall_back;
use crate::rulebook::Rulebook;
use second::kind::{self, NONE};
use second::scope::{Clause, Consequence, Node, Scope, Target};
use second::steps::{step_order, Step};
use second::value::Type;

/// What a value may depend on.
#[derive(Clone, Copy, Debug, PartialEq, Eq)]
enum Source {
    /// Constants and conditions alone.
    Fixed,
    /// It may be one of these given numbers as it is, a bit for each.
    Given(u32),
    /// It may be computed from given numbers.
    Computed,
}

impl Source {
    /// What may be either.
    fn or(self, other: Source) -> Source {
        match (self, other) {
            (Source::Computed, _) | (_, Source::Computed) => Source::Computed,
            (Source::Given(a), Source::Given(b)) => Source::Given(a | b),
            (Source::Fixed, other) => other,
            (given, Source::Fixed) => given,
        }
    }

    /// What is computed from it.
    fn computed(self) -> Source {
        match self {
            Source::Fixed => Source::Fixed,
            _ => Source::Computed,
        }
    }
}

/// The values at both sides of every comparison, for each number input of a scope; nothing
/// where a comparison is of another sort.
pub fn thresholds(book: &Rulebook, scope: usize) -> Option<Vec<Vec<i32>>> {
    let variables = &book.scopes[scope].variables;
    let source = |(v, of): (u32, &Type)| match of {
        Type::YesNo => Source::Fixed,
        Type::Number => Source::Given(1 << v),
    };
    let inputs: Vec<Source> = (0u32..).zip(variables).map(source).collect();
    let mut values = vec![Vec::new(); variables.len()];
    sources_of(book, scope, &vec![None; inputs.len()], &inputs, &mut values)?;
    for values in &mut values {
        values.sort_unstable();
        values.dedup();
    }
    Some(values)
}

/// The source of an override; where it can fall back, the own tree counts, too.
#[derive(Clone, Copy)]
struct OverrideSource {
    source: Source,
    can_fall_back: bool,
}

/// The sources of a scope's variables; nothing where a comparison is not decided. `given`
/// are those handed over, `inputs` those of variables that nothing defines.
fn sources_of(
    book: &Rulebook,
    scope: usize,
    given: &[Option<OverrideSource>],
    inputs: &[Source],
    values: &mut [Vec<i32>],
) -> Option<Vec<Source>> {
    let own = &book.scopes[scope];
    let mut known = Known {
        scope: own,
        own: inputs.to_vec(),
        called: vec![Vec::new(); own.subscopes.len()],
    };
    for step in step_order(own).ok()? {
        match step {
            Step::Variable(v) => {
                let own = known.target(NONE, v as u8).unwrap_or(inputs[v]);
                known.own[v] = match given[v] {
                    None => own,
                    Some(over) if over.can_fall_back => over.source.or(own),
                    Some(over) => over.source,
                };
            }
            Step::Call(k) => {
                let callee = book.callee(scope, k as u8);
                let count = book.scopes[callee].variables.len();
                let overrides = (0..count).map(|v| known.overridden(k as u8, v as u8));
                let overrides: Vec<Option<OverrideSource>> = overrides.collect();
                let inputs = vec![Source::Fixed; count];
                known.called[k] = sources_of(book, callee, &overrides, &inputs, values)?;
            }
        }
    }
    let mut nodes = own.nodes.iter();
    nodes
        .all(|node| known.decides(node, values))
        .then_some(known.own)
}

struct Known<'a> {
    scope: &'a Scope,
    own: Vec<Source>,
    called: Vec<Vec<Source>>,
}

impl Known<'_> {
    /// Of a target with clauses: any of its consequences.
    fn target(&self, subscope: u8, variable: u8) -> Option<Source> {
        let target = Target { subscope, variable };
        let clauses = self.scope.clauses.iter();
        let of = |clause: &Clause| match clause.consequence {
            Consequence::Node(node) => self.node(node),
            Consequence::Constant(_) => Source::Fixed,
        };
        let sources = clauses.filter(|c| c.target == target).map(of);
        sources.reduce(Source::or)
    }

    /// Of an override.
    fn overridden(&self, subscope: u8, variable: u8) -> Option<OverrideSource> {
        Some(OverrideSource {
            source: self.target(subscope, variable)?,
            can_fall_back: can_fall_back(self.scope, Target { subscope, variable }),
        })
    }

    fn node(&self, number: u8) -> Source {
        match self.scope.nodes[usize::from(number)] {
            Node::Own(v) => self.own[usize::from(v)],
            Node::Subscope(k, v) => {
                let source = self.called[usize::from(k)].get(usize::from(v));
                source.copied().unwrap_or(Source::Computed)
            }
            Node::Unary(kind::NEGATE, a) => self.node(a).computed(),
            Node::Binary(kind::ADD | kind::SUBTRACT, a, b) => {
                self.node(a).or(self.node(b)).computed()
            }
            Node::If(_, a, b) => self.node(a).or(self.node(b)),
            Node::Default(exceptions, _, c) => {
                let present = exceptions.into_iter().filter(|&e| e != NONE);
                present.map(|e| self.node(e)).fold(self.node(c), Source::or)
            }
            _ => Source::Fixed,
        }
    }

    /// A comparison is decided between fixed values, and between a given one and a
    /// constant: by the values on both sides of it.
    fn decides(&self, node: &Node, values: &mut [Vec<i32>]) -> bool {
        let Node::Binary(kind @ (kind::LESS | kind::EQUAL), a, b) = *node else {
            return true;
        };
        let constant = |n: u8| match self.scope.nodes[usize::from(n)] {
            Node::Number(n) => Some(n),
            _ => None,
        };
        let given = match self.node(a).or(self.node(b)) {
            Source::Fixed => return true,
            Source::Given(given) => given,
            Source::Computed => return false,
        };
        let (below, above) = (|n: i32| n.saturating_sub(1), |n: i32| n.saturating_add(1));
        let sides = match (kind, constant(a), constant(b)) {
            (kind::LESS, _, Some(n)) => vec![below(n), n],
            (kind::LESS, Some(n), _) => vec![n, above(n)],
            (_, Some(n), _) | (_, _, Some(n)) => vec![below(n), n, above(n)],
            _ => return false,
        };
        let numbered = values.iter_mut().enumerate();
        let asked = numbered.filter(|(v, _)| given >> v & 1 == 1);
        asked.for_each(|(_, values)| values.extend(&sides));
        true
    }
}

#[cfg(test)]
mod tests {
    use super::*;
    use crate::reading::to_rulebook;

    fn of(clauses: &str) -> Option<Vec<Vec<i32>>> {
        let text = format!(
            "scope s variable n : number variable m : number variable p : number
             variable y : yes/no variable z : yes/no sub-scope k : t {clauses}
             scope t variable a : number variable b : yes/no rule b under condition a < 5
             variable c : number define c as d + 1 variable d : number
             rule b under condition c = 7"
        );
        thresholds(&to_rulebook(&text).expect("a sound text"), 0)
    }

    /// The values of `n` that decide.
    fn decides(clauses: &str, expected: &[i32]) {
        let found = of(clauses).map(|values| values[0].clone());
        assert_eq!(found.as_deref(), Some(expected), "{clauses}");
    }

    #[test]
    fn given_numbers_are_tried_on_both_sides_of_a_constant() {
        decides("rule y under condition z", &[]);
        decides("rule y under condition n < 7", &[6, 7]);
        decides("rule y under condition n > 7", &[7, 8]);
        decides("rule y under condition n = 7", &[6, 7, 8]);
        decides("rule y under condition m < 7", &[]);
        decides("define m as n rule y under condition m < 7", &[6, 7]);
        decides(
            "define m as if z then 3 else 4 rule y under condition m = 3",
            &[],
        );
        decides("define k.a as n", &[4, 5]);
        decides("define k.a as if z then n else 3", &[4, 5]);
    }

    /// An override that can be empty leaves it to the called scope's own definition.
    #[test]
    fn an_override_can_fall_back() {
        decides("define k.d as n define k.c as n", &[6, 7, 8]);
        decides("define k.c under condition z as n", &[6, 7, 8]);
        for clauses in [
            "define k.d as n",
            "define k.d as n define k.c under condition z as 3",
            "define k.d as n define k.c as if z then 3 else empty",
            "define k.d as n define k.c as default [ | z : 3]",
        ] {
            assert_eq!(of(clauses), None, "{clauses}");
        }
        decides("define k.d as n define k.c as if z then 3 else 4", &[]);
    }

    #[test]
    fn other_comparisons_are_not_decided() {
        for clauses in [
            "rule y under condition n < m",
            "rule y under condition n + 1 < 7",
            "define m as n + 1 rule y under condition m < 7",
            "define k.a as n - 1",
        ] {
            assert_eq!(of(clauses), None, "{clauses}");
        }
    }
}
