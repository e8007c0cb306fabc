//! Faults 7, 10, 11 and 12 and the orders of steps and blocks, by definition.

use super::{named, Scope};
use crate::steps::Step;

/// Fault 7: "a node named more than once".
pub fn has_shared_node(scopes: &[Scope]) -> bool {
    scopes.iter().any(|scope| {
        let records = scope.nodes.iter().chain(&scope.clauses);
        let names: Vec<usize> = records.flat_map(|record| named(record)).collect();
        let times = |node: usize| names.iter().filter(|&&name| name == node).count();
        (0..scope.nodes.len()).any(|node| times(node) > 1)
    })
}

/// Whether some point reaches itself over at least one edge.
fn has_cycle(points: usize, edge: impl Fn(usize, usize) -> bool) -> bool {
    let mut reach: Vec<Vec<bool>> = (0..points)
        .map(|a| (0..points).map(|b| edge(a, b)).collect())
        .collect();
    for via in 0..points {
        for a in 0..points {
            for b in 0..points {
                reach[a][b] |= reach[a][via] && reach[via][b];
            }
        }
    }
    (0..points).any(|a| reach[a][a])
}

/// Fault 10: "a scope reaches itself through sub-scopes".
pub fn has_scope_cycle(scopes: &[Scope]) -> bool {
    has_cycle(scopes.len(), |a, b| scopes[a].subscopes.contains(&b))
}

/// "1 plus the weights of the sub-scopes called", for scopes without cycles.
pub fn weights(scopes: &[Scope]) -> Vec<u128> {
    let mut weights = vec![None; scopes.len()];
    (0..scopes.len()).for_each(|scope| {
        weight(scopes, scope, &mut weights);
    });
    weights.into_iter().flatten().collect()
}

fn weight(scopes: &[Scope], scope: usize, known: &mut Vec<Option<u128>>) -> u128 {
    if let Some(weight) = known[scope] {
        return weight;
    }
    let called = scopes[scope].subscopes.iter();
    let sum: u128 = called.map(|&callee| weight(scopes, callee, known)).sum();
    known[scope] = Some(1 + sum);
    1 + sum
}

/// Nodes of the tree under a node, itself included.
fn under(scope: &Scope, node: usize) -> Vec<usize> {
    let mut all = vec![node];
    for operand in named(&scope.nodes[node]) {
        all.extend(under(scope, operand));
    }
    all
}

/// The step whose tree a clause belongs to.
fn step_of(clause: &[u8]) -> Step {
    match clause[1] {
        255 => Step::Variable(usize::from(clause[2])),
        k => Step::Call(usize::from(k)),
    }
}

/// Everything that the trees of a step read.
fn reads(scope: &Scope, step: Step) -> Vec<Step> {
    let clauses = scope
        .clauses
        .iter()
        .filter(|clause| step_of(clause) == step);
    let roots = clauses.flat_map(|clause| named(clause));
    let nodes = roots.flat_map(|root| under(scope, root));
    let read = nodes.filter_map(|node| match scope.nodes[node][..] {
        [6, v] => Some(Step::Variable(usize::from(v))),
        [7, k, _] => Some(Step::Call(usize::from(k))),
        _ => None,
    });
    read.collect()
}

/// All steps: variables, then calls.
fn steps(scope: &Scope) -> Vec<Step> {
    let variables = (0..scope.variables.len()).map(Step::Variable);
    let calls = (0..scope.subscopes.len()).map(Step::Call);
    variables.chain(calls).collect()
}

/// Fault 12: "a step depends on itself, directly or through others".
pub fn has_step_cycle(scopes: &[Scope]) -> bool {
    scopes.iter().any(|scope| {
        let steps = steps(scope);
        let reads: Vec<Vec<Step>> = steps.iter().map(|&step| reads(scope, step)).collect();
        has_cycle(steps.len(), |a, b| reads[a].contains(&steps[b]))
    })
}

/// Whether an order takes, at each place, the first of `all` that is not yet taken
/// and needs only what is taken.
fn is_lowest_first<T: Copy + PartialEq>(
    all: &[T],
    order: &[T],
    needs: impl Fn(T) -> Vec<T>,
) -> bool {
    let taken = |place: usize, one: &T| order[..place].contains(one);
    let first = |place: usize| {
        let mut open = all.iter().filter(|one| !taken(place, one));
        open.find(|&&one| needs(one).iter().all(|need| taken(place, need)))
    };
    order.len() == all.len() && (0..order.len()).all(|place| first(place) == Some(&order[place]))
}

/// "Among the steps not yet done, the ready step of lowest number is taken first,
/// variables before calls."
pub fn is_step_order(scope: &Scope, order: &[Step]) -> bool {
    let all = steps(scope);
    let known: Vec<Vec<Step>> = all.iter().map(|&step| reads(scope, step)).collect();
    let needs = |step: Step| {
        let at = all.iter().position(|&one| one == step);
        at.map_or(Vec::new(), |at| known[at].clone())
    };
    is_lowest_first(&all, order, needs)
}

/// "Sub-scopes' blocks before it, lowest number first among the possible".
pub fn is_block_order(scopes: &[Scope], order: &[usize]) -> bool {
    let all: Vec<usize> = (0..scopes.len()).collect();
    is_lowest_first(&all, order, |scope| scopes[scope].subscopes.clone())
}
