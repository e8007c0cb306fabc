//! Steps of a scope and their order: refusal 12.

use crate::decode::MAX_VARIABLES;
use crate::kind::NONE;
use crate::refusal::Refusal;
use crate::scope::{Node, Scope};

/// A step computes an own variable or calls a sub-scope.
#[derive(Clone, Copy, Debug, PartialEq, Eq)]
pub enum Step {
    Variable(usize),
    Call(usize),
}

/// Steps have one bit each: variables 0 to 31, calls from 32 on.
type Steps = u64;

fn call_bit(subscope: u8) -> usize {
    MAX_VARIABLES + usize::from(subscope)
}

fn step_of(bit: usize) -> Step {
    if bit < MAX_VARIABLES {
        Step::Variable(bit)
    } else {
        Step::Call(bit - MAX_VARIABLES)
    }
}

/// "Among the steps not yet done, the ready step of lowest number is taken first,
/// variables before calls." No ready step means that one depends on itself.
pub fn step_order(scope: &Scope) -> Result<Vec<Step>, Refusal> {
    let needs = dependencies(scope);
    let calls = (0..scope.subscopes.len()).map(|k| MAX_VARIABLES + k);
    let mut open: Vec<usize> = (0..scope.variables.len()).chain(calls).collect();
    let mut done: Steps = 0;
    let mut order = Vec::with_capacity(open.len());
    while !open.is_empty() {
        let ready = open.iter().position(|&bit| needs[bit] & !done == 0);
        let bit = open.remove(ready.ok_or(Refusal::DependencyCycle)?);
        done |= 1 << bit;
        order.push(step_of(bit));
    }
    Ok(order)
}

/// What each step depends on: everything read in its trees, reached or not.
fn dependencies(scope: &Scope) -> [Steps; 64] {
    let reads = node_reads(scope);
    let mut needs = [0; 64];
    for clause in &scope.clauses {
        let bit = match clause.target.subscope {
            NONE => usize::from(clause.target.variable),
            k => call_bit(k),
        };
        for operand in clause.operands() {
            needs[bit] |= reads[usize::from(operand)];
        }
    }
    needs
}

/// What the tree under each node reads; operands have lower numbers.
fn node_reads(scope: &Scope) -> Vec<Steps> {
    let mut reads: Vec<Steps> = Vec::with_capacity(scope.nodes.len());
    for node in &scope.nodes {
        let own = match *node {
            Node::Own(v) => 1 << v,
            Node::Subscope(k, _) => 1 << call_bit(k),
            _ => {
                let under = node.operands().map(|operand| reads[usize::from(operand)]);
                under.fold(0, |all, one| all | one)
            }
        };
        reads.push(own);
    }
    reads
}
