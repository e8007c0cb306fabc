//! Numbers of nodes. Usually the order written, operands before their node and the
//! left one first; `@` fixes a number, and the other nodes take the free ones in order.

use crate::names::Resolved;
use crate::place::{Fault, Faults, Place};
use crate::rulebook::NodeName;
use crate::syntax;
use second::kind::NONE;
use second::scope::{Clause, Consequence, Node, Scope};

/// Gives each node of a scope its number and puts the nodes in that order.
pub fn number_nodes(
    mut resolved: Resolved,
    nodes: &[syntax::Node],
) -> Result<(Scope, crate::rulebook::Names), Vec<Fault>> {
    let fixed: Vec<Option<(u8, Place)>> = nodes.iter().map(|node| node.fixed).collect();
    let numbers = numbers(&fixed)?;
    let mut order: Vec<usize> = (0..nodes.len()).collect();
    order.sort_by_key(|&node| numbers[node]);
    let renumbered = |node: u8| match node {
        NONE => NONE,
        node => numbers[usize::from(node)],
    };
    let moved: Vec<Node> = order
        .iter()
        .map(|&node| with_operands(resolved.nodes[node], renumbered))
        .collect();
    let names = order.iter().map(|&node| resolved.names.nodes[node]);
    resolved.names.nodes = names.collect();
    check_order(&moved, &resolved.names.nodes)?;
    let clauses = resolved.clauses.iter();
    let scope = Scope {
        variables: resolved.variables,
        subscopes: resolved.subscopes,
        nodes: moved,
        clauses: clauses
            .map(|clause| renumber_clause(clause, renumbered))
            .collect(),
    };
    Ok((scope, resolved.names))
}

/// The number of each node in the order written.
fn numbers(fixed: &[Option<(u8, Place)>]) -> Result<Vec<u8>, Vec<Fault>> {
    let mut faults = Faults::default();
    let mut taken = vec![false; fixed.len()];
    for &(number, place) in fixed.iter().flatten() {
        match taken.get_mut(usize::from(number)) {
            None => {
                let last = fixed.len() - 1;
                let message =
                    format!("there is no node {number} in this scope; the last one is {last}");
                faults.add(place, message);
            }
            Some(taken) if *taken => faults.add(place, format!("another node is @{number}")),
            Some(taken) => *taken = true,
        }
    }
    faults.settled()?;
    let mut free = (0u8..).zip(&taken).filter(|&(_, &taken)| !taken);
    let number = |fixed: &Option<(u8, Place)>| match fixed {
        Some((number, _)) => *number,
        None => free.next().map_or(NONE, |(number, _)| number),
    };
    Ok(fixed.iter().map(number).collect())
}

/// "A node names nodes of lower number only".
fn check_order(nodes: &[Node], names: &[NodeName]) -> Result<(), Vec<Fault>> {
    let mut faults = Faults::default();
    for (number, node) in nodes.iter().enumerate() {
        if node
            .operands()
            .any(|operand| usize::from(operand) >= number)
        {
            let message = format!("this node is @{number}, and a part of it has a higher number");
            faults.add(names[number].place, message);
        }
    }
    faults.settled()
}

/// The node with other numbers for the nodes it names.
pub fn with_operands(node: Node, number: impl Fn(u8) -> u8) -> Node {
    match node {
        Node::Unary(kind, a) => Node::Unary(kind, number(a)),
        Node::Binary(kind, a, b) => Node::Binary(kind, number(a), number(b)),
        Node::If(a, b, c) => Node::If(number(a), number(b), number(c)),
        Node::Default(exceptions, j, c) => {
            Node::Default(exceptions.map(&number), number(j), number(c))
        }
        other => other,
    }
}

fn renumber_clause(clause: &Clause, number: impl Fn(u8) -> u8) -> Clause {
    Clause {
        condition: number(clause.condition),
        consequence: match clause.consequence {
            Consequence::Node(node) => Consequence::Node(number(node)),
            constant => constant,
        },
        ..*clause
    }
}

/// Which numbers of a list must be fixed so that the others, in order, take the free
/// ones: all but a longest increasing part of it.
pub fn to_fix(numbers: &[u8]) -> Vec<bool> {
    let mut length = vec![1usize; numbers.len()];
    let mut before: Vec<Option<usize>> = vec![None; numbers.len()];
    for i in 0..numbers.len() {
        for j in (0..i).filter(|&j| numbers[j] < numbers[i]) {
            if length[j] + 1 > length[i] {
                length[i] = length[j] + 1;
                before[i] = Some(j);
            }
        }
    }
    let mut fix = vec![true; numbers.len()];
    let longest = length.iter().max().copied().unwrap_or(0);
    let ends = (0..numbers.len()).filter(|&i| length[i] == longest);
    let mut kept = ends.min_by_key(|&i| numbers[i]);
    while let Some(i) = kept {
        fix[i] = false;
        kept = before[i];
    }
    fix
}

#[cfg(test)]
mod tests {
    use super::*;

    #[test]
    fn only_what_is_out_of_order_is_fixed() {
        assert_eq!(to_fix(&[0, 1, 2]), [false; 3]);
        assert_eq!(to_fix(&[1, 0, 2]), [false, true, false]);
        assert_eq!(to_fix(&[2, 0, 1]), [true, false, false]);
        assert_eq!(to_fix(&[]), []);
    }

    #[test]
    fn free_numbers_are_taken_in_order() {
        let at = |number| Some((number, Place { line: 1, column: 1 }));
        assert_eq!(numbers(&[None, at(0), None]), Ok(vec![1, 0, 2]));
        assert!(numbers(&[None, at(2)]).is_err());
        assert!(numbers(&[at(1), at(1)]).is_err());
    }

    #[test]
    fn fixing_what_to_fix_says_gives_the_list_back() {
        let list: Vec<u8> = (0..50u8).map(|i| (i * 3 + 7) % 50).collect();
        let fixed: Vec<_> = list
            .iter()
            .zip(to_fix(&list))
            .map(|(&n, fix)| fix.then_some((n, Place::default())))
            .collect();
        assert_eq!(numbers(&fixed), Ok(list));
    }
}
