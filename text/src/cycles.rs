//! Scopes that call themselves, scopes too heavy, and variables that depend on
//! themselves, each with the way around.

use crate::place::{Fault, Place};
use crate::rulebook::Rulebook;
use second::kind::NONE;
use second::scope::{Clause, Node};
use second::scope_order::{scope_order, MAX_WEIGHT};

/// An edge of a graph, and where the text says it.
#[derive(Clone, Copy, Debug, PartialEq, Eq)]
struct Edge {
    from: usize,
    to: usize,
    place: Place,
}

/// Faults 10, 11 and 12 of the judge, in this order.
pub fn check_cycles(book: &Rulebook) -> Result<(), Vec<Fault>> {
    check_scopes(book)?;
    check_weights(book)?;
    let ring = (0..book.scopes.len()).find_map(|scope| dependency_fault(book, scope));
    ring.map_or(Ok(()), |fault| Err(vec![fault]))
}

/// The edges of a cycle, if there is one.
fn cycle(count: usize, edges: &[Edge]) -> Option<Vec<Edge>> {
    let mut open: Vec<bool> = vec![true; count];
    // What depends on nothing that is open is not on a cycle.
    while let Some(free) = (0..count).find(|&i| open[i] && !leaves(edges, &open, i)) {
        open[free] = false;
    }
    let start = open.iter().position(|&open| open)?;
    let mut path: Vec<Edge> = Vec::new();
    let mut here = start;
    while path.iter().all(|edge| edge.from != here) {
        let next = edges.iter().find(|e| e.from == here && open[e.to])?;
        path.push(*next);
        here = next.to;
    }
    let first = path.iter().position(|edge| edge.from == here)?;
    Some(path.split_off(first))
}

fn leaves(edges: &[Edge], open: &[bool], from: usize) -> bool {
    edges.iter().any(|edge| edge.from == from && open[edge.to])
}

fn check_scopes(book: &Rulebook) -> Result<(), Vec<Fault>> {
    let mut edges = Vec::new();
    for (from, scope) in book.scopes.iter().enumerate() {
        for (k, &to) in scope.subscopes.iter().enumerate() {
            edges.push(Edge {
                from,
                to: usize::from(to),
                place: book.names[from].subscopes[k].place,
            });
        }
    }
    let Some(found) = cycle(book.scopes.len(), &edges) else {
        return Ok(());
    };
    let name = |scope: usize| book.names[scope].scope.text.as_str();
    let mut way = vec![name(found[0].from)];
    way.extend(found.iter().map(|edge| name(edge.to)));
    let message = format!("a scope calls itself: {}", way.join(" calls "));
    Err(vec![Fault::at(found[0].place, message)])
}

/// "1 plus the weights of the sub-scopes called". No scope reaches itself here.
fn check_weights(book: &Rulebook) -> Result<(), Vec<Fault>> {
    let mut weights = vec![0; book.scopes.len()];
    for number in scope_order(&book.scopes).unwrap_or_default() {
        let called = book.scopes[number].subscopes.iter();
        let weight: usize = 1 + called.map(|&k| weights[usize::from(k)]).sum::<usize>();
        if weight > MAX_WEIGHT {
            let place = book.names[number].scope.place;
            let message =
                format!("this scope enters {weight} scopes in all, and {MAX_WEIGHT} are the most");
            return Err(vec![Fault::at(place, message)]);
        }
        weights[number] = weight;
    }
    Ok(())
}

/// Steps are own variables, then calls.
fn dependency_fault(book: &Rulebook, scope: usize) -> Option<Fault> {
    let own = &book.scopes[scope];
    let count = own.variables.len() + own.subscopes.len();
    let clauses = own.clauses.iter();
    let edges: Vec<Edge> = clauses
        .flat_map(|clause| clause_edges(book, scope, clause))
        .collect();
    let found = cycle(count, &edges)?;
    let need = |edge: &Edge| {
        let [from, to] = [edge.from, edge.to].map(|step| step_name(book, scope, step));
        format!("{from} needs {to} (at {})", edge.place)
    };
    let needs: Vec<String> = found.iter().map(need).collect();
    let message = format!("a variable depends on itself: {}", needs.join(", "));
    Some(Fault::at(found[0].place, message))
}

fn step_name(book: &Rulebook, scope: usize, step: usize) -> String {
    let names = &book.names[scope];
    match step.checked_sub(names.variables.len()) {
        None => names.variables[step].text.clone(),
        Some(call) => format!("the call of {}", names.subscopes[call].text),
    }
}

/// What a clause reads, reached or not, its target's step depends on.
fn clause_edges(book: &Rulebook, scope: usize, clause: &Clause) -> Vec<Edge> {
    let own = &book.scopes[scope];
    let call = |k: u8| own.variables.len() + usize::from(k);
    let from = match clause.target.subscope {
        NONE => usize::from(clause.target.variable),
        k => call(k),
    };
    let mut edges = Vec::new();
    let mut open: Vec<u8> = clause.operands().collect();
    while let Some(number) = open.pop() {
        let node = own.nodes[usize::from(number)];
        let to = match node {
            Node::Own(variable) => Some(usize::from(variable)),
            Node::Subscope(k, _) => Some(call(k)),
            _ => None,
        };
        let place = book.names[scope].nodes[usize::from(number)].place;
        edges.extend(to.map(|to| Edge { from, to, place }));
        open.extend(node.operands());
    }
    edges
}

#[cfg(test)]
mod tests {
    use super::*;

    fn edge(from: usize, to: usize) -> Edge {
        Edge {
            from,
            to,
            place: Place::default(),
        }
    }

    #[test]
    fn a_cycle_is_found_behind_what_leads_to_it() {
        let edges = [edge(0, 1), edge(1, 2), edge(2, 1), edge(2, 3)];
        assert_eq!(cycle(4, &edges), Some(vec![edge(1, 2), edge(2, 1)]));
        assert_eq!(cycle(4, &edges[..2]), None);
        assert_eq!(cycle(1, &[edge(0, 0)]), Some(vec![edge(0, 0)]));
    }
}
