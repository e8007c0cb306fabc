//! The paper's definitions once more, as plain as possible and without regard to
//! speed. The self-check compares the services with them; of the services they share
//! only the names of steps, outcomes and meanings, and a table is defined by evaluations.

pub mod evaluation;
pub mod execution;
pub mod relations;
pub mod tabulation;
pub mod tries;

/// Bytes behind each kind of book record, by kind.
const LENGTHS: [usize; 21] = [
    0, 0, 1, 1, 1, 4, 1, 2, 1, 1, 1, 1, 2, 2, 2, 2, 2, 3, 5, 5, 5,
];

/// The records of a scope, kinds included.
#[derive(Default)]
pub struct Scope {
    pub variables: Vec<u8>,
    pub subscopes: Vec<usize>,
    pub nodes: Vec<Vec<u8>>,
    pub clauses: Vec<Vec<u8>>,
}

/// The scopes of a book; nothing where its records cannot be told apart.
pub fn parse(book: &[u8]) -> Option<Vec<Scope>> {
    let mut scopes: Vec<Scope> = Vec::new();
    let mut rest = book;
    while let Some(&kind) = rest.first() {
        let length = 1 + LENGTHS.get(usize::from(kind)).filter(|_| kind > 0)?;
        if rest.len() < length {
            return None;
        }
        let (record, after) = rest.split_at(length);
        rest = after;
        if kind == 1 {
            scopes.push(Scope::default());
            continue;
        }
        let scope = scopes.last_mut()?;
        match kind {
            2 => scope.variables.push(record[1]),
            3 => scope.subscopes.push(usize::from(record[1])),
            4..=18 => scope.nodes.push(record.to_vec()),
            _ => scope.clauses.push(record.to_vec()),
        }
    }
    Some(scopes)
}

/// The kinds of all records of a scope, kind 1 included.
pub fn kinds(scope: &Scope) -> Vec<u8> {
    let mut kinds = vec![1];
    kinds.extend(scope.variables.iter().map(|_| 2));
    kinds.extend(scope.subscopes.iter().map(|_| 3));
    let records = scope.nodes.iter().chain(&scope.clauses);
    kinds.extend(records.map(|record| record[0]));
    kinds
}

/// The nodes that a node or clause names, once for each naming byte.
pub fn named(record: &[u8]) -> Vec<usize> {
    let unless_none = |byte: u8| (byte != 255).then_some(byte);
    let bytes: Vec<u8> = match record[0] {
        10..=17 => record[1..].to_vec(),
        18 => {
            let exceptions = record[1..4].iter().copied().filter_map(unless_none);
            exceptions.chain(record[4..].iter().copied()).collect()
        }
        19 => unless_none(record[4])
            .into_iter()
            .chain([record[5]])
            .collect(),
        20 => unless_none(record[4]).into_iter().collect(),
        _ => Vec::new(),
    };
    bytes.into_iter().map(usize::from).collect()
}
