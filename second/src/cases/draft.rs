//! A book under construction: its records, written with the paper's own numbers so
//! that nothing here leans on the decoder.

pub const YES_NO: u8 = 1;
pub const NUMBER: u8 = 2;

/// A scope's records. Nodes are whole records; clauses too, always six bytes.
#[derive(Clone, Default)]
pub struct DraftScope {
    pub variables: Vec<u8>,
    pub subscopes: Vec<u8>,
    pub nodes: Vec<Vec<u8>>,
    pub clauses: Vec<[u8; 6]>,
}

/// Most nodes and clauses a scope may have.
pub const NODES: usize = 250;
pub const CLAUSES: usize = 128;

impl DraftScope {
    /// Adds a node and hands back its number.
    pub fn node(&mut self, record: &[u8]) -> u8 {
        self.nodes.push(record.to_vec());
        (self.nodes.len() - 1) as u8
    }

    pub fn constant(&mut self, yes: bool) -> u8 {
        self.node(&[4, u8::from(yes)])
    }

    pub fn number(&mut self, n: i32) -> u8 {
        let [a, b, c, d] = n.to_be_bytes();
        self.node(&[5, a, b, c, d])
    }

    pub fn own(&mut self, variable: u8) -> u8 {
        self.node(&[6, variable])
    }

    pub fn subscope(&mut self, subscope: u8, variable: u8) -> u8 {
        self.node(&[7, subscope, variable])
    }

    /// A definition of an own variable (255) or an override, without parent.
    pub fn define(&mut self, subscope: u8, variable: u8, condition: u8, consequence: u8) {
        self.clauses
            .push([19, subscope, variable, 255, condition, consequence]);
    }

    /// A rule without parent.
    pub fn rule(&mut self, subscope: u8, variable: u8, condition: u8, consequence: u8) {
        self.clauses
            .push([20, subscope, variable, 255, condition, consequence]);
    }

    /// How many more nodes fit.
    pub fn room(&self) -> usize {
        NODES.saturating_sub(self.nodes.len())
    }

    fn records(&self) -> impl Iterator<Item = Vec<u8>> + '_ {
        let pair = |kind: u8| move |&byte: &u8| vec![kind, byte];
        std::iter::once(vec![1])
            .chain(self.variables.iter().map(pair(2)))
            .chain(self.subscopes.iter().map(pair(3)))
            .chain(self.nodes.iter().cloned())
            .chain(self.clauses.iter().map(|clause| clause.to_vec()))
    }
}

#[derive(Clone, Default)]
pub struct Draft {
    pub scopes: Vec<DraftScope>,
}

impl Draft {
    pub fn records(&self) -> Vec<Vec<u8>> {
        self.scopes.iter().flat_map(DraftScope::records).collect()
    }

    pub fn bytes(&self) -> Vec<u8> {
        let mut bytes = Vec::new();
        for scope in &self.scopes {
            bytes.push(1);
            scope.variables.iter().for_each(|&t| bytes.extend([2, t]));
            scope.subscopes.iter().for_each(|&s| bytes.extend([3, s]));
            scope.nodes.iter().for_each(|node| bytes.extend(node));
            scope.clauses.iter().for_each(|clause| bytes.extend(clause));
        }
        bytes
    }

    /// Puts the scopes of another draft behind, their numbers moved along.
    pub fn append(&mut self, other: Draft) {
        let moved = self.scopes.len() as u8;
        for mut scope in other.scopes {
            for number in &mut scope.subscopes {
                *number = number.saturating_add(moved);
            }
            self.scopes.push(scope);
        }
    }

    /// Renumbers the scopes: scope `i` becomes `place[i]`.
    pub fn permute(&mut self, place: &[usize]) {
        let mut scopes = vec![DraftScope::default(); self.scopes.len()];
        for (i, mut scope) in self.scopes.drain(..).enumerate() {
            for number in &mut scope.subscopes {
                *number = place[usize::from(*number)] as u8;
            }
            scopes[place[i]] = scope;
        }
        self.scopes = scopes;
    }
}

/// "3 bytes a yes/no, 6 a number".
pub fn results_length(types: &[u8]) -> usize {
    types
        .iter()
        .map(|&of| if of == YES_NO { 3 } else { 6 })
        .sum()
}

/// The numbers of the variables of a type.
pub fn variables_of(types: &[u8], of: u8) -> Vec<u8> {
    let numbered = (0..).zip(types);
    let fitting = numbered.filter(|&(_, &other)| other == of);
    fitting.map(|(variable, _)| variable).collect()
}
