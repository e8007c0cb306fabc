//! Random accepted books.

use super::draft::{Draft, DraftScope, CLAUSES, NODES, NUMBER, YES_NO};
use super::random::Random;

/// How large a book grows and what happens in it.
#[derive(Clone, Copy)]
pub struct Plan {
    pub scopes: usize,
    pub variables: usize,
    pub subscopes: usize,
    /// Most nodes of one condition or consequence.
    pub tree: usize,
    /// Most clauses of a target.
    pub clauses: usize,
    pub max_weight: usize,
    /// Chances in a hundred: of an empty or conflict leaf, of an extreme number,
    /// of a clause that always applies.
    pub fail: usize,
    pub extreme: usize,
    pub always: usize,
}

impl Plan {
    /// Calm books mostly end in values, wild ones in anything.
    fn mood(rng: &mut Random, mut plan: Plan) -> Plan {
        (plan.fail, plan.extreme, plan.always) = rng.pick(&[
            (0, 0, 100),
            (0, 2, 90),
            (0, 50, 100),
            (1, 70, 95),
            (2, 10, 70),
            (8, 40, 50),
            (25, 30, 40),
        ]);
        plan.clauses = match plan.fail {
            0 => plan.clauses.min(2),
            _ => plan.clauses,
        };
        plan
    }

    pub fn tiny(rng: &mut Random) -> Plan {
        let plan = Plan {
            scopes: rng.range(1, 3),
            variables: rng.range(1, 4),
            subscopes: rng.below(3),
            tree: rng.range(1, 6),
            clauses: 3,
            max_weight: 16,
            fail: 0,
            extreme: 0,
            always: 0,
        };
        Plan::mood(rng, plan)
    }

    pub fn medium(rng: &mut Random) -> Plan {
        let plan = Plan {
            scopes: rng.range(2, 8),
            variables: rng.range(1, 10),
            subscopes: rng.range(1, 4),
            tree: rng.range(1, 14),
            clauses: rng.range(1, 5),
            max_weight: 48,
            ..Plan::tiny(rng)
        };
        Plan::mood(rng, plan)
    }

    pub fn large(rng: &mut Random) -> Plan {
        let plan = Plan {
            scopes: rng.range(8, 13),
            variables: rng.range(16, 32),
            subscopes: 8,
            tree: rng.range(4, 24),
            clauses: rng.range(2, 8),
            max_weight: 200,
            ..Plan::tiny(rng)
        };
        Plan::mood(rng, plan)
    }
}

/// A book of a size chosen at random, small ones more often.
pub fn any_book(rng: &mut Random) -> Draft {
    let plan = match rng.below(100) {
        0 => return Draft::default(),
        1..=59 => Plan::tiny(rng),
        _ => Plan::medium(rng),
    };
    book(rng, plan)
}

pub fn book(rng: &mut Random, plan: Plan) -> Draft {
    let mut draft = Draft::default();
    for _ in 0..plan.scopes {
        let count = rng.range(0, plan.variables);
        let variables = (0..count).map(|_| rng.pick(&[YES_NO, NUMBER])).collect();
        draft.scopes.push(DraftScope {
            variables,
            ..DraftScope::default()
        });
    }
    add_subscopes(rng, plan, &mut draft);
    let types: Vec<Vec<u8>> = draft.scopes.iter().map(|s| s.variables.clone()).collect();
    for scope in &mut draft.scopes {
        fill(rng, plan, scope, &types);
    }
    draft
}

/// Calls go to scopes earlier in a random order, so that none reaches itself.
fn add_subscopes(rng: &mut Random, plan: Plan, draft: &mut Draft) {
    let mut order: Vec<usize> = (0..plan.scopes).collect();
    rng.shuffle(&mut order);
    let mut weights = vec![1; plan.scopes];
    for place in 1..plan.scopes {
        let scope = order[place];
        for _ in 0..rng.range(0, plan.subscopes) {
            let callee = order[rng.below(place)];
            if weights[scope] + weights[callee] > plan.max_weight {
                break;
            }
            weights[scope] += weights[callee];
            draft.scopes[scope].subscopes.push(callee as u8);
        }
    }
}

/// A variable to read or to define: sub-scope (255: own), variable, type.
#[derive(Clone, Copy)]
struct Readable {
    subscope: u8,
    variable: u8,
    of: u8,
}

/// A target with clauses still to be written.
struct Pending {
    variable: Readable,
    rules: bool,
    readable: Vec<Readable>,
    written: Vec<u8>,
}

/// Writes the clauses of all targets of a scope, those of several targets mixed.
fn fill(rng: &mut Random, plan: Plan, scope: &mut DraftScope, types: &[Vec<u8>]) {
    let mut targets = targets(rng, scope, types);
    let everything: Vec<Readable> = targets.iter().map(|target| target.variable).collect();
    let mut turns = Vec::new();
    for (i, target) in targets.iter().enumerate() {
        let least = usize::from(target.variable.subscope == 255 && rng.percent(95));
        let most = match target.variable.subscope {
            255 => plan.clauses,
            _ => plan.clauses.min(2),
        };
        turns.extend(std::iter::repeat_n(i, rng.range(least.min(most), most)));
    }
    rng.shuffle(&mut turns);
    for turn in turns {
        if scope.room() < 2 || scope.clauses.len() == CLAUSES {
            break;
        }
        if scope.room() >= 8 && rng.percent(8) {
            // Dead nodes belong to no tree and may read anything.
            let dead = Tree::new(plan, &everything);
            let of = rng.pick(&[YES_NO, NUMBER]);
            let size = rng.range(1, 4);
            dead.grow(rng, scope, of, size);
        }
        add_clause(rng, plan, scope, &mut targets[turn]);
    }
}

/// Steps have a random rank; a target's tree reads only steps of lower rank.
fn targets(rng: &mut Random, scope: &DraftScope, types: &[Vec<u8>]) -> Vec<Pending> {
    let own = scope.variables.len();
    let mut rank: Vec<usize> = (0..own + scope.subscopes.len()).collect();
    rng.shuffle(&mut rank);
    let mut all: Vec<(usize, Readable)> = Vec::new();
    let mut add = |rank: usize, subscope: u8, variable: usize, of: u8| {
        let variable = variable as u8;
        let target = Readable {
            subscope,
            variable,
            of,
        };
        all.push((rank, target));
    };
    for (v, &of) in scope.variables.iter().enumerate() {
        add(rank[v], 255, v, of);
    }
    for (k, &number) in scope.subscopes.iter().enumerate() {
        let variables = types[usize::from(number)].iter().enumerate();
        variables.for_each(|(v, &of)| add(rank[own + k], k as u8, v, of));
    }
    let pending = all.iter().map(|&(rank, variable)| {
        let lower = all.iter().filter(|&&(other, _)| other < rank);
        Pending {
            variable,
            rules: variable.of == YES_NO && rng.percent(40),
            readable: lower.map(|&(_, read)| read).collect(),
            written: Vec::new(),
        }
    });
    pending.collect()
}

fn add_clause(rng: &mut Random, plan: Plan, scope: &mut DraftScope, target: &mut Pending) {
    let tree = Tree::new(plan, &target.readable);
    let size = |rng: &mut Random, room: usize| rng.range(1, plan.tree).min(room);
    let condition = if rng.percent(plan.always) && target.written.is_empty() {
        255
    } else {
        let most = size(rng, scope.room() - 1);
        tree.grow(rng, scope, YES_NO, most)
    };
    let consequence = if target.rules {
        rng.below(2) as u8
    } else {
        let most = size(rng, scope.room());
        tree.grow(rng, scope, target.variable.of, most)
    };
    let exception =
        !target.written.is_empty() && rng.percent(if plan.fail == 0 { 100 } else { 60 });
    let parent = if exception {
        rng.pick(&target.written)
    } else {
        255
    };
    target.written.push(scope.clauses.len() as u8);
    scope.clauses.push([
        if target.rules { 20 } else { 19 },
        target.variable.subscope,
        target.variable.variable,
        parent,
        condition,
        consequence,
    ]);
}

/// Grows well-typed trees of nodes.
pub struct Tree<'a> {
    plan: Plan,
    readable: &'a [Readable],
}

impl<'a> Tree<'a> {
    fn new(plan: Plan, readable: &'a [Readable]) -> Self {
        Tree { plan, readable }
    }

    /// A tree of type `of` with at most `size` nodes; hands back its root.
    fn grow(&self, rng: &mut Random, scope: &mut DraftScope, of: u8, size: usize) -> u8 {
        debug_assert!(size >= 1 && scope.nodes.len() + size <= NODES);
        match size {
            0 | 1 => self.leaf(rng, scope, of),
            2 => self.unary(rng, scope, of, size),
            3 => self.binary(rng, scope, of, size),
            _ => match rng.below(5) {
                0 => self.unary(rng, scope, of, size),
                1 | 2 => self.binary(rng, scope, of, size),
                3 => self.conditional(rng, scope, of, size),
                _ => self.default(rng, scope, of, size),
            },
        }
    }

    fn leaf(&self, rng: &mut Random, scope: &mut DraftScope, of: u8) -> u8 {
        if rng.percent(self.plan.fail) {
            let kind = rng.pick(&[8, 8, 9]);
            return scope.node(&[kind, of]);
        }
        if !self.readable.is_empty() && rng.percent(60) {
            let read = rng.pick(self.readable);
            if read.of == of {
                return match read.subscope {
                    255 => scope.own(read.variable),
                    k => scope.subscope(k, read.variable),
                };
            }
        }
        match of {
            YES_NO => scope.constant(rng.percent(50)),
            _ => scope.number(rng.number(self.plan.extreme)),
        }
    }

    fn unary(&self, rng: &mut Random, scope: &mut DraftScope, of: u8, size: usize) -> u8 {
        let operand = self.grow(rng, scope, of, size - 1);
        scope.node(&[if of == YES_NO { 10 } else { 11 }, operand])
    }

    fn binary(&self, rng: &mut Random, scope: &mut DraftScope, of: u8, size: usize) -> u8 {
        let (kind, operands) = match of {
            YES_NO => rng.pick(&[(12, YES_NO), (15, YES_NO), (15, NUMBER), (16, NUMBER)]),
            _ => rng.pick(&[(13, NUMBER), (14, NUMBER)]),
        };
        let first = rng.range(1, size - 2);
        let a = self.grow(rng, scope, operands, first);
        let b = self.grow(rng, scope, operands, size - 1 - first);
        match rng.below(2) {
            0 => scope.node(&[kind, a, b]),
            _ => scope.node(&[kind, b, a]),
        }
    }

    fn conditional(&self, rng: &mut Random, scope: &mut DraftScope, of: u8, size: usize) -> u8 {
        let sizes = split(rng, size - 1, 3);
        let condition = self.grow(rng, scope, YES_NO, sizes[0]);
        let then = self.grow(rng, scope, of, sizes[1]);
        let other = self.grow(rng, scope, of, sizes[2]);
        scope.node(&[17, condition, then, other])
    }

    /// Up to three exceptions, in any of the three places.
    fn default(&self, rng: &mut Random, scope: &mut DraftScope, of: u8, size: usize) -> u8 {
        let most = (size - 3).min(3);
        let exceptions = rng.range(0, most);
        let sizes = split(rng, size - 1, exceptions + 2);
        let mut body = [255; 3];
        let mut places = [0, 1, 2];
        rng.shuffle(&mut places);
        for i in 0..exceptions {
            body[places[i]] = self.grow(rng, scope, of, sizes[i]);
        }
        let justification = self.grow(rng, scope, YES_NO, sizes[exceptions]);
        let consequence = self.grow(rng, scope, of, sizes[exceptions + 1]);
        let [x, y, z] = body;
        scope.node(&[18, x, y, z, justification, consequence])
    }
}

/// Splits a size into `parts` of at least one each.
fn split(rng: &mut Random, size: usize, parts: usize) -> Vec<usize> {
    let mut sizes = vec![1; parts];
    for _ in parts..size {
        sizes[rng.below(parts)] += 1;
    }
    sizes
}
