//! Evaluating a scope of a book by its default trees.

use crate::answer::{Answer, Outcome};
use crate::book::Book;
use crate::kind::NONE;
use crate::layout::Layout;
use crate::overriding::Overriding;
use crate::records::{prepare, write_results};
use crate::refusal::Refusal;
use crate::scope::{Node, Scope, Target};
use crate::steps::Step;
use crate::trees::{node_term, Part, Term, Trees};
use crate::value::{binary, unary, Failure, OperationError, Place, Value};

/// Evaluates a scope: refusals 1 to 15, or the answer with its results written.
pub fn evaluate(
    book: &[u8],
    scope: usize,
    inputs: &[u8],
    results: &mut [u8],
) -> Result<Answer, u8> {
    observed_evaluate(Overriding::FallsBack, book, scope, inputs, results, &())
}

/// What an override tree comes to.
#[derive(Clone, Copy, Debug)]
pub struct Override {
    /// Scopes entered from the one asked for down to the caller: 1 is the one asked for.
    pub depth: usize,
    /// Whether an override of the same call was empty before it.
    pub after_empty: bool,
    /// Whether its clauses are rules, which are never empty.
    pub rules: bool,
    pub result: Result<Value, Failure>,
}

/// Told of what an evaluation meets.
pub trait Observer {
    /// A failure, in each place that it is met in.
    fn fails(&self, _place: Place, _failure: Failure) {}

    fn overrides(&self, _override: Override) {}

    /// How an entered sub-scope ends of which an override was empty.
    fn falls_back(&self, _ended: Result<(), Failure>) {}
}

/// Observes nothing.
impl Observer for () {}

/// Evaluates under a meaning of empty overrides, told to an observer.
pub fn observed_evaluate(
    overriding: Overriding,
    book: &[u8],
    scope: usize,
    inputs: &[u8],
    results: &mut [u8],
    observer: &impl Observer,
) -> Result<Answer, u8> {
    let book = Book::accept(book)?;
    let asked = book.scopes.get(scope).ok_or(Refusal::NoSuchScope)?;
    let mut slots = vec![None; asked.variables.len()];
    let length = prepare(&asked.variables, inputs, results.len(), &mut slots)?;
    let mut run = Evaluation::new(overriding, &book, slots, observer);
    let ended = run.enter(scope, 0, 1);
    let (outcome, length) = match ended {
        Ok(()) => {
            write_results(&run.slots, results);
            (Outcome::Values, length)
        }
        Err(failure) => (failure.into(), 0),
    };
    Ok(Answer {
        outcome,
        count: run.count,
        length,
    })
}

type Evaluated = Result<Value, Failure>;

/// The frame of an entered scope: first slot of its variables and of its sub-scopes'.
#[derive(Clone, Copy)]
struct Frame {
    scope: usize,
    own: usize,
    subscopes: usize,
    depth: usize,
}

/// A book with what its runs need, the slots of a run, and who is told of it.
pub(crate) struct Evaluation<'a, O> {
    overriding: Overriding,
    book: &'a Book,
    trees: Vec<Trees>,
    layouts: Vec<Layout>,
    pub(crate) slots: Vec<Option<Value>>,
    count: usize,
    observer: &'a O,
}

impl<'a, O: Observer> Evaluation<'a, O> {
    pub(crate) fn new(
        overriding: Overriding,
        book: &'a Book,
        slots: Vec<Option<Value>>,
        observer: &'a O,
    ) -> Self {
        let layout = |scope: &Scope| {
            let called = scope.subscopes.iter().map(|&s| usize::from(s));
            Layout::of(called.map(|s| book.scopes[s].variables.len()))
        };
        Evaluation {
            overriding,
            book,
            trees: book.scopes.iter().map(Trees::of).collect(),
            layouts: book.scopes.iter().map(layout).collect(),
            slots,
            count: 0,
            observer,
        }
    }

    /// Tells the observer of a failure met in a place.
    fn met<T>(&self, place: Place, result: Result<T, Failure>) -> Result<T, Failure> {
        result.inspect_err(|&failure| self.observer.fails(place, failure))
    }

    /// Runs a scope whose variables stand from `own` on, given ones filled in.
    pub(crate) fn enter(&mut self, scope: usize, own: usize, depth: usize) -> Result<(), Failure> {
        self.count += 1;
        let book = self.book;
        let frame = Frame {
            scope,
            own,
            subscopes: self.slots.len(),
            depth,
        };
        let size = self.layouts[scope].size;
        self.slots.resize(frame.subscopes + size, None);
        for step in &book.steps[scope] {
            match *step {
                Step::Variable(v) => self.variable(frame, v)?,
                Step::Call(k) => self.call(frame, k)?,
            }
        }
        self.slots.truncate(frame.subscopes);
        Ok(())
    }

    /// "A given variable takes the given value and its tree is not evaluated."
    fn variable(&mut self, frame: Frame, variable: usize) -> Result<(), Failure> {
        let slot = frame.own + variable;
        if self.slots[slot].is_none() {
            let scope = &self.book.scopes[frame.scope];
            let tree = self.trees[frame.scope].own_tree(scope, variable);
            self.slots[slot] = Some(self.part(frame, tree)?);
        }
        Ok(())
    }

    /// "A call evaluates its override trees in variable order, hands over those
    /// values and enters."
    fn call(&mut self, frame: Frame, subscope: usize) -> Result<(), Failure> {
        let scope = &self.book.scopes[frame.scope];
        let callee = usize::from(scope.subscopes[subscope]);
        let own = frame.subscopes + self.layouts[frame.scope].offsets[subscope];
        let mut empty = false;
        for variable in 0..self.book.scopes[callee].variables.len() {
            let target = Target {
                subscope: subscope as u8,
                variable: variable as u8,
            };
            if let Some(tree) = self.trees[frame.scope].tree(scope, target) {
                let value = self.handed(frame, tree, empty)?;
                empty |= value.is_none();
                self.slots[own + variable] = value;
            }
        }
        let entered = self.enter(callee, own, frame.depth + 1);
        if empty {
            self.observer.falls_back(entered);
        }
        self.met(Place::Call, entered)
    }

    /// What an override tree hands over: its value, or nothing if it is empty.
    fn handed(
        &self,
        frame: Frame,
        tree: Part,
        after_empty: bool,
    ) -> Result<Option<Value>, Failure> {
        let result = self.met(Place::Override, self.part(frame, tree));
        self.observer.overrides(Override {
            depth: frame.depth,
            after_empty,
            rules: matches!(tree, Part::Bases { rules: true, .. }),
            result,
        });
        match (result, self.overriding) {
            (Err(Failure::Empty), Overriding::FallsBack) => Ok(None),
            _ => result.map(Some),
        }
    }

    fn part(&self, frame: Frame, part: Part) -> Evaluated {
        match part {
            Part::Empty => Err(Failure::Empty),
            Part::Constant(yes) => Ok(Value::YesNo(yes)),
            Part::Node(node) => self.node(frame, node),
            Part::Clause(number) => {
                let clause = &self.book.scopes[frame.scope].clauses[usize::from(number)];
                let trees = &self.trees[frame.scope];
                self.term(frame, trees.clause_term(number, clause))
            }
            Part::Bases { first, rules } => {
                let trees = &self.trees[frame.scope];
                self.term(frame, trees.bases_term(first, rules))
            }
        }
    }

    /// "A default term evaluates every exception, left to right. The first that is
    /// conflict or out of range", on either side, "is the result. Else two or more that
    /// are not empty give conflict, equal values included; exactly one is the result."
    fn term(&self, frame: Frame, term: Term) -> Evaluated {
        let mut found = None;
        let mut several = false;
        for exception in term.exceptions {
            let place = match exception {
                Part::Node(_) => Place::NodeException,
                _ => Place::ClauseException,
            };
            match self.met(place, self.part(frame, exception)) {
                Ok(value) => several |= found.replace(value).is_some(),
                Err(Failure::Empty) => {}
                Err(failure) => return Err(failure),
            }
        }
        if several {
            return Err(Failure::Conflict);
        }
        if let Some(value) = found {
            return Ok(value);
        }
        if self.part(frame, term.justification)? == Value::YesNo(true) {
            self.part(frame, term.consequence)
        } else {
            Err(Failure::Empty)
        }
    }

    fn node(&self, frame: Frame, number: u8) -> Evaluated {
        match &self.book.scopes[frame.scope].nodes[usize::from(number)] {
            &Node::Constant(yes) => Ok(Value::YesNo(yes)),
            &Node::Number(n) => Ok(Value::Number(n)),
            &Node::Own(v) => self.read(NONE, frame, v),
            &Node::Subscope(k, v) => self.read(k, frame, v),
            Node::Empty(_) => Err(Failure::Empty),
            Node::Conflict(_) => Err(Failure::Conflict),
            &Node::Unary(kind, a) => self.operated(kind, unary(kind, self.node(frame, a)?)),
            &Node::Binary(kind, a, b) => {
                let left = self.node(frame, a)?;
                let result = binary(kind, left, self.node(frame, b)?);
                self.operated(kind, result)
            }
            &Node::If(condition, then, other) => {
                let yes = self.node(frame, condition)? == Value::YesNo(true);
                self.node(frame, if yes { then } else { other })
            }
            Node::Default(exceptions, j, c) => self.term(frame, node_term(exceptions, *j, *c)),
        }
    }

    /// The order of steps sees to it that a value read is there.
    fn read(&self, subscope: u8, frame: Frame, variable: u8) -> Evaluated {
        let first = match subscope {
            NONE => frame.own,
            k => frame.subscopes + self.layouts[frame.scope].offsets[usize::from(k)],
        };
        let value = self.slots[first + usize::from(variable)];
        Ok(value.expect("the order of steps puts a value before its reads"))
    }

    /// Operands were typed when the book was accepted.
    fn operated(&self, kind: u8, result: Result<Value, OperationError>) -> Evaluated {
        let result = result.map_err(|error| error.failure().expect("operands are typed"));
        self.met(Place::operator(kind), result)
    }
}
