//! The stack machine that runs accepted code.

use crate::code::{landing, Block, Code};
use crate::kind;
use crate::value::{binary, number, unary, Failure, OperationError, Place, Value};

pub const MAX_STACK: usize = 1_024;
pub const MAX_TRIES: usize = 512;

/// Why an instruction, or the end of a block, cannot do its work.
#[derive(Clone, Copy, Debug, PartialEq, Eq, PartialOrd, Ord)]
pub enum StuckCause {
    TooFewEntries,
    OtherEntry,
    NoOpenTry,
    BelowTryHeight,
    ReadUnset,
    ReadNotEntered,
    StoreToGiven,
    SecondStore,
    SecondOverride,
    OverrideAfterEntry,
    SecondEntry,
    StackOverflow,
    TryOverflow,
    VariableLeftUnset,
    SubscopeNotEntered,
}

/// A cause and the kind of the instruction, 0 at the end of a block.
#[derive(Clone, Copy, Debug, PartialEq, Eq, PartialOrd, Ord)]
pub struct Stuck {
    pub cause: StuckCause,
    pub kind: u8,
}

/// Why a run ends before its values are there.
#[derive(Clone, Copy, Debug, PartialEq, Eq)]
pub enum Halt {
    Failed(Failure),
    Stuck(Stuck),
}

/// What kind 39 may find on each side.
#[derive(Clone, Copy, Debug, PartialEq, Eq, PartialOrd, Ord)]
pub enum Side {
    Nothing,
    Value,
    Many,
}

/// "The nine cases of nothing, a value and many on each side", the left side first.
pub fn join_cases() -> impl Iterator<Item = (Side, Side)> {
    let sides = [Side::Nothing, Side::Value, Side::Many];
    sides
        .into_iter()
        .flat_map(move |left| sides.map(|right| (left, right)))
}

/// Told of every instruction before it is done, of the case of every join, of every
/// operator that leaves the range, in an entered sub-scope as a call too, and of every empty
/// that a try catches: how many blocks are entered, and where in the code it lands.
pub trait Observer {
    fn executes(&mut self, kind: u8);
    fn joins(&mut self, case: (Side, Side));
    fn leaves(&mut self, place: Place, failure: Failure);
    fn catches(&mut self, depth: usize, code: &[u8], landing: usize);
}

/// Observes nothing.
impl Observer for () {
    fn executes(&mut self, _kind: u8) {}
    fn joins(&mut self, _case: (Side, Side)) {}
    fn leaves(&mut self, _place: Place, _failure: Failure) {}
    fn catches(&mut self, _depth: usize, _code: &[u8], _landing: usize) {}
}

/// An entry of the stack.
#[derive(Clone, Copy, Debug, PartialEq, Eq)]
enum Entry {
    Value(Value),
    Nothing,
    Many,
}

impl Entry {
    fn side(self) -> Side {
        match self {
            Entry::Value(_) => Side::Value,
            Entry::Nothing => Side::Nothing,
            Entry::Many => Side::Many,
        }
    }
}

/// An open try: where it lands and the stack height it keeps.
#[derive(Clone, Copy)]
struct Try {
    landing: usize,
    height: usize,
}

/// An entered block. Slots of its variables begin at `own`, those of its
/// sub-scopes' variables at `subscopes`; bits tell what is given and entered.
#[derive(Clone, Copy)]
struct Frame {
    block: usize,
    position: usize,
    own: usize,
    subscopes: usize,
    stack: usize,
    tries: usize,
    given: u32,
    entered: u8,
}

pub struct Machine<'a, O> {
    code: &'a Code<'a>,
    observer: O,
    frame: Frame,
    callers: Vec<Frame>,
    slots: Vec<Option<Value>>,
    stack: Vec<Entry>,
    tries: Vec<Try>,
    pub count: usize,
    /// Kind of the present instruction, 0 at a block's end.
    kind: u8,
}

impl<'a, O: Observer> Machine<'a, O> {
    /// A machine about to enter a block with its given variables in `slots`.
    pub fn new(code: &'a Code<'a>, block: usize, slots: Vec<Option<Value>>, observer: O) -> Self {
        let frame = Frame {
            block,
            position: 0,
            own: 0,
            subscopes: 0,
            stack: 0,
            tries: 0,
            given: 0,
            entered: 0,
        };
        let mut machine = Machine {
            code,
            observer,
            frame,
            callers: Vec::new(),
            slots,
            stack: Vec::new(),
            tries: Vec::new(),
            count: 0,
            kind: 0,
        };
        machine.begin(block, 0);
        machine
    }

    /// Values of the block asked for, once the run has ended.
    pub fn values(&self) -> &[Option<Value>] {
        &self.slots
    }

    /// Runs to the end of the block asked for.
    pub fn run(&mut self) -> Result<(), Halt> {
        loop {
            if self.frame.position < self.block().end {
                self.instruction()?;
                continue;
            }
            self.end()?;
            match self.callers.pop() {
                Some(caller) => self.frame = caller,
                None => return Ok(()),
            }
        }
    }

    fn block(&self) -> &'a Block {
        &self.code.blocks[self.frame.block]
    }

    fn stuck<T>(&self, cause: StuckCause) -> Result<T, Halt> {
        let kind = self.kind;
        Err(Halt::Stuck(Stuck { cause, kind }))
    }

    /// "An entered block starts with an empty stack and no open try."
    fn begin(&mut self, block: usize, own: usize) {
        self.count += 1;
        let entered = &self.code.blocks[block];
        let variables = &self.slots[own..own + entered.variables.len()];
        let bits = variables.iter().enumerate();
        let given = bits.map(|(v, slot)| u32::from(slot.is_some()) << v).sum();
        self.frame = Frame {
            block,
            position: entered.start,
            own,
            subscopes: self.slots.len(),
            stack: self.stack.len(),
            tries: self.tries.len(),
            given,
            entered: 0,
        };
        let size = self.slots.len() + entered.layout.size;
        self.slots.resize(size, None);
    }

    /// "A block's end with a variable neither given nor stored or a sub-scope not
    /// entered" is stuck; what is left on stack and tries is dropped.
    fn end(&mut self) -> Result<(), Halt> {
        self.kind = 0;
        let block = self.block();
        let frame = self.frame;
        let variables = &self.slots[frame.own..frame.own + block.variables.len()];
        if variables.iter().any(Option::is_none) {
            return self.stuck(StuckCause::VariableLeftUnset);
        }
        if frame.entered.count_ones() as usize != block.subscopes.len() {
            return self.stuck(StuckCause::SubscopeNotEntered);
        }
        self.slots.truncate(frame.subscopes);
        self.stack.truncate(frame.stack);
        self.tries.truncate(frame.tries);
        Ok(())
    }

    /// Does the instruction at the present position.
    fn instruction(&mut self) -> Result<(), Halt> {
        let code = self.code.bytes;
        let start = self.frame.position;
        let kind = code[start];
        self.kind = kind;
        self.observer.executes(kind);
        let length = kind::code_shape(kind).map_or(0, |shape| shape.length);
        let body = &code[start + 1..start + 1 + length];
        self.frame.position = start + 1 + length;
        match kind {
            kind::CONSTANT => self.push(Entry::Value(Value::YesNo(body[0] == 1))),
            kind::NUMBER => self.push(Entry::Value(Value::Number(number(body)))),
            kind::OWN_VARIABLE => self.read(body[0]),
            kind::SUBSCOPE_VARIABLE => self.read_subscope(body[0], body[1]),
            kind::NOT | kind::NEGATE => self.unary(kind),
            kind::AND..=kind::LESS => self.binary(kind),
            kind::PUSH_NOTHING => self.push(Entry::Nothing),
            kind::JOIN => self.join(),
            kind::STORE => self.store(body[0]),
            kind::OVERRIDE => self.override_variable(body[0], body[1]),
            kind::ENTER => self.enter(body[0]),
            _ => self.control(kind, start, body),
        }
    }

    /// Raises, tries and jumps.
    fn control(&mut self, kind: u8, start: usize, body: &[u8]) -> Result<(), Halt> {
        match kind {
            kind::RAISE_EMPTY => self.raise_empty(start),
            kind::RAISE_CONFLICT => Err(Halt::Failed(Failure::Conflict)),
            kind::END_TRY => self.end_try(),
            kind::TRY => self.open_try(landing(start, body)),
            kind::JUMP => {
                self.frame.position = landing(start, body);
                Ok(())
            }
            kind::JUMP_IF_NO => self.jump_if_no(landing(start, body)),
            kind::SETTLE => self.settle(landing(start, body)),
            _ => {
                if self.frame.given >> body[0] & 1 == 1 {
                    self.frame.position = landing(start, body);
                }
                Ok(())
            }
        }
    }

    fn push(&mut self, entry: Entry) -> Result<(), Halt> {
        if self.stack.len() - self.frame.stack == MAX_STACK {
            return self.stuck(StuckCause::StackOverflow);
        }
        self.stack.push(entry);
        Ok(())
    }

    fn take(&mut self) -> Result<Entry, Halt> {
        if self.stack.len() == self.frame.stack {
            return self.stuck(StuckCause::TooFewEntries);
        }
        match self.stack.pop() {
            Some(entry) => Ok(entry),
            None => self.stuck(StuckCause::TooFewEntries),
        }
    }

    fn value(&self, entry: Entry) -> Result<Value, Halt> {
        match entry {
            Entry::Value(value) => Ok(value),
            _ => self.stuck(StuckCause::OtherEntry),
        }
    }

    fn result(&mut self, result: Result<Value, OperationError>) -> Result<(), Halt> {
        match result.map_err(OperationError::failure) {
            Ok(value) => self.push(Entry::Value(value)),
            Err(Some(failure)) => self.leave(failure),
            Err(None) => self.stuck(StuckCause::OtherEntry),
        }
    }

    fn leave(&mut self, failure: Failure) -> Result<(), Halt> {
        self.observer.leaves(Place::operator(self.kind), failure);
        if !self.callers.is_empty() {
            self.observer.leaves(Place::Call, failure);
        }
        Err(Halt::Failed(failure))
    }

    fn unary(&mut self, kind: u8) -> Result<(), Halt> {
        let entry = self.take()?;
        let operand = self.value(entry)?;
        self.result(unary(kind, operand))
    }

    /// "The right operand on top."
    fn binary(&mut self, kind: u8) -> Result<(), Halt> {
        let right = self.take()?;
        let left = self.take()?;
        let (left, right) = (self.value(left)?, self.value(right)?);
        self.result(binary(kind, left, right))
    }

    /// "Nothing with a gives a; two values, or many with anything, give many."
    fn join(&mut self) -> Result<(), Halt> {
        let right = self.take()?;
        let left = self.take()?;
        self.observer.joins((left.side(), right.side()));
        self.push(match (left, right) {
            (Entry::Nothing, other) | (other, Entry::Nothing) => other,
            _ => Entry::Many,
        })
    }

    /// "Many raises conflict; a value stays and jumps; nothing is removed."
    fn settle(&mut self, landing: usize) -> Result<(), Halt> {
        match self.take()? {
            Entry::Many => Err(Halt::Failed(Failure::Conflict)),
            Entry::Nothing => Ok(()),
            value => {
                self.frame.position = landing;
                self.push(value)
            }
        }
    }

    fn jump_if_no(&mut self, landing: usize) -> Result<(), Halt> {
        match self.take()? {
            Entry::Value(Value::YesNo(true)) => Ok(()),
            Entry::Value(Value::YesNo(false)) => {
                self.frame.position = landing;
                Ok(())
            }
            _ => self.stuck(StuckCause::OtherEntry),
        }
    }

    fn open_try(&mut self, landing: usize) -> Result<(), Halt> {
        if self.tries.len() - self.frame.tries == MAX_TRIES {
            return self.stuck(StuckCause::TryOverflow);
        }
        let height = self.stack.len();
        self.tries.push(Try { landing, height });
        Ok(())
    }

    fn end_try(&mut self) -> Result<(), Halt> {
        if self.tries.len() == self.frame.tries {
            return self.stuck(StuckCause::NoOpenTry);
        }
        self.tries.pop();
        Ok(())
    }

    /// "Empty goes to the latest open try of the same block that lands further on than
    /// the raise, closing it and those opened after it and cutting the stack to its
    /// height; without one it ends the run."
    fn raise_empty(&mut self, start: usize) -> Result<(), Halt> {
        let open = &self.tries[self.frame.tries..];
        let Some(latest) = open.iter().rposition(|one| one.landing > start) else {
            return Err(Halt::Failed(Failure::Empty));
        };
        let caught = open[latest];
        if self.stack.len() < caught.height {
            return self.stuck(StuckCause::BelowTryHeight);
        }
        self.tries.truncate(self.frame.tries + latest);
        self.stack.truncate(caught.height);
        self.frame.position = caught.landing;
        let (depth, code) = (self.callers.len() + 1, self.code.bytes);
        self.observer.catches(depth, code, caught.landing);
        Ok(())
    }

    fn read(&mut self, variable: u8) -> Result<(), Halt> {
        match self.slots[self.frame.own + usize::from(variable)] {
            Some(value) => self.push(Entry::Value(value)),
            None => self.stuck(StuckCause::ReadUnset),
        }
    }

    /// First slot of a sub-scope's variables.
    fn subscope_slots(&self, subscope: u8) -> usize {
        self.frame.subscopes + self.block().layout.offsets[usize::from(subscope)]
    }

    fn is_entered(&self, subscope: u8) -> bool {
        self.frame.entered >> subscope & 1 == 1
    }

    fn read_subscope(&mut self, subscope: u8, variable: u8) -> Result<(), Halt> {
        let slot = self.subscope_slots(subscope) + usize::from(variable);
        match self.slots[slot] {
            Some(value) if self.is_entered(subscope) => self.push(Entry::Value(value)),
            _ => self.stuck(StuckCause::ReadNotEntered),
        }
    }

    /// Takes the value a store of `variable` in `block` wants.
    fn take_for(&mut self, block: &Block, variable: u8) -> Result<Value, Halt> {
        let entry = self.take()?;
        let value = self.value(entry)?;
        if value.kind() != block.variables[usize::from(variable)] {
            return self.stuck(StuckCause::OtherEntry);
        }
        Ok(value)
    }

    fn store(&mut self, variable: u8) -> Result<(), Halt> {
        let slot = self.frame.own + usize::from(variable);
        if self.frame.given >> variable & 1 == 1 {
            return self.stuck(StuckCause::StoreToGiven);
        }
        if self.slots[slot].is_some() {
            return self.stuck(StuckCause::SecondStore);
        }
        let value = self.take_for(self.block(), variable)?;
        self.slots[slot] = Some(value);
        Ok(())
    }

    fn override_variable(&mut self, subscope: u8, variable: u8) -> Result<(), Halt> {
        let slot = self.subscope_slots(subscope) + usize::from(variable);
        if self.is_entered(subscope) {
            return self.stuck(StuckCause::OverrideAfterEntry);
        }
        if self.slots[slot].is_some() {
            return self.stuck(StuckCause::SecondOverride);
        }
        let callee = self.block().subscopes[usize::from(subscope)];
        let value = self.take_for(&self.code.blocks[callee], variable)?;
        self.slots[slot] = Some(value);
        Ok(())
    }

    fn enter(&mut self, subscope: u8) -> Result<(), Halt> {
        if self.is_entered(subscope) {
            return self.stuck(StuckCause::SecondEntry);
        }
        self.frame.entered |= 1 << subscope;
        let callee = self.block().subscopes[usize::from(subscope)];
        let own = self.subscope_slots(subscope);
        self.callers.push(self.frame);
        self.begin(callee, own);
        Ok(())
    }
}
