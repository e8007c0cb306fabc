//! Running accepted code by definition: each entry is a call of its own, with its own
//! variables, stack and tries, and nothing is shared between entries.

use crate::answer::Outcome;

/// How an entry ends without values.
#[derive(Clone, Copy, Debug, PartialEq, Eq)]
pub enum End {
    Outcome(Outcome),
    Stuck,
}

type Step<T> = Result<T, End>;

/// 1 yes/no, 2 number, with its value; or nothing; or many.
#[derive(Clone, Copy, PartialEq)]
enum Entry {
    Value(u8, i64),
    Nothing,
    Many,
}

/// The bytes of a block from its kind 1 on, split into records.
struct Block {
    number: u8,
    types: Vec<u8>,
    callees: Vec<u8>,
    /// Offset and bytes of each instruction.
    instructions: Vec<(usize, Vec<u8>)>,
    end: usize,
}

/// All blocks of accepted code, and the count of entries.
pub struct Blocks {
    blocks: Vec<Block>,
    pub count: usize,
}

pub(super) fn length(kind: u8) -> usize {
    match kind {
        1..=4 | 6 | 41 | 43 => 2,
        7 | 34..=36 | 40 | 42 => 3,
        44 => 4,
        5 => 5,
        _ => 1,
    }
}

/// One entry of a block.
struct Entered {
    given: Vec<bool>,
    own: Vec<Option<(u8, i64)>>,
    handed: Vec<Vec<Option<(u8, i64)>>>,
    called: Vec<Option<Vec<(u8, i64)>>>,
    stack: Vec<Entry>,
    tries: Vec<(usize, usize)>,
    position: usize,
}

impl Blocks {
    pub fn of(code: &[u8]) -> Blocks {
        let mut blocks: Vec<Block> = Vec::new();
        let mut at = 0;
        while at < code.len() {
            let record = &code[at..at + length(code[at])];
            if record[0] == 1 {
                blocks.push(Block {
                    number: record[1],
                    types: Vec::new(),
                    callees: Vec::new(),
                    instructions: Vec::new(),
                    end: 0,
                });
            }
            if let Some(block) = blocks.last_mut() {
                match record[0] {
                    1 => {}
                    2 => block.types.push(record[1]),
                    3 => block.callees.push(record[1]),
                    _ => block.instructions.push((at, record.to_vec())),
                }
                at += record.len();
                block.end = at;
            }
        }
        Blocks { blocks, count: 0 }
    }

    fn find(&self, number: u8) -> Option<usize> {
        self.blocks.iter().position(|block| block.number == number)
    }

    /// Types of a scope's variables.
    pub fn types(&self, number: u8) -> Option<&[u8]> {
        self.find(number).map(|at| &self.blocks[at].types[..])
    }

    /// Enters a scope with some variables given; hands back type and value of all.
    pub fn enter(&mut self, number: u8, given: Vec<Option<(u8, i64)>>) -> Step<Vec<(u8, i64)>> {
        let at = self.find(number).ok_or(End::Stuck)?;
        self.count += 1;
        let mut entered = self.begin(at, given);
        let first = self.blocks[at].instructions.first();
        entered.position = first.map_or(self.blocks[at].end, |(start, _)| *start);
        while entered.position < self.blocks[at].end {
            let present = |(start, _): &&(usize, Vec<u8>)| *start == entered.position;
            let found = self.blocks[at].instructions.iter().find(present);
            let (start, record) = found.cloned().ok_or(End::Stuck)?;
            entered.position = start + record.len();
            match record[0] {
                43 => self.call(at, &mut entered, usize::from(record[1]))?,
                42 => self.hand(at, &mut entered, &record)?,
                _ => entered.execute(&self.blocks[at].types, start, &record)?,
            }
        }
        if entered.called.iter().any(Option::is_none) {
            return Err(End::Stuck);
        }
        let own: Option<Vec<(u8, i64)>> = entered.own.into_iter().collect();
        own.ok_or(End::Stuck)
    }

    fn begin(&self, at: usize, given: Vec<Option<(u8, i64)>>) -> Entered {
        let callees = self.blocks[at].callees.iter();
        let handed = callees.map(|&n| vec![None; self.types(n).map_or(0, <[u8]>::len)]);
        Entered {
            given: given.iter().map(Option::is_some).collect(),
            own: given,
            handed: handed.collect(),
            called: vec![None; self.blocks[at].callees.len()],
            stack: Vec::new(),
            tries: Vec::new(),
            position: 0,
        }
    }

    fn call(&mut self, at: usize, entered: &mut Entered, k: usize) -> Step<()> {
        if entered.called[k].is_some() {
            return Err(End::Stuck);
        }
        let number = self.blocks[at].callees[k];
        let values = self.enter(number, entered.handed[k].clone())?;
        entered.called[k] = Some(values);
        Ok(())
    }

    /// Kind 42.
    fn hand(&mut self, at: usize, entered: &mut Entered, record: &[u8]) -> Step<()> {
        let (k, v) = (usize::from(record[1]), usize::from(record[2]));
        let types = self.types(self.blocks[at].callees[k]).ok_or(End::Stuck)?;
        let value = entered.take_typed(types[v])?;
        if entered.called[k].is_some() || entered.handed[k][v].is_some() {
            return Err(End::Stuck);
        }
        entered.handed[k][v] = Some(value);
        Ok(())
    }
}

impl Entered {
    fn push(&mut self, entry: Entry) -> Step<()> {
        self.stack.push(entry);
        match self.stack.len() {
            0..=1_024 => Ok(()),
            _ => Err(End::Stuck),
        }
    }

    fn take(&mut self) -> Step<Entry> {
        self.stack.pop().ok_or(End::Stuck)
    }

    fn take_typed(&mut self, wanted: u8) -> Step<(u8, i64)> {
        match self.take()? {
            Entry::Value(of, value) if of == wanted => Ok((of, value)),
            _ => Err(End::Stuck),
        }
    }

    /// Everything but calls and overrides.
    fn execute(&mut self, types: &[u8], start: usize, record: &[u8]) -> Step<()> {
        let variable = record.get(1).map_or(0, |&v| usize::from(v));
        match record[0] {
            4 => self.push(Entry::Value(1, i64::from(record[1]))),
            5 => {
                let bytes = [record[1], record[2], record[3], record[4]];
                self.push(Entry::Value(2, i64::from(i32::from_be_bytes(bytes))))
            }
            6 => {
                let (of, value) = self.own[variable].ok_or(End::Stuck)?;
                self.push(Entry::Value(of, value))
            }
            7 => {
                let values = self.called[variable].as_ref().ok_or(End::Stuck)?;
                let (of, value) = values[usize::from(record[2])];
                self.push(Entry::Value(of, value))
            }
            41 => {
                let value = self.take_typed(types[variable])?;
                match self.own[variable].replace(value) {
                    None => Ok(()),
                    Some(_) => Err(End::Stuck),
                }
            }
            10..=16 => self.operate(record[0]),
            _ => self.control(start, record),
        }
    }

    fn operate(&mut self, kind: u8) -> Step<()> {
        let right = self.take()?;
        let left = match kind {
            10 | 11 => Entry::Value(2, 0),
            _ => self.take()?,
        };
        let (Entry::Value(a, left), Entry::Value(b, right)) = (left, right) else {
            return Err(End::Stuck);
        };
        let (of, value) = match (kind, a, b) {
            (10, _, 1) => (1, 1 - right),
            (12, 1, 1) => (1, left * right),
            (11 | 14, 2, 2) => (2, left - right),
            (13, 2, 2) => (2, left + right),
            (15, _, _) if a == b => (1, i64::from(left == right)),
            (16, 2, 2) => (1, i64::from(left < right)),
            _ => return Err(End::Stuck),
        };
        match (value < -2_147_483_648, value > 2_147_483_647) {
            (true, _) => Err(End::Outcome(Outcome::Below)),
            (_, true) => Err(End::Outcome(Outcome::Above)),
            _ => self.push(Entry::Value(of, value)),
        }
    }

    fn control(&mut self, start: usize, record: &[u8]) -> Step<()> {
        let tail = &record[record.len().max(2) - 2..];
        let distance = tail
            .iter()
            .fold(0, |all, &byte| all * 256 + usize::from(byte));
        let landing = start + record.len() + distance;
        match record[0] {
            32 => return self.raise(start),
            33 => return Err(End::Outcome(Outcome::Conflict)),
            34 => self.position = landing,
            35 if self.take_typed(1)?.1 == 0 => self.position = landing,
            35 => {}
            36 if self.tries.len() == 512 => return Err(End::Stuck),
            36 => self.tries.push((landing, self.stack.len())),
            37 if self.tries.pop().is_none() => return Err(End::Stuck),
            37 => {}
            38 => return self.push(Entry::Nothing),
            39 => return self.join(),
            40 => return self.settle(landing),
            _ if self.given[usize::from(record[1])] => self.position = landing,
            _ => {}
        }
        Ok(())
    }

    fn join(&mut self) -> Step<()> {
        let (right, left) = (self.take()?, self.take()?);
        let joined = match (left == Entry::Nothing, right == Entry::Nothing) {
            (true, _) => right,
            (_, true) => left,
            _ => Entry::Many,
        };
        self.push(joined)
    }

    fn settle(&mut self, landing: usize) -> Step<()> {
        match self.stack.last() {
            None => Err(End::Stuck),
            Some(Entry::Many) => Err(End::Outcome(Outcome::Conflict)),
            Some(Entry::Nothing) => self.take().map(|_| ()),
            Some(Entry::Value(..)) => {
                self.position = landing;
                Ok(())
            }
        }
    }

    /// Tries are asked from the latest on; those opened after the one that catches
    /// are closed with it.
    fn raise(&mut self, start: usize) -> Step<()> {
        while let Some((landing, height)) = self.tries.pop() {
            if landing <= start {
                continue;
            }
            if self.stack.len() < height {
                return Err(End::Stuck);
            }
            self.stack.truncate(height);
            self.position = landing;
            return Ok(());
        }
        Err(End::Outcome(Outcome::Empty))
    }
}
