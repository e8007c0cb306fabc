//! Accepting code: blocks, and the causes of refusal 16.

use crate::decode::{MAX_SCOPES, MAX_SUBSCOPES, MAX_VARIABLES};
use crate::kind::{self, Stage};
use crate::layout::Layout;
use crate::reader::{Record, Records};
use crate::refusal::Refusal;
use crate::scope_order::MAX_WEIGHT;
use crate::value::{yes_no, Type};

/// Why code is not accepted. All of these are refusal 16.
#[derive(Clone, Copy, Debug, PartialEq, Eq, PartialOrd, Ord)]
pub enum CodeFault {
    Truncated,
    UnknownKind,
    OutOfOrder,
    TooManyVariables,
    TooManySubscopes,
    InvalidType,
    InvalidConstant,
    RepeatedScope,
    ScopeNumberTooHigh,
    NoEarlierBlock,
    WeightExceeded,
    NoSuchVariable(u8),
    NoSuchSubscope(u8),
    NoSuchSubscopeVariable(u8),
    BadDistance(u8),
}

/// The block of one scope.
#[derive(Debug)]
pub struct Block {
    pub number: u8,
    pub variables: Vec<Type>,
    /// Sub-scopes, as places in the list of blocks.
    pub subscopes: Vec<usize>,
    /// First instruction and end.
    pub start: usize,
    pub end: usize,
    pub weight: usize,
    pub layout: Layout,
}

/// Accepted code.
pub struct Code<'a> {
    pub bytes: &'a [u8],
    pub blocks: Vec<Block>,
}

impl Code<'_> {
    /// The place of the block with a scope number.
    pub fn find(&self, scope: usize) -> Option<usize> {
        let mut blocks = self.blocks.iter();
        blocks.position(|block| usize::from(block.number) == scope)
    }
}

/// Judges code, all of it, in one pass.
pub fn accept(bytes: &[u8]) -> Result<Code<'_>, CodeFault> {
    let mut judge = Judge {
        blocks: Vec::new(),
        starts: vec![0; bytes.len() / 64 + 1],
        landings: Vec::new(),
    };
    let mut records = Records::of_code(bytes);
    while let Some(record) = records.read().map_err(record_fault)? {
        judge.record(&record)?;
    }
    judge.close(bytes.len())?;
    Ok(Code {
        bytes,
        blocks: judge.blocks,
    })
}

fn record_fault(refusal: Refusal) -> CodeFault {
    match refusal {
        Refusal::UnknownKind => CodeFault::UnknownKind,
        Refusal::Truncated => CodeFault::Truncated,
        _ => CodeFault::OutOfOrder,
    }
}

/// Where a distance is read from an instruction at `start`: the landing.
pub fn landing(start: usize, body: &[u8]) -> usize {
    let end = start + 1 + body.len();
    let tail = &body[body.len() - 2..];
    end + usize::from(u16::from_be_bytes([tail[0], tail[1]]))
}

struct Judge {
    blocks: Vec<Block>,
    /// One bit for each byte that begins an instruction.
    starts: Vec<u64>,
    /// Kind and landing of each distance in the block being read.
    landings: Vec<(u8, usize)>,
}

impl Judge {
    fn record(&mut self, record: &Record) -> Result<(), CodeFault> {
        if record.stage == Stage::Scope {
            self.close(record.start)?;
            return self.open(record);
        }
        match record.stage {
            Stage::Variables => self.variable(record.body[0]),
            Stage::Subscopes => self.subscope(record.body[0]),
            _ => self.instruction(record),
        }?;
        if record.stage != Stage::Nodes {
            self.block().start = record.start + 1 + record.body.len();
        }
        Ok(())
    }

    /// Only called behind a kind 1.
    fn block(&mut self) -> &mut Block {
        self.blocks.last_mut().expect("a block is open")
    }

    /// "A repeated scope or one above 31".
    fn open(&mut self, record: &Record) -> Result<(), CodeFault> {
        let number = record.body[0];
        if usize::from(number) >= MAX_SCOPES {
            return Err(CodeFault::ScopeNumberTooHigh);
        }
        if self.blocks.iter().any(|block| block.number == number) {
            return Err(CodeFault::RepeatedScope);
        }
        self.blocks.push(Block {
            number,
            variables: Vec::new(),
            subscopes: Vec::new(),
            start: record.start + 2,
            end: record.start + 2,
            weight: 1,
            layout: Layout::default(),
        });
        Ok(())
    }

    /// Ends the block being read: every distance is "at an instruction or end of its
    /// block". Instructions begin only before `end`, and after the landing's own.
    fn close(&mut self, end: usize) -> Result<(), CodeFault> {
        let starts = &self.starts;
        let lands = |at: usize| at == end || (at < end && starts[at / 64] >> (at % 64) & 1 == 1);
        if let Some(&(kind, _)) = self.landings.iter().find(|&&(_, at)| !lands(at)) {
            return Err(CodeFault::BadDistance(kind));
        }
        self.landings.clear();
        let Some((block, earlier)) = self.blocks.split_last_mut() else {
            return Ok(());
        };
        block.end = end;
        let lengths = block.subscopes.iter().map(|&b| earlier[b].variables.len());
        block.layout = Layout::of(lengths);
        Ok(())
    }

    fn variable(&mut self, byte: u8) -> Result<(), CodeFault> {
        let block = self.block();
        if block.variables.len() == MAX_VARIABLES {
            return Err(CodeFault::TooManyVariables);
        }
        let of = Type::from_byte(byte).ok_or(CodeFault::InvalidType)?;
        block.variables.push(of);
        Ok(())
    }

    /// "A sub-scope without an earlier block"; every kind 3 counts for the weight.
    fn subscope(&mut self, number: u8) -> Result<(), CodeFault> {
        if self.block().subscopes.len() == MAX_SUBSCOPES {
            return Err(CodeFault::TooManySubscopes);
        }
        let (_, earlier) = self.blocks.split_last().expect("a block is open");
        let named = earlier.iter().position(|block| block.number == number);
        let named = named.ok_or(CodeFault::NoEarlierBlock)?;
        let weight = earlier[named].weight;
        let block = self.block();
        block.subscopes.push(named);
        block.weight += weight;
        if block.weight > MAX_WEIGHT {
            return Err(CodeFault::WeightExceeded);
        }
        Ok(())
    }

    fn instruction(&mut self, record: &Record) -> Result<(), CodeFault> {
        let (kind, body) = (record.kind, record.body);
        self.starts[record.start / 64] |= 1 << (record.start % 64);
        match kind {
            kind::CONSTANT => {
                yes_no(body[0]).ok_or(CodeFault::InvalidConstant)?;
            }
            kind::OWN_VARIABLE | kind::STORE => self.check_variable(kind, body[0])?,
            kind::SUBSCOPE_VARIABLE | kind::OVERRIDE => {
                self.check_subscope(kind, body[0])?;
                self.check_subscope_variable(kind, body[0], body[1])?;
            }
            kind::ENTER => self.check_subscope(kind, body[0])?,
            kind::JUMP_IF_GIVEN => {
                self.check_variable(kind, body[0])?;
                self.landings.push((kind, landing(record.start, body)));
            }
            kind::JUMP | kind::JUMP_IF_NO | kind::TRY | kind::SETTLE => {
                self.landings.push((kind, landing(record.start, body)));
            }
            _ => {}
        }
        Ok(())
    }

    fn check_variable(&mut self, kind: u8, variable: u8) -> Result<(), CodeFault> {
        let named = usize::from(variable) < self.block().variables.len();
        named.then_some(()).ok_or(CodeFault::NoSuchVariable(kind))
    }

    fn check_subscope(&mut self, kind: u8, subscope: u8) -> Result<(), CodeFault> {
        let named = usize::from(subscope) < self.block().subscopes.len();
        named.then_some(()).ok_or(CodeFault::NoSuchSubscope(kind))
    }

    fn check_subscope_variable(&mut self, kind: u8, k: u8, v: u8) -> Result<(), CodeFault> {
        let callee = self.block().subscopes[usize::from(k)];
        let named = usize::from(v) < self.blocks[callee].variables.len();
        let fault = CodeFault::NoSuchSubscopeVariable(kind);
        named.then_some(()).ok_or(fault)
    }
}
