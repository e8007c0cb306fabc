//! Reading records one after the other, with refusals 2, 1 and 3.

use crate::kind::{self, Shape, Stage};
use crate::refusal::Refusal;

/// One record: its kind and the part of the lent bytes after it.
pub struct Record<'a> {
    pub kind: u8,
    pub stage: Stage,
    pub start: usize,
    pub body: &'a [u8],
}

/// A run of records of a book or of code.
pub struct Records<'a> {
    bytes: &'a [u8],
    position: usize,
    stage: Option<Stage>,
    shape: fn(u8) -> Option<Shape>,
}

impl<'a> Records<'a> {
    pub fn of_book(bytes: &'a [u8]) -> Self {
        Records::new(bytes, kind::book_shape)
    }

    pub fn of_code(bytes: &'a [u8]) -> Self {
        Records::new(bytes, kind::code_shape)
    }

    fn new(bytes: &'a [u8], shape: fn(u8) -> Option<Shape>) -> Self {
        Records {
            bytes,
            position: 0,
            stage: None,
            shape,
        }
    }

    /// The next record, nothing at the end. "Per record 2, 1, 3".
    pub fn read(&mut self) -> Result<Option<Record<'a>>, Refusal> {
        let start = self.position;
        let Some(&kind) = self.bytes.get(start) else {
            return Ok(None);
        };
        let shape = (self.shape)(kind).ok_or(Refusal::UnknownKind)?;
        let rest = &self.bytes[start + 1..];
        let body = rest.get(..shape.length).ok_or(Refusal::Truncated)?;
        if !self.may_follow(shape.stage) {
            return Err(Refusal::OutOfOrder);
        }
        self.stage = Some(shape.stage);
        self.position = start + 1 + shape.length;
        Ok(Some(Record {
            kind,
            stage: shape.stage,
            start,
            body,
        }))
    }

    /// "Never back except by a new kind 1"; nothing before the first one.
    fn may_follow(&self, stage: Stage) -> bool {
        stage == Stage::Scope || self.stage.is_some_and(|last| last <= stage)
    }
}
