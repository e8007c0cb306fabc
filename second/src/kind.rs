//! Record kinds: "The kind alone decides how many bytes follow."

pub const SCOPE: u8 = 1;
pub const VARIABLE: u8 = 2;
pub const SUBSCOPE: u8 = 3;
pub const CONSTANT: u8 = 4;
pub const NUMBER: u8 = 5;
pub const OWN_VARIABLE: u8 = 6;
pub const SUBSCOPE_VARIABLE: u8 = 7;
pub const EMPTY: u8 = 8;
pub const CONFLICT: u8 = 9;
pub const NOT: u8 = 10;
pub const NEGATE: u8 = 11;
pub const AND: u8 = 12;
pub const ADD: u8 = 13;
pub const SUBTRACT: u8 = 14;
pub const EQUAL: u8 = 15;
pub const LESS: u8 = 16;
pub const IF: u8 = 17;
pub const DEFAULT: u8 = 18;
pub const DEFINITION: u8 = 19;
pub const RULE: u8 = 20;

pub const RAISE_EMPTY: u8 = 32;
pub const RAISE_CONFLICT: u8 = 33;
pub const JUMP: u8 = 34;
pub const JUMP_IF_NO: u8 = 35;
pub const TRY: u8 = 36;
pub const END_TRY: u8 = 37;
pub const PUSH_NOTHING: u8 = 38;
pub const JOIN: u8 = 39;
pub const SETTLE: u8 = 40;
pub const STORE: u8 = 41;
pub const OVERRIDE: u8 = 42;
pub const ENTER: u8 = 43;
pub const JUMP_IF_GIVEN: u8 = 44;

/// The byte for "none", "own" or "always", where the table prints it.
pub const NONE: u8 = 255;

/// Stages within a scope or block, in the order they may occur.
#[derive(Clone, Copy, Debug, PartialEq, Eq, PartialOrd, Ord)]
pub enum Stage {
    Scope,
    Variables,
    Subscopes,
    /// Nodes of a book, instructions of code.
    Nodes,
    Clauses,
}

/// Length of the body and stage of a record.
#[derive(Clone, Copy)]
pub struct Shape {
    pub length: usize,
    pub stage: Stage,
}

fn shape(length: usize, stage: Stage) -> Option<Shape> {
    Some(Shape { length, stage })
}

/// Shape of a book record, or nothing for an unknown kind.
pub fn book_shape(kind: u8) -> Option<Shape> {
    match kind {
        SCOPE => shape(0, Stage::Scope),
        VARIABLE => shape(1, Stage::Variables),
        SUBSCOPE => shape(1, Stage::Subscopes),
        CONSTANT | OWN_VARIABLE | EMPTY..=NEGATE => shape(1, Stage::Nodes),
        NUMBER => shape(4, Stage::Nodes),
        SUBSCOPE_VARIABLE | AND..=LESS => shape(2, Stage::Nodes),
        IF => shape(3, Stage::Nodes),
        DEFAULT => shape(5, Stage::Nodes),
        DEFINITION | RULE => shape(5, Stage::Clauses),
        _ => None,
    }
}

/// Shape of a code record, or nothing for an unknown kind.
pub fn code_shape(kind: u8) -> Option<Shape> {
    match kind {
        SCOPE => shape(1, Stage::Scope),
        VARIABLE | SUBSCOPE | CONSTANT..=SUBSCOPE_VARIABLE => book_shape(kind),
        NOT..=LESS | RAISE_EMPTY | RAISE_CONFLICT => shape(0, Stage::Nodes),
        END_TRY | PUSH_NOTHING | JOIN => shape(0, Stage::Nodes),
        STORE | ENTER => shape(1, Stage::Nodes),
        JUMP | JUMP_IF_NO | TRY | SETTLE | OVERRIDE => shape(2, Stage::Nodes),
        JUMP_IF_GIVEN => shape(3, Stage::Nodes),
        _ => None,
    }
}
