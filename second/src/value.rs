//! Types, values and the operations on them.

use crate::kind;

/// Type of a variable or node; the discriminant is its byte.
#[derive(Clone, Copy, Debug, PartialEq, Eq)]
pub enum Type {
    YesNo = 1,
    Number = 2,
}

impl Type {
    pub fn from_byte(byte: u8) -> Option<Type> {
        match byte {
            1 => Some(Type::YesNo),
            2 => Some(Type::Number),
            _ => None,
        }
    }
}

/// A yes/no or a number.
#[derive(Clone, Copy, Debug, PartialEq, Eq)]
pub enum Value {
    YesNo(bool),
    Number(i32),
}

impl Value {
    pub fn kind(self) -> Type {
        match self {
            Value::YesNo(_) => Type::YesNo,
            Value::Number(_) => Type::Number,
        }
    }
}

/// A yes/no from its byte, 0 or 1.
pub fn yes_no(byte: u8) -> Option<bool> {
    match byte {
        0 => Some(false),
        1 => Some(true),
        _ => None,
    }
}

/// "4 bytes, signed, two's complement, high byte first".
pub fn number(body: &[u8]) -> i32 {
    i32::from_be_bytes([body[0], body[1], body[2], body[3]])
}

/// Why a term has no value.
#[derive(Clone, Copy, Debug, PartialEq, Eq, PartialOrd, Ord)]
pub enum Failure {
    Empty,
    Conflict,
    Above,
    Below,
}

/// Where a failure is met on its way out: at the operator that gives it, or at an
/// exception, an override or a call that comes to it.
#[derive(Clone, Copy, Debug, PartialEq, Eq, PartialOrd, Ord)]
pub enum Place {
    Negate,
    Add,
    Subtract,
    ClauseException,
    NodeException,
    Override,
    Call,
}

impl Place {
    /// The operator of a kind that may leave the range.
    pub fn operator(kind: u8) -> Place {
        match kind {
            kind::NEGATE => Place::Negate,
            kind::ADD => Place::Add,
            _ => Place::Subtract,
        }
    }
}

/// Why an operation gives no value.
#[derive(Clone, Copy, Debug, PartialEq, Eq)]
pub enum OperationError {
    WrongType,
    Above,
    Below,
}

impl OperationError {
    /// What a term over the operation comes to; nothing for operands of a wrong type.
    pub fn failure(self) -> Option<Failure> {
        match self {
            OperationError::WrongType => None,
            OperationError::Above => Some(Failure::Above),
            OperationError::Below => Some(Failure::Below),
        }
    }
}

/// "Add, subtract and negate say above or below": on which side the exact result is.
fn in_range(exact: i64) -> Result<Value, OperationError> {
    let side = match exact.is_positive() {
        true => OperationError::Above,
        false => OperationError::Below,
    };
    i32::try_from(exact).map(Value::Number).map_err(|_| side)
}

/// Kinds 10 and 11.
pub fn unary(kind: u8, operand: Value) -> Result<Value, OperationError> {
    match (kind, operand) {
        (kind::NOT, Value::YesNo(a)) => Ok(Value::YesNo(!a)),
        (kind::NEGATE, Value::Number(a)) => in_range(-i64::from(a)),
        _ => Err(OperationError::WrongType),
    }
}

/// Kinds 12 to 16.
pub fn binary(kind: u8, left: Value, right: Value) -> Result<Value, OperationError> {
    use Value::{Number, YesNo};
    match (kind, left, right) {
        (kind::AND, YesNo(a), YesNo(b)) => Ok(YesNo(a && b)),
        (kind::ADD, Number(a), Number(b)) => in_range(i64::from(a) + i64::from(b)),
        (kind::SUBTRACT, Number(a), Number(b)) => in_range(i64::from(a) - i64::from(b)),
        (kind::EQUAL, YesNo(a), YesNo(b)) => Ok(YesNo(a == b)),
        (kind::EQUAL, Number(a), Number(b)) => Ok(YesNo(a == b)),
        (kind::LESS, Number(a), Number(b)) => Ok(YesNo(a < b)),
        _ => Err(OperationError::WrongType),
    }
}
