//! Bytes to scopes, with refusals 1 to 5: "Length first (4), then per record 2, 1, 3, 4, 5".

use crate::kind::{self, Stage};
use crate::reader::{Record, Records};
use crate::refusal::Refusal;
use crate::scope::{Clause, Consequence, Node, Scope, Target};
use crate::value::{number, yes_no, Type};

pub const MAX_BOOK: usize = 32_768;
pub const MAX_SCOPES: usize = 32;
pub const MAX_VARIABLES: usize = 32;
pub const MAX_SUBSCOPES: usize = 8;
const MAX_NODES: usize = 250;
const MAX_CLAUSES: usize = 128;

pub fn decode(bytes: &[u8]) -> Result<Vec<Scope>, Refusal> {
    if bytes.len() > MAX_BOOK {
        return Err(Refusal::LimitExceeded);
    }
    let mut scopes = Vec::new();
    let mut records = Records::of_book(bytes);
    while let Some(record) = records.read()? {
        if record.stage == Stage::Scope {
            check_limit(scopes.len(), MAX_SCOPES)?;
            scopes.push(Scope::default());
        } else if let Some(scope) = scopes.last_mut() {
            add(scope, &record)?;
        }
    }
    Ok(scopes)
}

/// A record more than `have` must stay within `limit`.
fn check_limit(have: usize, limit: usize) -> Result<(), Refusal> {
    if have < limit {
        Ok(())
    } else {
        Err(Refusal::LimitExceeded)
    }
}

/// Adds a record to its scope: limit before byte values.
fn add(scope: &mut Scope, record: &Record) -> Result<(), Refusal> {
    match record.stage {
        Stage::Scope => {}
        Stage::Variables => {
            check_limit(scope.variables.len(), MAX_VARIABLES)?;
            scope.variables.push(type_byte(record.body[0])?);
        }
        Stage::Subscopes => {
            check_limit(scope.subscopes.len(), MAX_SUBSCOPES)?;
            scope.subscopes.push(record.body[0]);
        }
        Stage::Nodes => {
            check_limit(scope.nodes.len(), MAX_NODES)?;
            scope.nodes.push(node(record.kind, record.body)?);
        }
        Stage::Clauses => {
            check_limit(scope.clauses.len(), MAX_CLAUSES)?;
            scope.clauses.push(clause(record.kind, record.body)?);
        }
    }
    Ok(())
}

fn type_byte(byte: u8) -> Result<Type, Refusal> {
    Type::from_byte(byte).ok_or(Refusal::InvalidByte)
}

fn yes_no_byte(byte: u8) -> Result<bool, Refusal> {
    yes_no(byte).ok_or(Refusal::InvalidByte)
}

fn node(kind: u8, body: &[u8]) -> Result<Node, Refusal> {
    Ok(match kind {
        kind::CONSTANT => Node::Constant(yes_no_byte(body[0])?),
        kind::NUMBER => Node::Number(number(body)),
        kind::OWN_VARIABLE => Node::Own(body[0]),
        kind::SUBSCOPE_VARIABLE => Node::Subscope(body[0], body[1]),
        kind::EMPTY => Node::Empty(type_byte(body[0])?),
        kind::CONFLICT => Node::Conflict(type_byte(body[0])?),
        kind::NOT | kind::NEGATE => Node::Unary(kind, body[0]),
        kind::AND..=kind::LESS => Node::Binary(kind, body[0], body[1]),
        kind::IF => Node::If(body[0], body[1], body[2]),
        _ => Node::Default([body[0], body[1], body[2]], body[3], body[4]),
    })
}

fn clause(kind: u8, body: &[u8]) -> Result<Clause, Refusal> {
    let consequence = match kind {
        kind::RULE => Consequence::Constant(yes_no_byte(body[4])?),
        _ => Consequence::Node(body[4]),
    };
    Ok(Clause {
        target: Target {
            subscope: body[0],
            variable: body[1],
        },
        parent: body[2],
        condition: body[3],
        consequence,
    })
}
