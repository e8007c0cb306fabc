//! An accepted book: none of refusals 1 to 12 is in it.

use crate::decode::decode;
use crate::references::{check_dangling, check_shared};
use crate::refusal::Refusal;
use crate::scope::Scope;
use crate::scope_order::{scope_order, weights};
use crate::steps::{step_order, Step};
use crate::typing::{check_mixed, check_types};

pub struct Book {
    pub scopes: Vec<Scope>,
    /// Order of blocks in code, sub-scopes first.
    pub order: Vec<usize>,
    pub weights: Vec<usize>,
    /// The steps of each scope, in order.
    pub steps: Vec<Vec<Step>>,
}

impl Book {
    /// "Then 6 to 12, each over the whole book".
    pub fn accept(bytes: &[u8]) -> Result<Book, Refusal> {
        let scopes = decode(bytes)?;
        check_dangling(&scopes)?;
        check_shared(&scopes)?;
        check_types(&scopes)?;
        check_mixed(&scopes)?;
        let order = scope_order(&scopes)?;
        let weights = weights(&scopes, &order)?;
        let steps = scopes.iter().map(step_order).collect::<Result<_, _>>()?;
        Ok(Book {
            scopes,
            order,
            weights,
            steps,
        })
    }
}

/// Judges a book: the number of its scopes, or the refusal.
pub fn judge(book: &[u8]) -> Result<usize, u8> {
    Ok(Book::accept(book)?.scopes.len())
}

/// The weight of each scope, or the refusal.
pub fn weights_of(book: &[u8]) -> Result<Vec<usize>, u8> {
    Ok(Book::accept(book)?.weights)
}

/// The steps of each scope in their order, or the refusal.
pub fn steps_of(book: &[u8]) -> Result<Vec<Vec<Step>>, u8> {
    Ok(Book::accept(book)?.steps)
}
