//! Order of scopes, callees first, and weights: refusals 10 and 11.

use crate::refusal::Refusal;
use crate::scope::Scope;

/// "A weight above 4,096" is refused.
pub const MAX_WEIGHT: usize = 4_096;

/// Again and again the lowest-numbered scope whose sub-scopes are all placed.
/// That none is left to place means that a scope reaches itself.
pub fn scope_order(scopes: &[Scope]) -> Result<Vec<usize>, Refusal> {
    let calls: Vec<u32> = scopes.iter().map(called).collect();
    let mut placed = 0u32;
    let mut order = Vec::with_capacity(scopes.len());
    while order.len() < scopes.len() {
        let possible = |&s: &usize| placed & (1 << s) == 0 && calls[s] & !placed == 0;
        let next = (0..scopes.len())
            .find(possible)
            .ok_or(Refusal::ScopeCycle)?;
        placed |= 1 << next;
        order.push(next);
    }
    Ok(order)
}

/// The scopes that a scope calls, one bit each.
fn called(scope: &Scope) -> u32 {
    let bits = scope.subscopes.iter().map(|&number| 1u32 << number);
    bits.fold(0, |all, bit| all | bit)
}

/// "1 plus the weights of the sub-scopes called", a repeated one counted again.
pub fn weights(scopes: &[Scope], order: &[usize]) -> Result<Vec<usize>, Refusal> {
    let mut weights = vec![0; scopes.len()];
    for &number in order {
        let called = scopes[number].subscopes.iter();
        let sum: usize = called.map(|&sub| weights[usize::from(sub)]).sum();
        if sum >= MAX_WEIGHT {
            return Err(Refusal::WeightExceeded);
        }
        weights[number] = 1 + sum;
    }
    Ok(weights)
}
