//! Each way for an override to be empty, over own trees of every outcome.

use super::super::draft::{Draft, DraftScope, NUMBER, YES_NO};
use super::empties::{write, Way, WAYS};
use super::{alone, Fallback};
use crate::answer::Outcome::{self, Empty, Values};

/// What an override's condition is: a constant, a variable of the caller, or one of a
/// sub-scope that was entered before.
#[derive(Clone, Copy)]
enum Read {
    Constant,
    Own,
    Subscope,
}

const READS: [Read; 3] = [Read::Constant, Read::Own, Read::Subscope];

/// Variable 0 of the caller is the switch; 1 is what the sub-scope comes to.
fn in_way(way: Way, of: u8, read: Read, own: Outcome) -> Draft {
    let mut caller = DraftScope {
        variables: vec![YES_NO, of],
        subscopes: vec![0, 1],
        ..DraftScope::default()
    };
    caller.rule(255, 0, 255, 0);
    let switch = caller.own(0);
    caller.define(0, 0, 255, switch);
    let condition = match read {
        Read::Constant => caller.constant(false),
        Read::Own => caller.own(0),
        Read::Subscope => caller.subscope(0, 0),
    };
    write(&mut caller, (1, 0), of, way, condition);
    let result = caller.subscope(1, 0);
    caller.define(255, 1, 255, result);
    Draft {
        scopes: vec![alone(YES_NO, Values, true), alone(of, own, false), caller],
    }
}

/// The book with the switch at no or at yes.
fn at(yes: bool, way: Way, of: u8, read: Read, own: Outcome) -> Fallback {
    let empty = !yes || matches!(read, Read::Constant);
    let (ends, former) = match empty {
        true => (own, Empty),
        false => (Values, Values),
    };
    let mut one = Fallback::new(in_way(way, of, read, own), ends, former);
    one.inputs = vec![1, 0, u8::from(yes)];
    one
}

/// Every way, of either type, under every condition, over own trees of every outcome.
pub fn ways(yes: bool) -> Vec<Fallback> {
    let mut all = Vec::new();
    for way in WAYS {
        for of in [YES_NO, NUMBER] {
            let under = |read| Outcome::ALL.map(|own| at(yes, way, of, read, own));
            all.extend(READS.into_iter().flat_map(under));
        }
    }
    all
}

#[cfg(test)]
mod tests {
    use super::*;

    /// The bytes of the variable that reads the sub-scope's.
    fn results(yes: bool, way: Way, of: u8, read: Read) -> Vec<u8> {
        let reply = at(yes, way, of, read, Values).evaluation().reply();
        reply.memory[3..].to_vec()
    }

    #[test]
    fn results_show_whether_the_override_was_empty() {
        for way in WAYS {
            for (of, read) in [YES_NO, NUMBER]
                .map(|of| READS.map(|read| (of, read)))
                .concat()
            {
                let differ = results(false, way, of, read) != results(true, way, of, read);
                assert_eq!(differ, !matches!(read, Read::Constant), "{way:?}");
            }
        }
    }
}
