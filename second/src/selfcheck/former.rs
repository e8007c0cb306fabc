//! "Runs that meet no such override keep their answers": cases under the meaning of empty
//! overrides before request 5.

use super::fallbacks::Overrides;
use crate::answer::Outcome;
use crate::cases::{lend, Case, Reply, Success};
use crate::evaluate::observed_evaluate;
use crate::tabulate::observed_tabulate;
use crate::Overriding;

const BEFORE: Overriding = Overriding::EndsCaller;

/// The reply to a case under the former meaning, and whether it met an empty override.
pub struct Former {
    pub reply: Reply,
    pub any_empty: bool,
}

impl Former {
    /// Evaluates the case, whatever its service.
    pub fn evaluation(case: &Case) -> Former {
        let (met, mut memory) = (Overrides::default(), lend(case.room));
        let (book, scope, inputs) = (&case.bytes, case.scope, &case.inputs);
        let answer = observed_evaluate(BEFORE, book, scope, inputs, &mut memory, &met);
        let result = answer.map(Success::Answer);
        Former {
            reply: Reply { result, memory },
            any_empty: met.any_empty(),
        }
    }

    pub fn table(case: &Case) -> Former {
        let (met, mut memory) = (Overrides::default(), lend(case.room));
        let choice = (&case.chosen[..], &case.inputs[..]);
        let length = observed_tabulate(BEFORE, &case.bytes, case.scope, choice, &mut memory, &met);
        let result = length.map(Success::Table);
        Former {
            reply: Reply { result, memory },
            any_empty: met.any_empty(),
        }
    }

    /// Whether a reply is the former one where no override was empty.
    pub fn is_kept(&self, reply: &Reply) -> bool {
        self.any_empty || self.reply == *reply
    }

    /// Whether each row of a table is the former one but where that was empty: an empty
    /// override ended the row so.
    pub fn keeps_rows(&self, chosen: usize, reply: &Reply) -> bool {
        let Ok(Success::Table(length)) = reply.result else {
            return self.reply == *reply;
        };
        let row = length >> chosen;
        let before = self.reply.memory[..length].chunks_exact(row);
        let mut rows = before.zip(reply.memory[..length].chunks_exact(row));
        let kept = rows.all(|(before, now)| before[0] == Outcome::Empty as u8 || before == now);
        kept && self.reply.result == reply.result
    }
}
