//! Cases: a service with the bytes it is given, from a seed or from the fixed list,
//! for this program or any other that is to be compared with it.

pub mod assembler;
pub mod badcode;
pub mod books;
pub mod branching;
pub mod cycles;
pub mod damage;
pub mod deepest;
pub mod draft;
pub mod fallbacks;
pub mod faults;
pub mod fixed;
pub mod handed;
pub mod handmade;
pub mod heavy;
pub mod inputs;
pub mod joins;
pub mod long;
pub mod mix;
pub mod named;
pub mod random;
pub mod sequences;
pub mod shapes;
pub mod sides;
pub mod spoiled;
pub mod stdin;
pub mod stuck;
pub mod tables;
pub mod tabulations;
pub mod terms;
pub mod workbench;

use crate::answer::Outcome;
use crate::{compile, evaluate, judge, run, tabulate};
use std::sync::OnceLock;

pub use fixed::fixed;
pub use long::long;
pub use named::named;
pub use stdin::standard_input;
pub use tables::tables;
pub use tabulations::tabulation;

use mix::Mix;

#[derive(Clone, Copy, Debug, PartialEq, Eq, PartialOrd, Ord)]
pub enum Service {
    Judge,
    Evaluate,
    Compile,
    Run,
    Tabulate,
}

/// What is known of the answer before any service is asked.
#[derive(Clone, Copy, Debug, PartialEq, Eq)]
pub enum Expected {
    Anything,
    /// A book without refusals 1 to 12, code without 16, a table that is written.
    Accepted,
    Refused(u8),
    Ends(Outcome),
}

/// One call of a service. `bytes` is a book or code; `chosen` is for a table alone; `room`
/// is the length of the memory lent for code, results or a table.
#[derive(Clone, Debug)]
pub struct Case {
    pub label: &'static str,
    pub service: Service,
    pub bytes: Vec<u8>,
    pub scope: usize,
    pub chosen: Vec<u8>,
    pub inputs: Vec<u8>,
    pub room: usize,
    pub expected: Expected,
}

/// What a call hands back: number of scopes, length of code or of a table, or an answer.
#[derive(Clone, Copy, Debug, PartialEq, Eq)]
pub enum Success {
    Scopes(usize),
    Code(usize),
    Table(usize),
    Answer(crate::answer::Answer),
}

/// A refusal or what was handed back, and the lent memory after the call.
#[derive(Clone, Debug, PartialEq, Eq)]
pub struct Reply {
    pub result: Result<Success, u8>,
    pub memory: Vec<u8>,
}

/// Memory to lend: a pattern in which a changed byte shows.
pub fn lend(room: usize) -> Vec<u8> {
    (0..room).map(|i| (i * 37 + 11) as u8 | 0x80).collect()
}

impl Case {
    fn new(label: &'static str, service: Service, bytes: Vec<u8>) -> Case {
        Case {
            label,
            service,
            bytes,
            scope: 0,
            chosen: Vec::new(),
            inputs: Vec::new(),
            room: 0,
            expected: Expected::Anything,
        }
    }

    fn expecting(mut self, expected: Expected) -> Case {
        self.expected = expected;
        self
    }

    fn asking(mut self, scope: usize, inputs: Vec<u8>, room: usize) -> Case {
        (self.scope, self.inputs, self.room) = (scope, inputs, room);
        self
    }

    fn choosing(mut self, chosen: Vec<u8>) -> Case {
        self.chosen = chosen;
        self
    }

    /// What this program answers.
    pub fn reply(&self) -> Reply {
        let mut memory = lend(self.room);
        let (bytes, scope, inputs) = (&self.bytes[..], self.scope, &self.inputs[..]);
        let result = match self.service {
            Service::Judge => judge(bytes).map(Success::Scopes),
            Service::Compile => compile(bytes, &mut memory).map(Success::Code),
            Service::Evaluate => evaluate(bytes, scope, inputs, &mut memory).map(Success::Answer),
            Service::Run => run(bytes, scope, inputs, &mut memory).map(Success::Answer),
            Service::Tabulate => {
                tabulate(bytes, scope, &self.chosen, inputs, &mut memory).map(Success::Table)
            }
        };
        Reply { result, memory }
    }

    /// Whether a refusal or what was handed back is as expected.
    pub fn is_expected(&self, result: Result<Success, u8>) -> bool {
        match (self.expected, result) {
            (Expected::Anything, _) | (Expected::Accepted, Ok(_)) => true,
            (Expected::Accepted, Err(refusal)) => match self.service {
                Service::Run => refusal != 16,
                Service::Tabulate => false,
                _ => refusal > 12,
            },
            (Expected::Refused(wanted), Err(refusal)) => wanted == refusal,
            (Expected::Ends(wanted), Ok(Success::Answer(answer))) => wanted == answer.outcome,
            _ => false,
        }
    }
}

fn mix() -> &'static Mix {
    static MIX: OnceLock<Mix> = OnceLock::new();
    MIX.get_or_init(Mix::new)
}

/// The case of a seed; the same one for the same seed.
pub fn case(seed: u64) -> Case {
    mix().case(seed)
}

/// The case of a seed among runs of code that no compiler wrote.
pub fn foreign_code(seed: u64) -> Case {
    mix().foreign_code(seed)
}
