//! One code for each way of getting stuck and for each way of being refused with 16,
//! by name, with the cause.

use crate::code::CodeFault::{self, *};
use crate::examples::hex;
use crate::machine::{Stuck, StuckCause, MAX_STACK, MAX_TRIES};
use crate::run::Denial;

/// Code that is refused: the way by name, the scope asked for, its inputs, the cause.
pub struct Named {
    pub name: &'static str,
    pub code: Vec<u8>,
    pub scope: usize,
    pub inputs: Vec<u8>,
    pub denial: Denial,
}

/// Name, code, scope, inputs, cause and the kind that meets it (0: a block's end).
type StuckRow = (
    &'static str,
    &'static str,
    usize,
    &'static str,
    StuckCause,
    u8,
);

/// "Stuck: ..", in the paper's order.
const STUCK: &[StuckRow] = &[
    (
        "an instruction finding too few entries",
        "0100 0401 0c",
        0,
        "-",
        StuckCause::TooFewEntries,
        12,
    ),
    (
        "an instruction finding other entries",
        "0100 0401 0500000001 0c",
        0,
        "-",
        StuckCause::OtherEntry,
        12,
    ),
    (
        "an end of try with none open",
        "0100 25",
        0,
        "-",
        StuckCause::NoOpenTry,
        37,
    ),
    (
        "an empty raised with the stack below the try's height",
        "0100 0401 240004 230000 20",
        0,
        "-",
        StuckCause::BelowTryHeight,
        32,
    ),
    (
        "a read of what is neither given nor stored",
        "0100 0201 0600",
        0,
        "-",
        StuckCause::ReadUnset,
        6,
    ),
    (
        "a read of a sub-scope not entered",
        "0100 0201 0401 2900 0101 0300 070000 2b00",
        1,
        "-",
        StuckCause::ReadNotEntered,
        7,
    ),
    (
        "a store to what is given",
        "0100 0201 0401 2900",
        0,
        "010001",
        StuckCause::StoreToGiven,
        41,
    ),
    (
        "a second store",
        "0100 0201 0401 2900 0400 2900",
        0,
        "-",
        StuckCause::SecondStore,
        41,
    ),
    (
        "a second store of an override",
        "0100 0201 0101 0300 0400 2a0000 0400 2a0000 2b00",
        1,
        "-",
        StuckCause::SecondOverride,
        42,
    ),
    (
        "a second entry",
        "0100 0101 0300 2b00 2b00",
        1,
        "-",
        StuckCause::SecondEntry,
        43,
    ),
    (
        "an override after the entry",
        "0100 0201 0401 2900 0101 0300 2b00 0400 2a0000",
        1,
        "-",
        StuckCause::OverrideAfterEntry,
        42,
    ),
    (
        "a block's end with a variable neither given nor stored",
        "0100 0201",
        0,
        "-",
        StuckCause::VariableLeftUnset,
        0,
    ),
    (
        "a block's end with a sub-scope not entered",
        "0100 0101 0300",
        1,
        "-",
        StuckCause::SubscopeNotEntered,
        0,
    ),
];

/// Name, code and cause; code that differs from an accepted one in this alone.
const BAD: &[(&str, &str, CodeFault)] = &[
    ("a body passes the end", "0100 05000000", Truncated),
    ("an unknown kind", "0100 08", UnknownKind),
    ("no block yet", "26", OutOfOrder),
    (
        "a variable behind a sub-scope",
        "0100 0101 0300 0201",
        OutOfOrder,
    ),
    (
        "a variable behind an instruction",
        "0100 26 0201",
        OutOfOrder,
    ),
    (
        "a sub-scope behind an instruction",
        "0100 0101 26 0300",
        OutOfOrder,
    ),
    ("a type of 0", "0100 0200", InvalidType),
    ("a type of 3", "0100 0203", InvalidType),
    ("a constant of 2", "0100 0402", InvalidConstant),
    ("a repeated scope", "0100 0101 0100", RepeatedScope),
    ("a scope above 31", "0120", ScopeNumberTooHigh),
    ("a sub-scope of its own", "0100 0300", NoEarlierBlock),
    (
        "a sub-scope with a later block",
        "0100 0301 0101",
        NoEarlierBlock,
    ),
    (
        "a sub-scope without a block",
        "0100 0101 0302",
        NoEarlierBlock,
    ),
    ("a read of no variable", "0100 0201 0601", NoSuchVariable(6)),
    (
        "a store to no variable",
        "0100 0201 2901",
        NoSuchVariable(41),
    ),
    (
        "whether no variable is given",
        "0100 0201 2c010000",
        NoSuchVariable(44),
    ),
    (
        "a read of no sub-scope",
        "0100 0201 0101 0300 070100",
        NoSuchSubscope(7),
    ),
    (
        "an override in no sub-scope",
        "0100 0201 0101 0300 2a0100",
        NoSuchSubscope(42),
    ),
    (
        "an entry of no sub-scope",
        "0100 0201 0101 0300 2b01",
        NoSuchSubscope(43),
    ),
    (
        "a read of no variable of a sub-scope",
        "0100 0201 0101 0300 070001",
        NoSuchSubscopeVariable(7),
    ),
    (
        "an override of no variable of a sub-scope",
        "0100 0201 0101 0300 2a0001",
        NoSuchSubscopeVariable(42),
    ),
    (
        "a jump into an instruction",
        "0100 220001 0401",
        BadDistance(34),
    ),
    (
        "a jump on no into an instruction",
        "0100 230001 0401",
        BadDistance(35),
    ),
    (
        "a try that lands in an instruction",
        "0100 240001 0401",
        BadDistance(36),
    ),
    (
        "a settlement into an instruction",
        "0100 280001 0401",
        BadDistance(40),
    ),
    (
        "a jump if given into an instruction",
        "0100 0201 2c000001 0401",
        BadDistance(44),
    ),
    (
        "a jump past the last byte",
        "0100 220002 26",
        BadDistance(34),
    ),
    (
        "a jump to an instruction of the next block",
        "0100 220002 0101 26",
        BadDistance(34),
    ),
];

/// Scopes that call the one before them twice, to a weight of 4,095, and one of 4,096.
fn chain() -> Vec<u8> {
    let doubling = (1..12).flat_map(|n| [1, n, 3, n - 1, 3, n - 1]);
    let mut code = vec![1, 0];
    code.extend(doubling);
    code.extend([1, 12, 3, 11]);
    code
}

/// What is too long to be written out.
fn limits() -> Vec<(&'static str, Vec<u8>, Denial)> {
    let many = |head: &[u8], record: &[u8], count| [head, &record.repeat(count)].concat();
    let stuck = |cause, kind| Denial::Stuck(Stuck { cause, kind });
    let weight = |tail: &[u8]| [&chain(), tail].concat();
    vec![
        (
            "1,024 stack entries passed",
            many(&[1, 0], &[38], MAX_STACK + 1),
            stuck(StuckCause::StackOverflow, 38),
        ),
        (
            "512 open tries passed",
            many(&[1, 0], &[36, 0, 0], MAX_TRIES + 1),
            stuck(StuckCause::TryOverflow, 36),
        ),
        (
            "33 variables",
            many(&[1, 0], &[2, 1], 33),
            Denial::BadCode(TooManyVariables),
        ),
        (
            "9 sub-scopes",
            many(&[1, 0, 1, 1], &[3, 0], 9),
            Denial::BadCode(TooManySubscopes),
        ),
        (
            "a weight of 4,097 by one more call",
            weight(&[3, 0]),
            Denial::BadCode(WeightExceeded),
        ),
        (
            "a weight of 4,097 by one more block",
            weight(&[1, 13, 3, 12]),
            Denial::BadCode(WeightExceeded),
        ),
    ]
}

/// All of them.
pub fn named() -> Vec<Named> {
    let row = |name, code, scope, inputs, denial| Named {
        name,
        code,
        scope,
        inputs,
        denial,
    };
    let stuck = STUCK
        .iter()
        .map(|&(name, code, scope, inputs, cause, kind)| {
            let denial = Denial::Stuck(Stuck { cause, kind });
            row(name, hex(code), scope, hex(inputs), denial)
        });
    let bad = BAD
        .iter()
        .map(|&(name, code, fault)| row(name, hex(code), 0, Vec::new(), Denial::BadCode(fault)));
    let limits = limits().into_iter();
    let limits = limits.map(|(name, code, denial)| row(name, code, 0, Vec::new(), denial));
    stuck.chain(bad).chain(limits).collect()
}

#[cfg(test)]
mod tests {
    use super::*;
    use crate::run::observed_run;
    use crate::selfcheck::{expected_code_faults, expected_stuck};
    use std::collections::BTreeSet;

    #[test]
    fn every_name_has_its_cause() {
        for case in named() {
            let mut results = [0; 200];
            let ran = observed_run(&case.code, case.scope, &case.inputs, &mut results, ());
            assert_eq!(ran, Err(case.denial), "{}", case.name);
        }
    }

    #[test]
    fn every_cause_has_a_name() {
        let all = named();
        let causes = all.iter().filter_map(|case| match case.denial {
            Denial::Stuck(stuck) => Some(stuck.cause),
            _ => None,
        });
        let expected = expected_stuck().into_iter().map(|stuck| stuck.cause);
        assert_eq!(causes.collect::<BTreeSet<_>>(), expected.collect());
        let faults = all.iter().filter_map(|case| match case.denial {
            Denial::BadCode(fault) => Some(fault),
            _ => None,
        });
        let expected = expected_code_faults().into_iter();
        assert_eq!(faults.collect::<BTreeSet<_>>(), expected.collect());
    }
}
