//! The fixed tabulations: every number of chosen, the longest rows and tables, every way
//! of refusals 18, 14 and 13, the shapes that evaluation has at its limits, every way to
//! leave the range, and overrides that come to anything.

use super::branching::{branching, Branching};
use super::draft::{Draft, DraftScope, NUMBER, YES_NO};
use super::faults::{fault, WAYS};
use super::fixed::lone;
use super::random::Random;
use super::tabulations::{spoil_choice, Asked, CHOICES, HUGE};
use super::{deepest, fallbacks, inputs, shapes, sides, terms};
use super::{Case, Expected};

/// All fixed tabulations, always the same.
pub fn tables() -> Vec<Case> {
    let mut cases = Vec::new();
    every_number(&mut cases);
    longest(&mut cases);
    no_variables(&mut cases);
    extreme_shapes(&mut cases);
    cases.extend(sides::tables());
    cases.extend(fallbacks::tables());
    every_bad_choice(&mut cases);
    every_bad_list(&mut cases);
    absent_scopes(&mut cases);
    every_fault(&mut cases);
    cases
}

/// Memory that fits exactly, that is longer, too short by one, of one row, and none.
fn all_memories(cases: &mut Vec<Case>, label: &'static str, of: &Asked) {
    let (row, length) = (of.row(), of.length());
    for room in [length, length + 1, length - 1, row, 0] {
        let expected = match room >= length {
            true => Expected::Accepted,
            false => Expected::Refused(15),
        };
        cases.push(of.case(label, room).expecting(expected));
    }
}

/// 0 to 13 chosen, of as many and of more, several books each.
fn every_number(cases: &mut Vec<Case>) {
    for chosen in 0..=13 {
        for seed in 0..4 {
            let rng = &mut Random::new(seed);
            let more = rng.pick(&[0, 3, 13]);
            let Branching { draft, scope } = branching(rng, chosen + more);
            let of = Asked::of(rng, &draft, scope, chosen);
            match chosen {
                0..=8 => all_memories(cases, "each number of chosen", &of),
                9..=12 => {
                    let case = of.case("each number of chosen", of.length());
                    cases.push(case.expecting(Expected::Accepted));
                }
                _ => thirteen(cases, &of),
            }
        }
    }
}

/// 18 comes before 15, also where the table would be longer than any memory.
fn thirteen(cases: &mut Vec<Case>, of: &Asked) {
    for room in [0, of.row(), HUGE, of.length()] {
        let case = of.case("13 chosen", room);
        cases.push(case.expecting(Expected::Refused(18)));
    }
}

/// 32 variables, each a constant: these yes/no, the others numbers. Some of them chosen.
fn constants(yes_no: &[u8], chosen: &[u8]) -> Asked {
    let mut scope = DraftScope::default();
    for v in 0..32 {
        let switch = yes_no.contains(&v);
        scope.variables.push(if switch { YES_NO } else { NUMBER });
        match switch {
            true => scope.rule(255, v, 255, v % 2),
            false => {
                let number = scope.number(i32::from(v) - 16);
                scope.define(255, v, 255, number);
            }
        }
    }
    Asked {
        types: scope.variables.clone(),
        book: lone(scope).bytes(),
        scopes: 1,
        scope: 0,
        chosen: chosen.to_vec(),
        fixed: Vec::new(),
    }
}

/// Twelve of 32 variables, first, last, spread and handed in backward: 20 numbers beside
/// them make the longest rows and the longest table.
fn longest(cases: &mut Vec<Case>) {
    let all: Vec<u8> = (0..32).collect();
    let spread: Vec<u8> = (0..12).map(|i| i * 14 / 5).collect();
    for chosen in [&all[..12], &all[20..], &spread] {
        let backward: Vec<u8> = chosen.iter().rev().copied().collect();
        let whole = constants(chosen, &backward);
        for room in [whole.length(), HUGE] {
            let case = whole.case("longest rows", room);
            cases.push(case.expecting(Expected::Accepted));
        }
        let short = whole.case("longest rows", whole.length() - 1);
        cases.push(short.expecting(Expected::Refused(15)));
        let of_all = constants(&all, chosen);
        let case = of_all.case("12 of 32 yes/no", of_all.length());
        cases.push(case.expecting(Expected::Accepted));
    }
    thirteen(cases, &constants(&all, &all[19..]));
}

/// A scope without variables has a table of one byte.
fn no_variables(cases: &mut Vec<Case>) {
    let draft = lone(DraftScope::default());
    let mut of = Asked::of(&mut Random::new(0), &draft, 0, 0);
    all_memories(cases, "no variables", &of);
    for absent in [0, 31, 32, 255] {
        of.chosen = vec![absent];
        let case = of.case("no variables", 1);
        cases.push(case.expecting(Expected::Refused(18)));
    }
}

/// What evaluation has at its limits, with nothing chosen and with some.
fn extreme_shapes(cases: &mut Vec<Case>) {
    let rng = &mut Random::new(1);
    let mut add = |label, draft: &Draft, scope, chosen| {
        let of = Asked::of(rng, draft, scope, chosen);
        let case = of.case(label, of.length());
        cases.push(case.expecting(Expected::Accepted));
    };
    for (draft, _) in terms::all() {
        add("small term, tabulated", &draft, 0, 0);
    }
    for of in deepest::CHAINS {
        add("deepest nesting, tabulated", &deepest::book(of), 31, 0);
        add("deepest nesting, tabulated", &deepest::book(of), 31, 1);
    }
    for upward in [false, true] {
        let draft = shapes::deep_scopes(upward);
        add("nested scopes, tabulated", &draft, 16, 1);
    }
    for chosen in [1, 6, 10] {
        add("wide scope, tabulated", &shapes::wide(), 0, chosen);
    }
    for holding in [0, 1, 2] {
        let draft = shapes::many_bases(holding);
        add("128 bases, tabulated", &draft, 0, 0);
        add("128 bases, tabulated", &draft, 0, 1);
    }
    for seed in 0..2 {
        let rng = &mut Random::new(seed);
        let heaviest = shapes::heaviest(rng, false);
        add("weight 4,096, tabulated", &heaviest, 12, 0);
        add("32,768 bytes, tabulated", &shapes::longest(rng), 0, 3);
    }
}

/// Every way of 18, with a good list; without memory and with more than enough.
fn every_bad_choice(cases: &mut Vec<Case>) {
    for seed in 0..8 * CHOICES as u64 {
        let rng = &mut Random::new(seed);
        let Branching { draft, scope } = branching(rng, 5);
        let chosen = rng.range(0, 5);
        let mut of = Asked::of(rng, &draft, scope, chosen);
        spoil_choice(rng, &mut of, seed as usize % CHOICES);
        for room in [0, 20_000] {
            let case = of.case("each bad choice", room);
            cases.push(case.expecting(Expected::Refused(18)));
        }
    }
    let mut of = constants(&[0, 1, 2], &[]);
    of.chosen = vec![0; 30_000];
    let long = of.case("each bad choice", 20_000);
    cases.push(long.expecting(Expected::Refused(18)));
}

/// Every way of 14, with a good and with a bad choice.
fn every_bad_list(cases: &mut Vec<Case>) {
    let whole = constants(&[0, 3, 4, 9], &[9, 4]);
    for seed in 0..4 * inputs::WAYS as u64 {
        let rng = &mut Random::new(seed);
        let mut of = whole.clone();
        of.fixed = inputs::bad(rng, &of.types, seed as usize % inputs::WAYS);
        let good = of.chosen.clone();
        for chosen in [good, vec![9, 9], vec![32], vec![1; 13]] {
            of.chosen = chosen;
            let case = of.case("each bad list", rng.pick(&[0, 20_000]));
            cases.push(case.expecting(Expected::Refused(14)));
        }
    }
}

/// 13, with a bad list and a bad choice.
fn absent_scopes(cases: &mut Vec<Case>) {
    let mut of = constants(&[0, 1], &[0]);
    for scope in [1, 2, 32, 255, 256, 1 << 32, usize::MAX] {
        of.scope = scope;
        for (chosen, fixed) in [(vec![0], vec![]), (vec![255, 255], vec![7])] {
            (of.chosen, of.fixed) = (chosen, fixed);
            let case = of.case("each absent scope", 20_000);
            cases.push(case.expecting(Expected::Refused(13)));
        }
    }
}

/// Every way of 1 to 12, with a scope that is not there, a bad list and a bad choice.
fn every_fault(cases: &mut Vec<Case>) {
    let mut of = constants(&[0, 1], &[255, 255]);
    (of.scope, of.fixed) = (32, vec![7]);
    for number in 1..=12u8 {
        for way in 0..WAYS[usize::from(number) - 1] {
            of.book = fault(&mut Random::new(way as u64), number, way);
            let case = of.case("each fault", 64);
            cases.push(case.expecting(Expected::Refused(number)));
        }
    }
}

#[cfg(test)]
mod tests {
    use super::*;
    use crate::cases::Success;

    #[test]
    fn every_answer_is_as_expected() {
        for case in tables() {
            assert!(case.is_expected(case.reply().result), "{}", case.label);
        }
    }

    #[test]
    fn the_longest_table_has_4096_rows_of_157_bytes() {
        let lengths = tables().into_iter().filter_map(|case| {
            let Ok(Success::Table(length)) = case.reply().result else {
                return None;
            };
            Some((length, case.room))
        });
        let longest = lengths.max().expect("a table");
        assert_eq!(longest, (4_096 * 157, HUGE));
    }
}
