//! The fixed cases: every limit met and passed, extreme shapes, every way of each
//! fault, the tables of directed code, every case of the join, every way to leave the range,
//! and overrides that come to anything.

use super::books::{book, Plan};
use super::draft::{results_length, Draft, DraftScope, CLAUSES, NODES, NUMBER, YES_NO};
use super::faults::{fault, two_faults, WAYS};
use super::mix::{evaluate_term, run_directed};
use super::random::Random;
use super::{badcode, deepest, fallbacks, heavy, inputs};
use super::{joins, shapes, sides, stuck, terms};
use super::{Case, Expected, Service};
use crate::answer::Outcome;
use crate::code_of;

/// All fixed cases, always the same.
pub fn fixed() -> Vec<Case> {
    let mut cases = Vec::new();
    met_limits(&mut cases);
    extreme_shapes(&mut cases);
    passed_limits(&mut cases);
    cases.extend(terms::all().iter().map(evaluate_term));
    cases.extend(sides::evaluations());
    cases.extend(fallbacks::evaluations());
    cases.extend(fallbacks::compilations());
    cases.extend(fallbacks::former_runs());
    every_fault(&mut cases);
    every_pair(&mut cases);
    every_bad_list(&mut cases);
    cases.extend(stuck::all().iter().map(run_directed));
    for (code, expected) in badcode::all() {
        let case = Case::new("code of the acceptance table", Service::Run, code);
        cases.push(case.expecting(expected).asking(1, Vec::new(), 40));
    }
    for (code, expected) in joins::all() {
        let case = Case::new("join of two entries", Service::Run, code);
        cases.push(case.expecting(expected).asking(0, Vec::new(), 6));
    }
    cases
}

/// Judges, compiles, evaluates and runs an accepted book: room exact and too short.
fn accepted(cases: &mut Vec<Case>, label: &'static str, draft: &Draft, scope: usize) {
    let bytes = draft.bytes();
    let code = code_of(&bytes).unwrap_or_default();
    let types = draft.scopes.get(scope).map(|s| s.variables.clone());
    let length = results_length(&types.unwrap_or_default());
    let calls = [
        (Service::Judge, &bytes, 0),
        (Service::Compile, &bytes, code.len()),
        (Service::Evaluate, &bytes, length),
        (Service::Run, &code, length),
    ];
    for (service, bytes, needed) in calls {
        let case = Case::new(label, service, bytes.clone());
        let exact = case.clone().asking(scope, Vec::new(), needed);
        cases.push(exact.expecting(Expected::Accepted));
        if needed > 0 {
            let short = case.asking(scope, Vec::new(), needed - 1);
            cases.push(short.expecting(Expected::Refused(15)));
        }
    }
}

/// The services that take a book all refuse it with one number.
fn refused(cases: &mut Vec<Case>, label: &'static str, bytes: &[u8], number: u8) {
    for service in [Service::Judge, Service::Compile, Service::Evaluate] {
        let case = Case::new(label, service, bytes.to_vec());
        let case = case.asking(0, Vec::new(), 64);
        cases.push(case.expecting(Expected::Refused(number)));
    }
}

pub(super) fn lone(scope: DraftScope) -> Draft {
    Draft {
        scopes: vec![scope],
    }
}

fn met_limits(cases: &mut Vec<Case>) {
    let scope = DraftScope::default;
    accepted(cases, "empty book", &Draft::default(), 0);
    accepted(cases, "one scope", &lone(scope()), 0);
    let scopes = Draft {
        scopes: vec![scope(); 32],
    };
    accepted(cases, "32 scopes", &scopes, 31);
    let mut full = scope();
    full.variables = [YES_NO, NUMBER].repeat(16);
    (0..CLAUSES as u8).for_each(|i| full.rule(255, i % 16 * 2, 255, i % 2));
    (0..NODES).for_each(|_| {
        full.constant(true);
    });
    accepted(
        cases,
        "32 variables, 250 nodes, 128 clauses",
        &lone(full),
        0,
    );
    let mut caller = scope();
    caller.subscopes = vec![1; 8];
    let calls = Draft {
        scopes: vec![caller, scope()],
    };
    accepted(cases, "8 sub-scopes", &calls, 0);
    for seed in 0..4 {
        let longest = shapes::longest(&mut Random::new(seed));
        accepted(cases, "32,768 bytes", &longest, seed as usize);
        let heaviest = shapes::heaviest(&mut Random::new(seed), false);
        accepted(cases, "weight 4,096", &heaviest, 12);
        accepted(cases, "weight 4,095", &heaviest, 11);
    }
    accepted(cases, "longest code", &shapes::longest_code(), 31);
}

fn extreme_shapes(cases: &mut Vec<Case>) {
    for of in [YES_NO, NUMBER] {
        accepted(cases, "250 nested nodes", &shapes::deep_nodes(of), 0);
    }
    for place in 0..4 {
        accepted(cases, "nested defaults", &shapes::deep_defaults(place), 0);
    }
    for rules in [false, true] {
        accepted(cases, "128 nested clauses", &shapes::deep_clauses(rules), 0);
    }
    for upward in [false, true] {
        let draft = shapes::deep_scopes(upward);
        let outermost = if upward { 0 } else { 31 };
        accepted(cases, "32 nested scopes", &draft, outermost);
        accepted(cases, "32 nested scopes", &draft, 16);
    }
    for of in deepest::CHAINS {
        accepted(cases, "deepest nesting", &deepest::book(of), 31);
    }
    for entries in [1, 1_024] {
        let case = Case::new("nested blocks", Service::Run, deepest::code(entries));
        let ends = Expected::Ends(Outcome::Values);
        cases.push(case.expecting(ends).asking(31, Vec::new(), 3));
    }
    let heavy = Case::new("heavy code", Service::Run, heavy::code(1_000));
    let ends = Expected::Ends(Outcome::Values);
    cases.push(heavy.expecting(ends).asking(heavy::SCOPE, Vec::new(), 6));
    accepted(cases, "wide scope", &shapes::wide(), 0);
    for holding in [0, 1, 2, 128] {
        accepted(cases, "128 bases", &shapes::many_bases(holding), 0);
    }
    for seed in 0..12 {
        let rng = &mut Random::new(seed);
        let plan = Plan::large(rng);
        let draft = book(rng, plan);
        let scope = rng.below(draft.scopes.len());
        accepted(cases, "large book", &draft, scope);
    }
}

/// Each limit passed by one; the records before it are those of a met limit.
fn passed_limits(cases: &mut Vec<Case>) {
    for way in 0..WAYS[3] {
        let bytes = fault(&mut Random::new(way as u64), 4, way);
        refused(cases, "limit passed", &bytes, 4);
    }
    let long = vec![0xff; shapes::BOOK + 1];
    refused(cases, "32,769 bytes of anything", &long, 4);
    for way in 0..WAYS[10] {
        let bytes = fault(&mut Random::new(way as u64), 11, way);
        refused(cases, "weight passed", &bytes, 11);
    }
}

/// Every way of each fault, a few times each.
fn every_fault(cases: &mut Vec<Case>) {
    for number in (1..=12u8).filter(|&number| number != 4) {
        for way in 0..WAYS[usize::from(number) - 1] {
            for seed in 0..3 {
                let bytes = fault(&mut Random::new(seed), number, way);
                refused(cases, "one fault", &bytes, number);
            }
        }
    }
}

/// Every pair of faults, in both orders.
fn every_pair(cases: &mut Vec<Case>) {
    for (first, second) in (0..144).map(|i| (i / 12 + 1, i % 12 + 1)) {
        let rng = &mut Random::new(u64::from(first));
        let (bytes, number) = two_faults(rng, first, second);
        refused(cases, "two faults", &bytes, number);
    }
}

/// Every way of a bad list, on a scope with both types and on one without variables.
fn every_bad_list(cases: &mut Vec<Case>) {
    let both = DraftScope {
        variables: vec![YES_NO, NUMBER, NUMBER, YES_NO],
        ..DraftScope::default()
    };
    let long = Case::new("bad list", Service::Evaluate, lone(both.clone()).bytes());
    let long = long.asking(0, [1, 0, 1].repeat(30_000), 30);
    cases.push(long.expecting(Expected::Refused(14)));
    for scope in [both, DraftScope::default()] {
        let types = scope.variables.clone();
        let bytes = lone(scope).bytes();
        let code = code_of(&bytes).unwrap_or_default();
        for seed in 0..inputs::WAYS as u64 * 4 {
            let rng = &mut Random::new(seed);
            let list = inputs::bad(rng, &types, seed as usize % inputs::WAYS);
            for (service, bytes) in [(Service::Evaluate, &bytes), (Service::Run, &code)] {
                let case = Case::new("bad list", service, bytes.clone());
                let case = case.asking(0, list.clone(), rng.below(30));
                cases.push(case.expecting(Expected::Refused(14)));
            }
        }
    }
}
