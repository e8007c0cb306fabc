//! Callers of callers, each with an override that may be empty.

use super::super::draft::{Draft, DraftScope, NUMBER, YES_NO};
use super::calls::override_by;
use super::empties::{write, Way, WAYS};
use super::{alone, Fallback};
use crate::answer::Outcome::{self, Empty, Values};

/// Scopes that each call the one before and override its number: empty or a value.
fn chain(empty: &[bool], own: Outcome, way: Way) -> Draft {
    let mut scopes = vec![alone(NUMBER, own, true)];
    for (called, &empty) in (0..).zip(empty) {
        let mut caller = DraftScope {
            variables: vec![NUMBER],
            subscopes: vec![called],
            ..DraftScope::default()
        };
        let sort = if empty { Empty } else { Values };
        override_by(&mut caller, (0, 0), sort, way);
        let (read, more) = (caller.subscope(0, 0), caller.number(100));
        let sum = caller.node(&[13, read, more]);
        caller.define(255, 0, 255, sum);
        scopes.push(caller);
    }
    Draft { scopes }
}

/// One to three callers over one another, each of them with an empty override or not. Every
/// call is made, so the innermost decides, and under the former meaning any empty one.
pub fn chains() -> Vec<Fallback> {
    let mut all = Vec::new();
    for i in 2..16usize {
        let depth = i.ilog2();
        let empty: Vec<bool> = (0..depth).map(|caller| i >> caller & 1 == 1).collect();
        for (own, way) in Outcome::ALL.into_iter().zip(WAYS.iter().cycle().skip(i)) {
            let ends = if empty[0] { own } else { Values };
            let former = if empty.contains(&true) { Empty } else { Values };
            all.push(Fallback::new(chain(&empty, own, *way), ends, former));
        }
    }
    all
}

/// The caller of a caller hands over the switch that the latter's override hangs on: yes, no
/// or nothing, where its own is yes or no.
fn switched(handed: Option<bool>, switch: bool, own: Outcome, way: Way) -> Fallback {
    let mut middle = DraftScope {
        variables: vec![YES_NO, NUMBER],
        subscopes: vec![0],
        ..DraftScope::default()
    };
    middle.rule(255, 0, 255, u8::from(switch));
    let condition = middle.own(0);
    write(&mut middle, (0, 0), NUMBER, way, condition);
    let read = middle.subscope(0, 0);
    middle.define(255, 1, 255, read);
    let mut outer = DraftScope {
        variables: vec![NUMBER],
        subscopes: vec![1],
        ..DraftScope::default()
    };
    let node = outer.constant(handed == Some(true));
    match handed {
        Some(_) => outer.define(0, 0, 255, node),
        None => write(&mut outer, (0, 0), YES_NO, way, node),
    }
    let read = outer.subscope(0, 1);
    outer.define(255, 0, 255, read);
    let draft = Draft {
        scopes: vec![alone(NUMBER, own, true), middle, outer],
    };
    let ends = if handed.unwrap_or(switch) {
        Values
    } else {
        own
    };
    let former = if handed == Some(true) { Values } else { Empty };
    Fallback::new(draft, ends, former)
}

pub fn switches() -> Vec<Fallback> {
    let handed = [None, Some(false), Some(true)];
    let pairs = handed.iter().flat_map(|&h| [false, true].map(|s| (h, s)));
    let owns = pairs.flat_map(|(h, s)| Outcome::ALL.map(|own| (h, s, own)));
    let all = owns.flat_map(|(h, s, own)| WAYS.map(|way| switched(h, s, own, way)));
    all.collect()
}
