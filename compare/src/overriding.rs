//! What becomes of overrides, and that "runs that meet no such override keep their answers".

use crate::tally::Tally;
use second::cases::Reply;
use second::naive;
use second::selfcheck::{expected_overridden, tried, Former, Met, Overridden, TRIED};
use std::collections::BTreeSet;

fn named((label, overridden): Met) -> String {
    format!("override, {label}: {overridden:?}")
}

/// Notes what an evaluation, a table or a run of code with a label met, each once.
pub fn note(tally: &mut Tally, label: &'static str, met: impl IntoIterator<Item = Overridden>) {
    let each: BTreeSet<Overridden> = met.into_iter().collect();
    for one in each {
        tally.meet(&named((label, one)));
    }
}

/// What must have been met by those with a label.
pub fn expect(tally: &mut Tally, label: &str) {
    let classes = expected_overridden().concat();
    for class in classes.into_iter().filter(|class| class.0 == label) {
        tally.expect_met(&named(class));
    }
}

const KEPT: &str = "no empty override before request 5";
const EMPTY: &str = "an empty override before request 5";

/// The engine's reply is the second program's under the former meaning, unless that met an
/// empty override.
pub fn compare_former(tally: &mut Tally, former: &Former, ours: &Reply, on: impl Fn() -> String) {
    if former.any_empty {
        return tally.meet(EMPTY);
    }
    let difference = || {
        let (before, now) = (former.reply.result, ours.result);
        format!(
            "before {before:?}, now {now:?}, or their memories: {}",
            on()
        )
    };
    let kept = former.is_kept(ours).then_some(()).ok_or_else(difference);
    tally.count(KEPT, kept);
}

pub fn expect_former(tally: &mut Tally) {
    [KEPT, EMPTY].iter().for_each(|met| tally.expect_met(met));
}

fn compiled(tree: impl std::fmt::Debug) -> String {
    format!("compiled override: {tree:?}")
}

/// Notes whether the override trees of an accepted book can be empty.
pub fn note_compiled(tally: &mut Tally, book: &[u8]) {
    let scopes = naive::parse(book).unwrap_or_default();
    let each: BTreeSet<_> = scopes.iter().flat_map(tried).collect();
    for tree in each {
        tally.meet(&compiled(tree));
    }
}

pub fn expect_compiled(tally: &mut Tally) {
    for tree in TRIED {
        tally.expect_met(&compiled(tree));
    }
}
