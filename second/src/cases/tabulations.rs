//! The mixture of random tabulations.

use super::branching::{branching, Branching};
use super::damage::{damage, noise};
use super::draft::{results_length, variables_of, Draft, YES_NO};
use super::faults::{fault, WAYS};
use super::inputs::{bad, good_without, record};
use super::mix::{asked, some_book};
use super::random::Random;
use super::{inputs, Case, Expected, Service};

/// Bytes of every table at most: 4,096 rows of 193 bytes; no memory has to be longer.
pub const HUGE: usize = 4_096 * 193;

/// A scope of an accepted book, what is chosen of it, and a good list for the rest.
#[derive(Clone)]
pub struct Asked {
    pub book: Vec<u8>,
    pub scopes: usize,
    pub scope: usize,
    pub types: Vec<u8>,
    pub chosen: Vec<u8>,
    pub fixed: Vec<u8>,
}

impl Asked {
    /// So many chosen, or as many as there are, in any order.
    pub fn of(rng: &mut Random, draft: &Draft, scope: usize, chosen: usize) -> Asked {
        let types = draft.scopes.get(scope).map(|s| s.variables.clone());
        let types = types.unwrap_or_default();
        let mut switches = variables_of(&types, YES_NO);
        rng.shuffle(&mut switches);
        switches.truncate(chosen);
        Asked {
            book: draft.bytes(),
            scopes: draft.scopes.len(),
            scope,
            fixed: good_without(rng, &types, &switches),
            types,
            chosen: switches,
        }
    }

    pub fn row(&self) -> usize {
        1 + results_length(&self.types)
    }

    pub fn length(&self) -> usize {
        self.row() << self.chosen.len()
    }

    pub fn case(&self, label: &'static str, room: usize) -> Case {
        Case::new(label, Service::Tabulate, self.book.clone())
            .asking(self.scope, self.fixed.clone(), room)
            .choosing(self.chosen.clone())
    }

    /// Memory that is too short; the table has one byte at least.
    fn short(&self, rng: &mut Random) -> usize {
        let length = self.length();
        let lengths = [length - 1, length - 1, 0, self.row(), rng.below(length)];
        rng.pick(&lengths).min(length - 1)
    }

    /// Memory that the table fits into, mostly exactly.
    fn enough(&self, rng: &mut Random) -> usize {
        let more = [0, 0, 0, 0, 1, 7, self.row(), 1_000];
        match rng.below(200) {
            0 => HUGE + 1,
            _ => self.length() + rng.pick(&more),
        }
    }
}

/// Few mostly: the rows double with each.
fn number(rng: &mut Random) -> usize {
    match rng.below(200) {
        0 => rng.range(10, 12),
        1..=9 => rng.range(7, 9),
        10..=29 => 0,
        _ => rng.range(1, 6),
    }
}

/// The scope of a book whose outcome hangs on the chosen, or of any book.
fn any(rng: &mut Random) -> Asked {
    let chosen = number(rng);
    if rng.percent(40) {
        let draft = some_book(rng);
        let (scope, _) = asked(rng, &draft);
        return Asked::of(rng, &draft, scope, chosen);
    }
    let more = rng.pick(&[0, 0, 1, 3]);
    let Branching { draft, scope } = branching(rng, chosen + more);
    Asked::of(rng, &draft, scope, chosen)
}

/// The tabulation of a seed; the same one for the same seed.
pub fn tabulation(seed: u64) -> Case {
    let rng = &mut Random::new(seed);
    let mut of = any(rng);
    match rng.below(100) {
        _ if of.scopes == 0 => absent_scope(rng, of),
        0..=59 => {
            let room = of.enough(rng);
            of.case("tabulated", room).expecting(Expected::Accepted)
        }
        60..=66 => {
            let room = of.short(rng);
            let case = of.case("table longer than memory", room);
            case.expecting(Expected::Refused(15))
        }
        67..=78 => {
            let way = rng.below(CHOICES);
            spoil_choice(rng, &mut of, way);
            refused(rng, &of, "bad choice", 18)
        }
        79..=84 => bad_list(rng, of),
        85..=88 => absent_scope(rng, of),
        89..=93 => faulty(rng, of),
        _ => damaged(rng, of),
    }
}

/// A case that is refused, whatever the memory.
fn refused(rng: &mut Random, of: &Asked, label: &'static str, number: u8) -> Case {
    let room = rng.pick(&[0, 1, of.row(), 200, 2_000]);
    of.case(label, room).expecting(Expected::Refused(number))
}

/// How many ways there are to choose badly.
pub const CHOICES: usize = 8;

/// Chooses badly in one way; what is bad stands anywhere among the chosen.
pub fn spoil_choice(rng: &mut Random, of: &mut Asked, way: usize) {
    let past = of.types.len() as u8;
    let absent = past.max(rng.pick(&[0, 31, 32, 255]));
    let behind = of.types.iter().position(|&t| t != YES_NO);
    let worse = match way {
        0 => of.chosen.first().copied().unwrap_or(past),
        1 => past,
        2 => absent,
        3 => behind.map_or(absent, |v| v as u8),
        4 => return fix_chosen(rng, of),
        5 => return choose_thirteen(rng, of),
        6 => return of.chosen = vec![rng.byte(); rng.range(13, 300)],
        _ => return of.chosen = [of.chosen.clone(), rng.bytes(13)].concat(),
    };
    let at = rng.below(of.chosen.len() + 1);
    of.chosen.insert(at, worse);
}

/// One of the chosen is in the fixed list, too; without any, one that is not there.
fn fix_chosen(rng: &mut Random, of: &mut Asked) {
    match of.chosen[..] {
        [] => of.chosen.push(of.types.len() as u8),
        _ => {
            let given = rng.pick(&of.chosen);
            of.fixed.extend(record(rng, given.into(), YES_NO));
        }
    }
}

/// Thirteen that would be good but for their number.
fn choose_thirteen(rng: &mut Random, of: &mut Asked) {
    let Branching { draft, scope } = branching(rng, 13);
    *of = Asked::of(rng, &draft, scope, 13);
}

/// Chosen as they are, badly, or any bytes.
fn any_choice(rng: &mut Random, of: &mut Asked) {
    match rng.below(3) {
        0 => {}
        1 => {
            let way = rng.below(4);
            spoil_choice(rng, of, way);
        }
        _ => of.chosen = noise(rng),
    }
}

fn bad_list(rng: &mut Random, mut of: Asked) -> Case {
    any_choice(rng, &mut of);
    let way = rng.below(inputs::WAYS);
    of.fixed = bad(rng, &of.types, way);
    refused(rng, &of, "bad list and any choice", 14)
}

fn absent_scope(rng: &mut Random, mut of: Asked) -> Case {
    any_choice(rng, &mut of);
    of.scope = rng.pick(&[of.scopes, of.scopes + 1, 32, 255, 256, 1 << 40, usize::MAX]);
    if rng.percent(50) {
        of.fixed = noise(rng);
    }
    refused(rng, &of, "absent scope and any choice", 13)
}

fn faulty(rng: &mut Random, mut of: Asked) -> Case {
    any_choice(rng, &mut of);
    let number = rng.range(1, 12);
    // The longest book is large: seldom here.
    let least = usize::from(number == 4 && rng.percent(90));
    let way = rng.range(least, WAYS[number - 1] - 1);
    of.book = fault(rng, number as u8, way);
    of.scope = rng.below(3);
    refused(rng, &of, "faulty book and any choice", number as u8)
}

fn damaged(rng: &mut Random, mut of: Asked) -> Case {
    match rng.below(4) {
        0 => of.book = noise(rng),
        _ => damage(rng, &mut of.book),
    }
    let room = of.enough(rng);
    of.case("damaged book, tabulated", room)
}

#[cfg(test)]
mod tests {
    use super::*;
    use crate::cases::Success;

    /// The outcomes in the table of a case, each once.
    fn outcomes(case: &Case) -> Vec<u8> {
        let reply = case.reply();
        assert!(case.is_expected(reply.result), "{}", case.label);
        let Ok(Success::Table(length)) = reply.result else {
            return Vec::new();
        };
        let rows = reply.memory[..length].chunks_exact(length >> case.chosen.len());
        let mut met: Vec<u8> = rows.map(|row| row[0]).collect();
        met.sort();
        met.dedup();
        met
    }

    #[test]
    fn rows_of_one_table_end_in_several_outcomes() {
        let met: Vec<Vec<u8>> = (0..4_000).map(|seed| outcomes(&tabulation(seed))).collect();
        let with = |count: usize| met.iter().filter(|of| of.len() >= count).count();
        assert!(with(1) > 2_000, "{} tables", with(1));
        assert!(with(2) > 500, "{} with two outcomes", with(2));
        assert!(with(5) > 10, "{} with all outcomes", with(5));
    }
}
