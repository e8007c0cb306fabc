//! The mixture of random cases.

use super::books::{any_book, book, Plan};
use super::damage::{damage, noise};
use super::draft::{results_length, Draft};
use super::fallbacks::{self, FORMER};
use super::faults::{self, fault, WAYS};
use super::handmade::{handmade, Handmade};
use super::inputs;
use super::random::Random;
use super::sequences::sequence;
use super::spoiled::{self, spoil};
use super::stuck::Directed;
use super::terms::Term;
use super::{badcode, shapes, stuck, terms};
use super::{Case, Expected, Service};
use crate::{code_by, code_of, Overriding};

/// Makes cases from seeds; keeps the tables of directed code at hand.
pub struct Mix {
    stuck: Vec<Directed>,
    bad: Vec<(Vec<u8>, Expected)>,
}

impl Default for Mix {
    fn default() -> Self {
        Mix::new()
    }
}

impl Mix {
    pub fn new() -> Mix {
        Mix {
            stuck: stuck::all(),
            bad: badcode::all(),
        }
    }

    pub fn case(&self, seed: u64) -> Case {
        let rng = &mut Random::new(seed);
        match rng.below(100) {
            0..=27 => evaluation(rng),
            28..=29 => evaluate_term(&terms::any(rng)),
            30..=36 => refused_evaluation(rng),
            37..=43 => compilation(rng),
            44..=47 => Case::new("accepted, judged", Service::Judge, any_book(rng).bytes())
                .expecting(Expected::Accepted),
            48..=59 => one_fault(rng),
            60..=61 => two_faults(rng),
            62..=69 => damaged_book(rng),
            70..=73 => any_bytes(rng),
            74..=79 => compiled_run(rng),
            80..=86 => damaged_run(rng),
            87..=94 => handmade_run(rng),
            95..=97 => self.directed_run(rng),
            _ => self.unaccepted_run(rng),
        }
    }

    /// Runs of code that no compiler wrote, some of them on a scope, inputs or a room
    /// that do not fit.
    pub fn foreign_code(&self, seed: u64) -> Case {
        let rng = &mut Random::new(seed);
        let mut case = match rng.below(100) {
            0..=9 => run_bytes(noise(rng)),
            10..=29 => sequence_run(rng),
            30..=49 => handmade_run(rng),
            50..=79 => spoiled_run(rng),
            80..=85 => damaged_run(rng),
            86..=87 => former_run(rng),
            88..=94 => self.directed_run(rng),
            _ => self.unaccepted_run(rng),
        };
        match rng.below(12) {
            0 => case.scope = rng.pick(&[0, 1, 31, 32, 255, 256, 1 << 40, usize::MAX]),
            1 => case.inputs = noise(rng),
            2 => case.room = rng.below(case.room + 1),
            3 => case.room = 0,
            _ => return case,
        }
        case.expecting(Expected::Anything)
    }

    fn directed_run(&self, rng: &mut Random) -> Case {
        let directed = stuck::any(rng, &self.stuck);
        run_directed(&directed)
    }

    /// Code of the table of unaccepted code, or a piece of it, or with a tail.
    fn unaccepted_run(&self, rng: &mut Random) -> Case {
        let (mut code, expected) = self.bad[rng.below(self.bad.len())].clone();
        let case = |code, expected| {
            Case::new("code of the acceptance table", Service::Run, code).expecting(expected)
        };
        if rng.percent(50) {
            damage(rng, &mut code);
            return case(code, Expected::Anything).asking(rng.below(3), Vec::new(), 40);
        }
        case(code, expected).asking(rng.below(3), Vec::new(), 40)
    }
}

/// A small term evaluated.
pub fn evaluate_term((draft, outcome): &Term) -> Case {
    Case::new("small term", Service::Evaluate, draft.bytes())
        .expecting(Expected::Ends(*outcome))
        .asking(0, Vec::new(), 6)
}

/// A directed run with room for the results of any block.
pub fn run_directed(directed: &Directed) -> Case {
    Case::new("directed code", Service::Run, directed.code.clone())
        .expecting(directed.expected)
        .asking(directed.scope, directed.inputs.clone(), 192)
}

/// A scope of a draft and its types, scope 0 without types when there is none.
pub fn asked(rng: &mut Random, draft: &Draft) -> (usize, Vec<u8>) {
    let heavy = (0..draft.scopes.len()).max_by_key(|&s| draft.scopes[s].subscopes.len());
    let scope = match heavy {
        Some(heavy) if rng.percent(40) => heavy,
        _ => rng.below(draft.scopes.len()),
    };
    let types = draft.scopes.get(scope).map(|s| s.variables.clone());
    (scope, types.unwrap_or_default())
}

/// Room that fits exactly or is longer.
fn enough(rng: &mut Random, length: usize) -> usize {
    length + rng.pick(&[0, 0, 1, 7, 64])
}

/// An accepted book, now and then a large or extreme one, or one of empty overrides.
pub fn some_book(rng: &mut Random) -> Draft {
    match rng.below(400) {
        0 => {
            let plan = Plan::large(rng);
            book(rng, plan)
        }
        1 => shapes::heaviest(rng, true),
        2..=31 => fallbacks::books::any(rng),
        _ => any_book(rng),
    }
}

pub fn evaluation(rng: &mut Random) -> Case {
    let draft = some_book(rng);
    let (scope, types) = asked(rng, &draft);
    let list = inputs::good(rng, &types);
    let room = enough(rng, results_length(&types));
    Case::new("accepted, evaluated", Service::Evaluate, draft.bytes())
        .expecting(Expected::Accepted)
        .asking(scope, list, room)
}

/// An accepted book with an absent scope, a bad list or too little room.
fn refused_evaluation(rng: &mut Random) -> Case {
    let draft = any_book(rng);
    let (service, bytes) = match rng.below(2) {
        0 => (Service::Evaluate, draft.bytes()),
        _ => (Service::Run, code_of(&draft.bytes()).unwrap_or_default()),
    };
    let (scope, types) = asked(rng, &draft);
    let length = results_length(&types);
    let case = Case::new("scope, inputs or room refused", service, bytes);
    let scopes = draft.scopes.len();
    match rng.below(3) {
        0 => {
            let absent = rng.pick(&[scopes, scopes + 1, 32, 255, 256, 1 << 40, usize::MAX]);
            let case = case.expecting(Expected::Refused(13));
            case.asking(absent, noise(rng), rng.below(40))
        }
        _ if scopes == 0 => case
            .expecting(Expected::Refused(13))
            .asking(0, Vec::new(), 0),
        1 => {
            let way = rng.below(inputs::WAYS);
            let case = case.expecting(Expected::Refused(14));
            case.asking(scope, inputs::bad(rng, &types, way), rng.below(length + 9))
        }
        _ if length == 0 => case
            .expecting(Expected::Accepted)
            .asking(scope, Vec::new(), 0),
        _ => {
            let room = if rng.percent(70) {
                length - 1
            } else {
                rng.below(length)
            };
            let list = inputs::good(rng, &types);
            case.expecting(Expected::Refused(15))
                .asking(scope, list, room)
        }
    }
}

fn compilation(rng: &mut Random) -> Case {
    let bytes = some_book(rng).bytes();
    let length = code_of(&bytes).map_or(0, |code| code.len());
    let case = Case::new("accepted, compiled", Service::Compile, bytes);
    if length > 0 && rng.percent(40) {
        let room = if rng.percent(50) {
            length - 1
        } else {
            rng.below(length)
        };
        return case
            .expecting(Expected::Refused(15))
            .asking(0, Vec::new(), room);
    }
    let room = enough(rng, length);
    case.expecting(Expected::Accepted)
        .asking(0, Vec::new(), room)
}

/// Any service that takes a book, with some scope, inputs and room.
fn on_book(rng: &mut Random, label: &'static str, bytes: Vec<u8>) -> Case {
    let service = rng.pick(&[Service::Judge, Service::Evaluate, Service::Compile]);
    let scope = rng.below(4);
    let list = if rng.percent(20) {
        noise(rng)
    } else {
        Vec::new()
    };
    let room = rng.pick(&[0, 200, 4_000]);
    Case::new(label, service, bytes).asking(scope, list, room)
}

fn one_fault(rng: &mut Random) -> Case {
    let number = rng.range(1, 12);
    let way = rng.below(WAYS[number - 1]);
    // The longest book is large: seldom here, always in the fixed list.
    let way = if number == 4 && way == 0 && rng.percent(90) {
        1
    } else {
        way
    };
    let bytes = fault(rng, number as u8, way);
    on_book(rng, "one fault", bytes).expecting(Expected::Refused(number as u8))
}

fn two_faults(rng: &mut Random) -> Case {
    let (first, second) = (rng.range(1, 12) as u8, rng.range(1, 12) as u8);
    let (bytes, number) = faults::two_faults(rng, first, second);
    on_book(rng, "two faults", bytes).expecting(Expected::Refused(number))
}

fn damaged_book(rng: &mut Random) -> Case {
    let mut bytes = any_book(rng).bytes();
    damage(rng, &mut bytes);
    on_book(rng, "damaged book", bytes)
}

fn any_bytes(rng: &mut Random) -> Case {
    let bytes = noise(rng);
    if rng.percent(60) {
        return on_book(rng, "random bytes", bytes);
    }
    run_bytes(bytes)
}

fn compiled_run(rng: &mut Random) -> Case {
    translated_run(rng, "compiled code", Overriding::FallsBack)
}

fn former_run(rng: &mut Random) -> Case {
    translated_run(rng, FORMER, Overriding::EndsCaller)
}

/// The code of an accepted book by one of the translations, run.
fn translated_run(rng: &mut Random, label: &'static str, by: Overriding) -> Case {
    let draft = some_book(rng);
    let code = code_by(by, &draft.bytes()).unwrap_or_default();
    let (scope, types) = asked(rng, &draft);
    let list = inputs::good(rng, &types);
    let room = enough(rng, results_length(&types));
    Case::new(label, Service::Run, code)
        .expecting(Expected::Accepted)
        .asking(scope, list, room)
}

fn damaged_run(rng: &mut Random) -> Case {
    let draft = any_book(rng);
    let mut code = code_of(&draft.bytes()).unwrap_or_default();
    damage(rng, &mut code);
    let (scope, types) = asked(rng, &draft);
    let list = inputs::good(rng, &types);
    Case::new("damaged code", Service::Run, code).asking(scope, list, 200)
}

fn handmade_run(rng: &mut Random) -> Case {
    let made = handmade(rng);
    well_formed(rng, "hand-made code", made)
}

fn sequence_run(rng: &mut Random) -> Case {
    let made = sequence(rng);
    well_formed(rng, "well-formed code", made)
}

/// Accepted code, run on the scope it names.
fn well_formed(rng: &mut Random, label: &'static str, made: Handmade) -> Case {
    let list = inputs::good(rng, &made.types);
    let room = enough(rng, results_length(&made.types));
    Case::new(label, Service::Run, made.code)
        .expecting(Expected::Accepted)
        .asking(made.scope, list, room)
}

/// Random bytes run as code.
fn run_bytes(bytes: Vec<u8>) -> Case {
    let scope = bytes.get(1).map_or(0, |&number| usize::from(number));
    Case::new("random bytes", Service::Run, bytes).asking(scope, Vec::new(), 200)
}

/// Compiled code with one thing wrong, run.
fn spoiled_run(rng: &mut Random) -> Case {
    let draft = any_book(rng);
    let mut code = code_of(&draft.bytes()).unwrap_or_default();
    let way = rng.below(spoiled::WAYS);
    spoil(rng, &mut code, way);
    let (scope, types) = asked(rng, &draft);
    let list = inputs::good(rng, &types);
    Case::new("spoiled code", Service::Run, code).asking(scope, list, 200)
}
