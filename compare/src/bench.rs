//! Time a call, the engine's and the second program's, on named books, in one run.

use crate::bench_tables;
use crate::engine::{self, Engine};
use crate::evaluating::outcome;
use crate::family;
use crate::ocaml;
use crate::stack;
use crate::timing::{beside, of_two, Beside, Call};
use second::cases::{self, draft::Draft, heavy};
use second::Outcome;
use std::hint::black_box;

/// A book, and the scope of it that is asked for.
struct Book {
    name: String,
    bytes: Vec<u8>,
    scope: usize,
}

impl Book {
    fn new(name: &str, bytes: Vec<u8>, scope: usize) -> Book {
        let name = name.to_string();
        Book { name, bytes, scope }
    }
}

/// A draft whose last scope has this weight and enters as many scopes: evaluating it must
/// end in values, the second program's and those of running its code.
fn entering(count: usize, name: &str, draft: &Draft) -> Book {
    let (bytes, scope) = (draft.bytes(), draft.scopes.len() - 1);
    let weight = second::weights_of(&bytes).map(|weights| weights[scope]);
    assert_eq!(weight, Ok(count), "{name}: the weight");
    let [mut ours, mut theirs, mut of_code] = [[0; 192]; 3];
    let answer = engine::evaluate(&bytes, scope, &[], &mut ours);
    let entered = answer.map(|answer| (answer.outcome, answer.count));
    assert_eq!(entered, Ok((Outcome::Values, count)), "{name}: evaluated");
    let second = second::evaluate(&bytes, scope, &[], &mut theirs);
    assert_eq!((second, theirs), (answer, ours), "{name}: second program");
    let ran = engine::run(&compiled(&bytes), scope, &[], &mut of_code);
    assert_eq!((ran, of_code), (answer, ours), "{name}: run");
    Book::new(name, bytes, scope)
}

/// The smallest worked example of the specification, a book of a real law's size, fixed
/// cases by name, the deepest nesting of scopes, and two books in which every call hands a
/// value over.
fn books() -> Vec<Book> {
    let text = "010202020105004593C00601050022C9E013FF00FFFF0013FF00000102";
    let byte = |at: usize| u8::from_str_radix(&text[at..at + 2], 16).expect("hexadecimal");
    let paper = (0..text.len()).step_by(2).map(byte).collect();
    let mut books = vec![
        Book::new("the paper's 29 bytes", paper, 0),
        Book::new(family::NAME, family::book(), family::HOUSEHOLD),
    ];
    let all = cases::fixed();
    for name in [
        "wide scope",
        "32,768 bytes",
        "weight 4,096",
        "250 nested nodes",
    ] {
        let case = all.iter().find(|case| case.label == name);
        let case = case.expect("a fixed case");
        books.push(Book::new(name, case.bytes.clone(), case.scope));
    }
    let (small, full) = (cases::handed::small(), cases::handed::full());
    books.extend([
        entering(32, "32 nested scopes", &cases::shapes::deep_scopes(false)),
        entering(4_096, "weight 4,096, handed, small scopes", &small),
        entering(4_096, "weight 4,096, handed, full scopes", &full),
    ]);
    books
}

/// A service on a book: the engine's times and the second program's.
fn compare<'a>(
    service: &str,
    book: &str,
    ours: impl Fn(&'static Engine) -> Call<'a>,
    theirs: Call<'a>,
) {
    let times = beside(ours, theirs);
    let (engine, second) = (times.engine.mean, times.other);
    let columns = times.columns();
    println!("| {service} | {book} | {engine:.2} | {second:.2} |{columns}");
}

/// The code of a book, as the engine writes it.
pub fn compiled(book: &[u8]) -> Vec<u8> {
    let length = second::code_of(book).expect("an accepted book").len();
    let mut code = vec![0; length];
    assert_eq!(engine::compile(book, &mut code), Ok(length), "the code");
    code
}

/// A scope that is in no code: it is refused once the code is judged.
const ABSENT: usize = 32;

/// Judging code (a run that is refused for an absent scope) and running it.
fn of_code(name: &str, code: &[u8], scope: usize) {
    for (service, scope) in [("judge code", ABSENT), ("run", scope)] {
        let run = |engine| running(engine, code, scope);
        let mut results = [0; 192];
        let other = move || _ = black_box(second::run(black_box(code), scope, &[], &mut results));
        compare(service, name, run, Box::new(other));
    }
}

/// Code that no compiler wrote: of weight 4,096 and this length, nearly all of it in the
/// block that is entered most. It must end in the second program's values.
const HEAVY: &str = "65,536 bytes of code that no compiler wrote";

fn heavy() {
    let (code, scope) = (heavy::code(65_536), heavy::SCOPE);
    let (mut ours, mut theirs) = ([0; 192], [0; 192]);
    let answer = engine::run(&code, scope, &[], &mut ours);
    let second = second::run(&code, scope, &[], &mut theirs);
    assert_eq!((second, theirs), (answer, ours), "{HEAVY}: second program");
    let entered = answer.map(|answer| (answer.outcome, answer.count));
    assert_eq!(entered, Ok((Outcome::Values, 4_096)), "{HEAVY}: run");
    of_code(HEAVY, &code, scope);
}

/// Calls of a copy of the engine.
fn judging<'a>(engine: &'static Engine, book: &'a [u8]) -> Call<'a> {
    Box::new(move || _ = black_box(engine.judge(black_box(book))))
}

fn evaluating<'a>(engine: &'static Engine, book: &'a [u8], scope: usize) -> Call<'a> {
    let mut results = [0; 192];
    Box::new(move || _ = black_box(engine.evaluate(black_box(book), scope, &[], &mut results)))
}

fn compiling<'a>(engine: &'static Engine, book: &'a [u8], mut code: Vec<u8>) -> Call<'a> {
    Box::new(move || _ = black_box(engine.compile(black_box(book), &mut code)))
}

fn running<'a>(engine: &'static Engine, code: &'a [u8], scope: usize) -> Call<'a> {
    let mut results = [0; 192];
    Box::new(move || _ = black_box(engine.run(black_box(code), scope, &[], &mut results)))
}

/// Judging, evaluating and compiling a book, and the same of its code.
fn services(name: &str, book: &[u8], scope: usize) {
    let judge = |engine| judging(engine, book);
    let other = || _ = black_box(second::judge(black_box(book)));
    compare("judge", name, judge, Box::new(other));
    let evaluate = |engine| evaluating(engine, book, scope);
    let mut results = [0; 192];
    let other = || _ = black_box(second::evaluate(black_box(book), scope, &[], &mut results));
    compare("evaluate", name, evaluate, Box::new(other));
    let code = compiled(book);
    let compile = |engine| compiling(engine, book, code.clone());
    let mut room = code.clone();
    let other = || _ = black_box(second::compile(black_box(book), &mut room));
    compare("compile", name, compile, Box::new(other));
    of_code(name, &code, scope);
}

/// The engine's times of evaluating a book and of running its code, in turns.
fn evaluated_and_run(book: &[u8], scope: usize) -> (f64, f64) {
    let code = compiled(book);
    let run = |engine| running(engine, &code, scope);
    of_two(|engine| evaluating(engine, book, scope), run)
}

/// The engine's time of evaluating a book less that of judging it, the two in turns: what
/// an evaluation takes of a book that is judged already.
fn once_judged(book: &[u8], scope: usize) -> f64 {
    let judge = |engine| judging(engine, book);
    let (evaluated, judged) = of_two(|engine| evaluating(engine, book, scope), judge);
    evaluated - judged
}

/// The book's program in OCaml: its time, once its answer is found to be the engine's.
fn in_ocaml(name: &str, book: &[u8], scope: usize) -> Option<f64> {
    let (shown, time) = match ocaml::measured(book, scope) {
        Ok(measured) => measured,
        Err(error) => {
            eprintln!("{name}: no program in OCaml: {error}");
            return None;
        }
    };
    assert_eq!(
        shown,
        ocaml::expected(book, scope),
        "{name}: OCaml's answer"
    );
    Some(time)
}

/// How the evaluation of a book ends.
fn ending(book: &[u8], scope: usize) -> &'static str {
    let answer = engine::evaluate(book, scope, &[], &mut [0; 192]);
    outcome(answer.expect("an accepted book"))
}

/// Evaluating, running and OCaml side by side.
fn side_by_side(books: &[Book]) {
    match ocaml::version() {
        Some(version) => println!("\nOCaml is ocamlopt {version}.\n"),
        None => println!("\nOCaml is not installed (no ocamlopt).\n"),
    }
    println!(
        "| book | ends in | evaluate us | once judged us | run us | run/evaluate | OCaml us | once judged/OCaml | run/OCaml |"
    );
    println!("|---|---|---|---|---|---|---|---|---|");
    for Book { name, bytes, scope } in books {
        let (evaluated, ran) = evaluated_and_run(bytes, *scope);
        let (ending, ratio) = (ending(bytes, *scope), ran / evaluated);
        let judged = once_judged(bytes, *scope);
        print!("| {name} | {ending} | {evaluated:.2} | {judged:.2} | {ran:.2} | {ratio:.2} |");
        let ocaml = ocaml::version().and_then(|_| in_ocaml(name, bytes, *scope));
        match ocaml {
            Some(time) => println!(" {time:.2} | {:.2} | {:.1} |", judged / time, ran / time),
            None => println!(" - | - | - |"),
        }
    }
}

/// The stack that a call of each exported function takes.
fn stacks(books: &[Book]) {
    println!("\n| book | engine_judge | engine_evaluate | engine_compile | engine_run | engine_tabulate |");
    println!("|---|---|---|---|---|---|");
    for Book { name, bytes, scope } in books {
        let taken = stack::of_services(bytes, *scope, &[]);
        let [judge, evaluate, compile, run, tabulate] = taken;
        println!("| {name} | {judge} | {evaluate} | {compile} | {run} | {tabulate} |");
    }
}

/// Each service on each book, and on heavy code if it is asked for.
fn times_of_services(books: &[Book], of_heavy: bool) {
    let (titles, lines) = Beside::titles();
    println!("| service | book | engine us | second us |{titles}");
    println!("|---|---|---|---|{lines}");
    for Book { name, bytes, scope } in books {
        services(name, bytes, *scope);
    }
    if of_heavy {
        heavy();
    }
}

/// All four tables, of the books whose name has this part.
pub fn run(part: &str) -> bool {
    let mut books = books();
    books.retain(|book| book.name.contains(part));
    let (tables, of_heavy) = (bench_tables::tables(part), HEAVY.contains(part));
    if books.is_empty() && tables.is_empty() && !of_heavy {
        eprintln!("no book has {part:?} in its name");
        return false;
    }
    if !books.is_empty() || of_heavy {
        times_of_services(&books, of_heavy);
    }
    bench_tables::print(&tables);
    if !books.is_empty() {
        side_by_side(&books);
        stacks(&books);
    }
    true
}
