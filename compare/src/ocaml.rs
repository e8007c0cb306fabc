//! A book as a program in OCaml, by the source paper's translation: scopes as functions
//! of thunks by its figure 7, default terms by its figures 9 and 10. Numbers are checked
//! against 32 bits. Written from the second program's syntax tree, compiled with
//! ocamlopt where that is installed.

use crate::engine;
use crate::evaluating::{outcome, OUTCOMES};
use crate::overriding;
use crate::running::run_of;
use crate::tally::Tally;
use second::book::Book;
use second::cases::random::Random;
use second::cases::{books, fallbacks};
use second::kind;
use second::scope::{Node, Scope, Target};
use second::selfcheck::{in_evaluation, EVALUATED};
use second::steps::Step;
use second::trees::{node_term, Part, Term, Trees};
use second::value::Type;
use std::process::Command;

/// What stands before every book. In figure 10 conflict is raised at the second value;
/// here once every exception was evaluated, as 4.1 has it. Operands are taken left first.
const PRELUDE: &str = "exception Empty
exception Conflict
exception Above
exception Below

let process_exceptions exceptions =
  let force (found, many) thunk =
    match found, (try Some (thunk ()) with Empty -> None) with
    | None, value -> value, many
    | Some _, None -> found, many
    | Some _, Some _ -> found, true in
  match List.fold_left force (None, false) exceptions with
  | _, true -> raise Conflict
  | found, false -> found

let in_range n =
  if n > 2147483647 then raise Above else if n < -2147483648 then raise Below else n
let absent () = raise Empty
let handed tree =
  match tree () with
  | value -> (fun () -> value)
  | exception Empty -> absent
let number variable n = Printf.printf \"%d %d\\n\" variable n
let yes_no variable b = Printf.printf \"%d %s\\n\" variable (if b then \"yes\" else \"no\")
";

/// Behind a book that is measured: outcome and values, then the time of one evaluation
/// in microseconds, the best of 300 rounds of about a millisecond.
const MEASURE: &str = "
let once () =
  try ignore (Sys.opaque_identity (asked ())) with Empty | Conflict | Above | Below -> ()

let seconds calls =
  let start = Sys.time () in
  for _ = 1 to calls do once () done;
  Sys.time () -. start

let rec calls_of_a_round calls =
  if seconds calls < 0.001 then calls_of_a_round (2 * calls) else calls

let () =
  show ();
  let calls = calls_of_a_round 1 in
  let best = ref infinity in
  for _ = 1 to 300 do best := min !best (seconds calls) done;
  Printf.printf \"%.4f\\n\" (!best *. 1e6 /. float_of_int calls)
";

/// One scope, as a function.
struct Writer<'a> {
    book: &'a Book,
    scope: &'a Scope,
    trees: Trees,
    text: String,
}

/// `name_0 name_1 ..`, one for each variable.
fn names(variables: &[Type], name: impl Fn(usize) -> String, between: &str) -> String {
    let all: Vec<String> = (0..variables.len()).map(name).collect();
    all.join(between)
}

/// A scope's variables as a tuple.
fn tuple(variables: &[Type], name: impl Fn(usize) -> String) -> String {
    format!("({})", names(variables, name, ", "))
}

fn type_name(of: Type) -> &'static str {
    match of {
        Type::YesNo => "bool",
        Type::Number => "int",
    }
}

impl Writer<'_> {
    fn put(&mut self, text: &str) {
        self.text.push_str(text);
    }

    /// C-SCOPE and C-EMPTY: a function of a thunk for each variable, and of a unit so
    /// that a scope without variables is one too; it gives all of them, forced.
    fn write(&mut self, number: usize) {
        let variables = &self.scope.variables;
        let thunk = |v: usize| format!("(x{v} : unit -> {})", type_name(variables[v]));
        let head = names(variables, thunk, " ");
        self.put(&format!("\nlet scope_{number} {head} () =\n"));
        for step in &self.book.steps[number] {
            match *step {
                Step::Variable(v) => self.variable(v),
                Step::Call(k) => self.call(k),
            }
        }
        let result = tuple(&self.scope.variables, |v| format!("x{v}"));
        self.put(&format!("  {result}\n"));
    }

    /// C-DEF: what the caller hands over is the exception of the variable's own tree.
    fn variable(&mut self, v: usize) {
        self.put(&format!(
            "  let x{v} = match process_exceptions [x{v}] with Some e -> e | None -> "
        ));
        self.part(self.trees.own_tree(self.scope, v));
        self.put(" in\n");
    }

    /// C-CALL: the overrides are evaluated, the call gets them as thunks, an empty one as a
    /// thunk that is empty. Figure 7 begins each with an exception that is always empty; it is
    /// left out.
    fn call(&mut self, k: usize) {
        let callee = usize::from(self.scope.subscopes[k]);
        let variables = &self.book.scopes[callee].variables;
        let mut thunks = String::new();
        for v in 0..variables.len() {
            let target = Target {
                subscope: k as u8,
                variable: v as u8,
            };
            match self.trees.tree(self.scope, target) {
                Some(tree) => {
                    self.put(&format!("  let s{k}_{v} = handed (fun () -> "));
                    self.part(tree);
                    self.put(") in\n");
                    thunks += &format!(" s{k}_{v}");
                }
                None => thunks += " absent",
            }
        }
        let result = tuple(variables, |v| format!("s{k}_{v}"));
        self.put(&format!("  let {result} = scope_{callee}{thunks} () in\n"));
    }

    fn part(&mut self, part: Part) {
        match part {
            Part::Empty => self.put("raise Empty"),
            Part::Constant(yes) => self.put(if yes { "true" } else { "false" }),
            Part::Node(node) => self.node(node),
            Part::Clause(number) => {
                let clause = &self.scope.clauses[usize::from(number)];
                let term = self.trees.clause_term(number, clause);
                self.term(split(term));
            }
            Part::Bases { first, rules } => {
                let term = self.trees.bases_term(first, rules);
                self.term(split(term));
            }
        }
    }

    /// C-DEFAULT.
    fn term(&mut self, (exceptions, justification, consequence): (Vec<Part>, Part, Part)) {
        self.put("(");
        if !exceptions.is_empty() {
            self.put("match process_exceptions [");
            for exception in exceptions {
                self.put("(fun () -> ");
                self.part(exception);
                self.put("); ");
            }
            self.put("] with Some e -> e | None -> ");
        }
        self.put("if ");
        self.part(justification);
        self.put(" then ");
        self.part(consequence);
        self.put(" else raise Empty)");
    }

    fn node(&mut self, number: u8) {
        match self.scope.nodes[usize::from(number)] {
            Node::Constant(yes) => self.part(Part::Constant(yes)),
            Node::Number(n) => self.put(&format!("({n})")),
            Node::Own(v) => self.put(&format!("x{v}")),
            Node::Subscope(k, v) => self.put(&format!("s{k}_{v}")),
            Node::Empty(_) => self.put("(raise Empty)"),
            Node::Conflict(_) => self.put("(raise Conflict)"),
            Node::Unary(kind::NOT, a) => self.around("(not ", a, ")"),
            Node::Unary(_, a) => self.around("(in_range (- ", a, "))"),
            Node::Binary(kind, a, b) => self.binary(kind, a, b),
            Node::If(c, a, b) => {
                self.around("(if ", c, "");
                self.around(" then ", a, "");
                self.around(" else ", b, ")");
            }
            Node::Default(exceptions, j, c) => self.term(split(node_term(&exceptions, j, c))),
        }
    }

    fn around(&mut self, before: &str, node: u8, after: &str) {
        self.put(before);
        self.node(node);
        self.put(after);
    }

    fn binary(&mut self, kind: u8, a: u8, b: u8) {
        self.around("(let a = ", a, " in ");
        self.around("let b = ", b, " in ");
        self.put(match kind {
            kind::AND => "a && b)",
            kind::ADD => "in_range (a + b))",
            kind::SUBTRACT => "in_range (a - b))",
            kind::EQUAL => "a = b)",
            _ => "a < b)",
        });
    }
}

fn split(term: Term) -> (Vec<Part>, Part, Part) {
    let (justification, consequence) = (term.justification, term.consequence);
    (term.exceptions.collect(), justification, consequence)
}

/// The scopes of an accepted book; `asked ()` evaluates one of them without inputs, and
/// `show ()` prints the outcome and the values.
fn scopes(book: &Book, asked: usize) -> String {
    let mut text = String::new();
    for &number in &book.order {
        let scope = &book.scopes[number];
        let mut writer = Writer {
            book,
            scope,
            trees: Trees::of(scope),
            text: String::new(),
        };
        writer.write(number);
        text += &writer.text;
    }
    let variables = &book.scopes[asked].variables;
    let absent = " absent".repeat(variables.len());
    let result = tuple(variables, |v| format!("x{v}"));
    let print = |v: usize| match variables[v] {
        Type::YesNo => format!("yes_no {v} x{v}; "),
        Type::Number => format!("number {v} x{v}; "),
    };
    let printed = names(variables, print, "");
    text + &format!(
        "
let asked () = scope_{asked}{absent} ()

let show () =
  match asked () with
  | {result} -> print_endline \"values\"; {printed}()
  | exception Empty -> print_endline \"empty\"
  | exception Conflict -> print_endline \"conflict\"
  | exception Above -> print_endline \"above\"
  | exception Below -> print_endline \"below\"
"
    )
}

/// The version of ocamlopt, if there is one.
pub fn version() -> Option<String> {
    let output = Command::new("ocamlopt").arg("-version").output().ok()?;
    let text = String::from_utf8(output.stdout).ok()?;
    output.status.success().then(|| text.trim().to_string())
}

/// Compiles a program and runs it: what it prints, or why there is nothing.
fn printed(text: &str) -> Result<String, String> {
    let place = format!("compare-ocaml-{}", std::process::id());
    let folder = std::env::temp_dir().join(place);
    let fail = |error: std::io::Error| error.to_string();
    std::fs::create_dir_all(&folder).map_err(fail)?;
    std::fs::write(folder.join("book.ml"), text).map_err(fail)?;
    let compiled = output(Command::new("ocamlopt").current_dir(&folder).args(OPTIONS));
    let printed = compiled.and_then(|_| output(&mut Command::new(folder.join("book"))));
    std::fs::remove_dir_all(&folder).map_err(fail)?;
    printed
}

/// -O3 is for compilers that have flambda, others take it without a word.
const OPTIONS: [&str; 6] = ["-O3", "-w", "-a", "-o", "book", "book.ml"];

fn output(command: &mut Command) -> Result<String, String> {
    let output = command.output().map_err(|error| error.to_string())?;
    let text = |bytes: Vec<u8>| String::from_utf8_lossy(&bytes).to_string();
    match output.status.success() {
        true => Ok(text(output.stdout)),
        false => Err(text(output.stderr)),
    }
}

/// What the book's program prints of outcome and values, and its time.
pub fn measured(book: &[u8], asked: usize) -> Result<(String, f64), String> {
    let book = Book::accept(book).map_err(|refusal| format!("{refusal:?}"))?;
    let printed = printed(&[PRELUDE, &scopes(&book, asked), MEASURE].concat())?;
    let lines = printed.trim_end().rsplit_once('\n');
    let (shown, time) = lines.ok_or("no time was printed")?;
    let time = time.parse().map_err(|_| "no time was printed")?;
    Ok((format!("{shown}\n"), time))
}

/// What the engine answers, printed in the same way.
pub fn expected(book: &[u8], asked: usize) -> String {
    let mut results = [0; 192];
    let Ok(answer) = engine::evaluate(book, asked, &[], &mut results) else {
        return "refused\n".to_string();
    };
    let mut text = format!("{}\n", outcome(answer));
    let mut rest = &results[..answer.length];
    while let [kind, variable, value @ ..] = rest {
        let length = if *kind == 1 { 1 } else { 4 };
        let (own, behind) = value.split_at(length);
        let shown = match own {
            [0] => "no".to_string(),
            [_] => "yes".to_string(),
            number => second::value::number(number).to_string(),
        };
        text += &format!("{variable} {shown}\n");
        rest = behind;
    }
    text
}

/// Books in one program: most that ocamlopt takes without running out of stack, and less.
const TOGETHER: usize = 200;

/// `cases` generated books: the engine's outcome and values of the last scope of each,
/// and OCaml's. Each outcome and all that may become of an override must be met.
pub fn run(cases: u64) -> bool {
    let all: Vec<(Vec<u8>, Book)> = (0..cases).filter_map(generated).collect();
    let mut tally = Tally::default();
    for some in all.chunks(TOGETHER) {
        compare_some(&mut tally, some);
    }
    OUTCOMES
        .iter()
        .for_each(|outcome| tally.expect_met(outcome));
    overriding::expect(&mut tally, EVALUATED);
    tally.finish()
}

/// A generated book that has scopes; every fourth has empty overrides.
fn generated(seed: u64) -> Option<(Vec<u8>, Book)> {
    let rng = &mut Random::new(seed);
    let draft = match seed % 4 {
        0 => fallbacks::books::any(rng),
        _ => books::any_book(rng),
    };
    let bytes = draft.bytes();
    let book = Book::accept(&bytes).ok()?;
    (!book.scopes.is_empty()).then_some((bytes, book))
}

fn compare_some(tally: &mut Tally, some: &[(Vec<u8>, Book)]) {
    let mut text = PRELUDE.to_string();
    for (i, (_, book)) in some.iter().enumerate() {
        let scopes = scopes(book, book.scopes.len() - 1);
        text += &format!("module Book_{i} = struct\n{scopes}\nend\n");
        text += &format!("let () = Book_{i}.show (); print_endline \"end\"\n");
    }
    let printed = printed(&text).expect("the program runs");
    let shown: Vec<&str> = printed.split_terminator("end\n").collect();
    assert_eq!(shown.len(), some.len(), "every book prints its answer");
    for ((bytes, book), theirs) in some.iter().zip(shown) {
        let ours = expected(bytes, book.scopes.len() - 1);
        let on = || format!("engine {ours:?}, OCaml {theirs:?}: {bytes:02x?}");
        let ending = ours.lines().next().unwrap_or_default();
        tally.count(ending, (ours == theirs).then_some(()).ok_or_else(on));
        note_overrides(tally, bytes, book.scopes.len() - 1);
    }
}

/// Notes what becomes of the overrides of a book.
fn note_overrides(tally: &mut Tally, book: &[u8], asked: usize) {
    let mut case = run_of(EVALUATED, book.to_vec());
    (case.scope, case.room) = (asked, 192);
    overriding::note(tally, EVALUATED, in_evaluation(&case));
}
