//! The commands: words as typed to an answer.

use crate::answers;
use crate::brief::explain_briefly;
use crate::cases::Cases;
use crate::compare::compare;
use crate::draw::Drawing;
use crate::evaluator::Evaluator;
use crate::examples::{run_examples, Program};
use crate::explain::explain;
use crate::files::{read_text, Source};
use crate::inputs::{find_scope, read_inputs, standard_input, Given};
use crate::map::map;
use crate::nearest::did_you_mean;
use crate::output::{Answer, Answered, Stop};
use crate::printer::to_text;
use crate::report::Report;
use crate::rulebook::Rulebook;
use crate::self_check::self_check;
use crate::table::Table;
use crate::usage::{command, help, version, Usage};
use crate::warnings::check;
use std::path::Path;

/// A command as typed: its words, its options, and the file to write.
#[derive(Debug, Default, PartialEq, Eq)]
pub struct Typed<'a> {
    pub words: Vec<&'a str>,
    pub options: Vec<&'a str>,
    pub out: Option<&'a str>,
}

impl<'a> Typed<'a> {
    /// Sorts words; `-` alone is standard input, and an input such as `x=-2` is a word.
    pub fn of(words: &[&'a str]) -> Result<Typed<'a>, Stop> {
        let mut typed = Typed::default();
        let mut words = words.iter();
        while let Some(&word) = words.next() {
            match word {
                "-o" => {
                    let missing = || Stop::Usage("-o needs the file to write".to_string());
                    typed.out = Some(words.next().copied().ok_or_else(missing)?);
                }
                "-" => typed.words.push(word),
                _ if word.starts_with('-') => typed.options.push(word),
                _ => typed.words.push(word),
            }
        }
        Ok(typed)
    }

    /// The file to write must not be one that is read.
    pub fn keeps_what_it_reads(&self) -> Result<(), Stop> {
        let out = self.out.and_then(|out| Path::new(out).canonicalize().ok());
        let same = |word: &&&str| Path::new(word).canonicalize().ok() == out;
        match self.words.iter().find(same).filter(|_| out.is_some()) {
            Some(word) => Err(Stop::Usage(format!(
                "-o {word} would write over what is read"
            ))),
            None => Ok(()),
        }
    }

    fn has(&self, option: &str) -> bool {
        self.options.contains(&option)
    }
}

/// Runs a command.
pub fn answer(typed: &Typed) -> Answered {
    if typed.has("--help") || typed.has("-h") || typed.words.first() == Some(&"help") {
        return Ok(Answer::good(help()));
    }
    if typed.has("--version") {
        return Ok(Answer::good(version()));
    }
    let Some((name, words)) = typed.words.split_first() else {
        return Err(Stop::Usage(help().trim_end().to_string()));
    };
    let usage = command(name)?;
    let unknown = typed.options.iter().find(|o| !usage.options.contains(o));
    if let Some(option) = unknown {
        let hint = did_you_mean(option, usage.options.iter().copied());
        return Err(usage.wrong(&format!("'text {name}' has no option '{option}'{hint}")));
    }
    match words {
        [] => Err(usage.wrong(&format!("'text {name}' takes {}", usage.takes))),
        words => few(usage, words, typed),
    }
}

/// Commands about a file or a folder.
fn few(usage: &Usage, words: &[&str], typed: &Typed) -> Answered {
    match (usage.name, words) {
        ("judge", [file]) => Ok(answers::judge(&Source::read(file)?)?),
        ("check", [file]) => {
            let source = Source::read(file)?;
            Ok(check(&source.rules()?, &source.name))
        }
        ("map", [file]) => {
            let source = Source::read(file)?;
            Ok(Answer::good(map(&source.rules()?, &source.name)))
        }
        ("report", [file]) => report(file),
        ("to-book", [file]) => {
            let source = Source::read(file)?;
            match source.is_book() {
                true => Err(Stop::Failed(format!(
                    "{}: this is a book already",
                    source.name
                ))),
                false => Ok(Answer::good(source.book()?)),
            }
        }
        ("to-text", [file]) => text_of(file),
        ("examples", [program, folder]) => {
            Ok(run_examples(Program::Path(Path::new(program)), folder)?.finish())
        }
        ("self-check", [times, folder]) => Ok(self_check(count(usage, times)?, folder)?.finish()),
        ("compare", [times]) => Ok(compare(count(usage, times)?).finish()),
        _ => many(usage, words, typed),
    }
}

/// Commands about a scope of a book.
fn many(usage: &Usage, words: &[&str], typed: &Typed) -> Answered {
    match (usage.name, words) {
        ("evaluate", [file, scope, inputs @ ..]) => {
            let (name, book, scope, given) = asked(file, scope, inputs)?;
            Ok(answers::evaluate(&book, &name, scope, given)?)
        }
        ("explain", [file, scope, inputs @ ..]) => {
            let (name, book, scope, given) = asked(file, scope, inputs)?;
            Ok(Answer::good(match typed.has("--full") {
                true => explain(&book, &name, scope, given),
                false => explain_briefly(&book, &name, scope, given),
            }))
        }
        ("stdin", [file, scope, inputs @ ..]) => {
            let (_, book, scope, given) = asked(file, scope, inputs)?;
            Ok(Answer::good(standard_input(&book, scope, &given)))
        }
        ("table", [file, scope, choice @ ..]) => table(file, scope, choice, typed),
        ("draw", [file, scope, target, inputs @ ..]) => drawing(file, scope, target, inputs),
        _ => Err(unfit(usage, words)),
    }
}

/// Words that do not fit a command; one that lacks only the scope is told which there are.
fn unfit(usage: &Usage, words: &[&str]) -> Stop {
    if let ([file], true) = (words, usage.takes.starts_with("FILE SCOPE")) {
        return match Source::read(file).and_then(|source| source.rules()) {
            Err(message) => Stop::Failed(message),
            Ok(book) => {
                let names = book.names.iter().map(|names| names.scope.text.as_str());
                let names: Vec<&str> = names.collect();
                usage.wrong(&format!("say which scope: {}", names.join(", ")))
            }
        };
    }
    let (name, takes) = (usage.name, usage.takes);
    usage.wrong(&format!(
        "'text {name}' takes {takes}, not '{}'",
        words.join(" ")
    ))
}

fn table(file: &str, scope: &str, choice: &[&str], typed: &Typed) -> Answered {
    let (_, book, scope, _) = asked(file, scope, &[])?;
    let cases = Cases::named(&book, scope, choice)?;
    let table = Table::of(&Evaluator::found()?, &book, scope, cases)?;
    Ok(Answer::good(
        match (typed.has("--csv"), typed.has("--html")) {
            (true, _) => table.csv(),
            (_, true) => table.html(),
            _ => table.text(),
        },
    ))
}

fn drawing(file: &str, scope: &str, target: &str, inputs: &[&str]) -> Answered {
    let (name, book, scope, given) = asked(file, scope, inputs)?;
    let drawing = Drawing::of(&book, &name, scope, target)?;
    Ok(Answer::good(match inputs.is_empty() {
        true => drawing.plain(),
        false => drawing.with(given),
    }))
}

/// A report, with the runs that stand beside the file.
fn report(file: &str) -> Answered {
    let source = Source::read(file)?;
    let (book, text) = source.rules_and_text()?;
    let runs = Path::new(file).with_extension("runs");
    let runs = match file != "-" && runs.exists() {
        true => Some(read_text(&runs)?),
        false => None,
    };
    let report = Report {
        file: &source.name,
        book: &book,
        text: &text,
        runs: runs.as_deref(),
    };
    Ok(Answer::good(report.page()?))
}

fn count(usage: &Usage, word: &str) -> Result<u64, Stop> {
    let wrong = || usage.wrong(&format!("'{word}' is no count"));
    word.parse().map_err(|_| wrong())
}

fn text_of(file: &str) -> Answered {
    let source = Source::read(file)?;
    let begins_as_text = source.bytes().first().is_some_and(|&byte| byte >= 32);
    if begins_as_text && !source.is_book() {
        let message = format!("{}: this is a text already, and no book", source.name);
        return Err(Stop::Failed(message));
    }
    let text = to_text(source.bytes()).map_err(|fault| fault.in_file(&source.name))?;
    Ok(Answer::good(text))
}

/// What a file is called, its book, the scope of a name and its inputs.
fn asked(
    file: &str,
    scope: &str,
    inputs: &[&str],
) -> Result<(String, Rulebook, usize, Given), Stop> {
    let source = Source::read(file)?;
    let book = source.rules()?;
    let scope = find_scope(&book, scope)?;
    let given = read_inputs(&book, scope, inputs)?;
    Ok((source.name, book, scope, given))
}
