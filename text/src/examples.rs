//! The example books: `NAME.rules` with its runs in `NAME.runs`, by a program such as
//! rulerun.

use crate::files::{read_rules, read_text, rule_files};
use crate::inputs::standard_input;
use crate::programs::output_of;
use crate::runs::runs_of;
use crate::tally::Tally;
use std::path::Path;

/// What to run: the second program's rulerun, or a program by its path.
#[derive(Clone, Copy)]
pub enum Program<'a> {
    Second,
    Path(&'a Path),
}

impl Program<'_> {
    pub fn output(self, input: &[u8]) -> Result<String, String> {
        match self {
            Program::Second => Ok(second::rulerun::rulerun(input)),
            Program::Path(path) => output_of(path, input),
        }
    }
}

/// Runs the examples of a folder with a program; a book without runs is passed over.
pub fn run_examples(program: Program, folder: &str) -> Result<Tally, String> {
    let mut tally = Tally::default();
    for file in rule_files(folder)? {
        let runs = file.with_extension("runs");
        match runs.exists() {
            true => run_file(program, &file, &runs, &mut tally)?,
            false => tally.say(format!(
                "{}: passed over, there is no {}",
                file.display(),
                runs.display()
            )),
        }
    }
    Ok(tally)
}

fn run_file(program: Program, rules: &Path, runs: &Path, tally: &mut Tally) -> Result<(), String> {
    let book = read_rules(rules)?;
    let text = read_text(runs)?;
    for (number, run) in runs_of(&book, &text) {
        let result = run.and_then(|run| {
            let input = standard_input(&book, run.scope, &run.given);
            run.compare(&book, &program.output(&input)?)
        });
        let place = format!("{}:{number}", runs.display());
        tally.count(result.map_err(|wrong| format!("{place}: {wrong}")));
    }
    Ok(())
}
