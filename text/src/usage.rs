//! The commands, what they take and what they do.

use crate::nearest::did_you_mean;
use crate::output::Stop;

/// A command as the help shows it.
pub struct Usage {
    pub name: &'static str,
    pub takes: &'static str,
    pub does: &'static str,
    pub options: &'static [&'static str],
}

const fn usage(name: &'static str, takes: &'static str, does: &'static str) -> Usage {
    Usage {
        name,
        takes,
        does,
        options: &[],
    }
}

pub const COMMANDS: [Usage; 14] = [
    usage(
        "judge",
        "FILE",
        "whether the book is accepted, by the proved judge",
    ),
    usage(
        "evaluate",
        "FILE SCOPE [NAME=VALUE ..]",
        "the value of every variable, by the proved evaluator",
    ),
    Usage {
        options: &["--full"],
        ..usage(
            "explain",
            "FILE SCOPE [NAME=VALUE ..]",
            "what decided each result; in full, with all that was passed over",
        )
    },
    usage(
        "check",
        "FILE",
        "warnings: conflicts to come, what can be empty, what is never used",
    ),
    Usage {
        options: &["--csv", "--html"],
        ..usage(
            "table",
            "FILE SCOPE [NAME[=VALUE] ..]",
            "every choice of at most 12 yes/no variables and its outcome",
        )
    },
    usage(
        "draw",
        "FILE SCOPE VARIABLE [NAME=VALUE ..]",
        "the default tree of a variable as SVG; with inputs, what held",
    ),
    usage("map", "FILE", "the scopes and their calls, as SVG"),
    usage(
        "report",
        "FILE",
        "one page: rules, warnings, trees, tables and example runs",
    ),
    usage("to-book", "FILE", "the bytes of the book of a text"),
    usage("to-text", "BOOK", "the text of a book"),
    usage(
        "stdin",
        "FILE SCOPE [NAME=VALUE ..]",
        "the bytes that the proved program rulerun reads",
    ),
    usage(
        "examples",
        "PROGRAM FOLDER",
        "every NAME.runs of a folder, by a program such as rulerun",
    ),
    usage(
        "self-check",
        "COUNT FOLDER",
        "generated books and examples, there and back",
    ),
    usage(
        "compare",
        "COUNT",
        "judge, evaluate, table of generated books, with the second program",
    ),
];

const AFTERWARDS: &str = "\
A table varies the yes/no variables that are named, or all yes/no inputs; NAME=VALUE is given
in every row. The engine's library makes it in one call where target/staticlib/libcapi.a was
there when this program was built; else rulerun is started for each row.
FILE is a text or a book; - is standard input. With -o OUT what a command writes goes to the
file OUT, and only where the command succeeds; it stands there as a whole or not at all.
The exit status is 0 for accepted, values or all well, 1 where the answer is no or something
is wrong, 2 for a command that was typed wrongly. docs/LANGUAGE.md describes the language.
";

/// The help.
pub fn help() -> String {
    let mut text = "text: rules in words, and the proved engine that reads them\n\n".to_string();
    for command in &COMMANDS {
        text += &format!("  {:<53} {}\n", command.line(), command.does);
    }
    format!("{text}\n{AFTERWARDS}")
}

pub fn version() -> String {
    format!("text {}\n", env!("CARGO_PKG_VERSION"))
}

impl Usage {
    /// The command as it is typed.
    fn line(&self) -> String {
        let options = match self.options {
            [] => String::new(),
            options => format!(" [{}]", options.join("|")),
        };
        format!("text {}{options} {}", self.name, self.takes)
    }

    /// How this command is typed, for one that was typed wrongly.
    pub fn wrong(&self, what: &str) -> Stop {
        Stop::Usage(format!("{what}\nusage: {}", self.line()))
    }
}

/// The command of a name, or what is wrong with it.
pub fn command(name: &str) -> Result<&'static Usage, Stop> {
    let found = COMMANDS.iter().find(|command| command.name == name);
    found.ok_or_else(|| {
        let hint = did_you_mean(name, COMMANDS.iter().map(|command| command.name));
        Stop::Usage(format!(
            "there is no command '{name}'{hint}\n'text --help' lists the commands"
        ))
    })
}
