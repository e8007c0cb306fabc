//! A readable form of books: a small language for rules with exceptions, turned into
//! books and back; explanations of an evaluation; drawings of default trees. The
//! language is described in docs/LANGUAGE.md.
//!
//! - text to book (`reading`): `lexer`, `parser`, `expression` and `operations` give the
//!   `syntax`;
//!   `names`, `typing`, `numbering` and `cycles` make it a `rulebook`; `writer` gives
//!   the bytes
//! - book to text: `printer`, and `records` for books that the judge refuses
//! - `explain`, `brief` and `reason` with `evaluation`, `terms` and `overrides`; `draw`
//!   with `marks`, and `map`, with `shape`; `report`, `html`
//! - `table` of `cases`, which the `evaluator` gives to the proved `library` or program
//! - `warnings` and `override_warnings` from a `search` over `choices` of inputs, with
//!   `thresholds`, `ending`, `handed` and `conditions`
//! - `answers`: what the proved `programs` say, in names and words; `locate` for refusals
//! - `inputs`, `files`, `output`, `place`, `words`; `commands` and `usage`
//! - checking: `roundtrip`, `damage`, `examples` and `runs`, `self_check`, `compare`, `tally`

pub mod answers;
pub mod brief;
pub mod cases;
pub mod choices;
pub mod commands;
pub mod compare;
pub mod conditions;
pub mod cycles;
pub mod damage;
pub mod draw;
pub mod ending;
pub mod evaluation;
pub mod evaluator;
pub mod examples;
pub mod explain;
pub mod expression;
pub mod files;
pub mod handed;
pub mod html;
pub mod inputs;
pub mod lexer;
pub mod library;
pub mod locate;
pub mod map;
pub mod marks;
pub mod names;
pub mod nearest;
pub mod numbering;
pub mod operations;
pub mod output;
pub mod override_warnings;
pub mod overrides;
pub mod parser;
pub mod place;
pub mod printer;
pub mod programs;
pub mod reading;
pub mod reason;
pub mod records;
pub mod remedies;
pub mod report;
pub mod roundtrip;
pub mod rulebook;
pub mod runs;
pub mod search;
pub mod self_check;
pub mod shape;
pub mod syntax;
pub mod table;
pub mod tally;
pub mod terms;
pub mod thresholds;
pub mod typing;
pub mod usage;
pub mod warnings;
pub mod words;
pub mod writer;
