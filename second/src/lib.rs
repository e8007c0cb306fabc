//! A second implementation of the rule engine, written from the paper alone.
//! It exists to be compared with the engine it checks.

pub mod answer;
pub mod book;
pub mod code;
pub mod compile;
pub mod decode;
pub mod evaluate;
pub mod kind;
pub mod layout;
pub mod machine;
pub mod overriding;
pub mod reader;
pub mod records;
pub mod references;
pub mod refusal;
pub mod rulerun;
pub mod run;
pub mod scope;
pub mod scope_order;
pub mod steps;
pub mod tabulate;
pub mod trees;
pub mod typing;
pub mod value;

pub mod cases;
pub mod examples;
pub mod naive;
pub mod selfcheck;

pub use answer::{Answer, Outcome};
pub use book::{judge, steps_of, weights_of};
pub use compile::{code_by, code_of, compile};
pub use evaluate::evaluate;
pub use overriding::Overriding;
pub use run::run;
pub use tabulate::tabulate;
