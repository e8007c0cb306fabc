//! Warnings about overrides: those that always fall back or only repeat, those by rules
//! that hand over no where the called scope says yes, and those that may be empty.

use crate::ending::Cause;
use crate::handed::Handed;
use crate::place::Fault;
use crate::search::Found;
use crate::warnings::{for_instance, About};
use second::kind::NONE;
use second::scope::Target;

impl About<'_> {
    /// What the runs showed of each override, at its first clause.
    pub(crate) fn overrides(&self, found: &[Found], all: &mut Vec<Fault>) {
        let words = &self.words;
        for (&(subscope, variable), known) in &self.found.overrides.0 {
            let target = Target { subscope, variable };
            let Some(clause) = words.first_clause(target) else {
                continue;
            };
            let (name, scope) = (words.target(clause), self.called(target));
            let mut warn = |message| all.push(Fault::at(words.place(clause), message));
            if self.always_falls_back(found, target) {
                let cases = match self.found.tried {
                    1 => "its one case".to_string(),
                    tried => format!("any of the {tried} cases"),
                };
                warn(format!(
                    "this override of {name} always falls back to scope {scope}: \
                     it gives no value in {cases}"
                ));
            }
            if known.handed == Handed::Same && self.found.exact {
                warn(format!(
                    "this override of {name} repeats scope {scope}'s own rule: it changes nothing"
                ));
            }
            if let Some(example) = &known.no_for_yes {
                warn(format!(
                    "{name} is no where no rule of this override holds, though scope {scope} \
                     says yes by itself{}; rules do not fall back to scope {scope}, \
                     definitions do",
                    for_instance(example)
                ));
            }
        }
    }

    /// The name of the scope that an override is of.
    fn called(&self, target: Target) -> &str {
        let book = self.words.book;
        let callee = book.callee(self.words.scope, target.subscope);
        &book.names[callee].scope.text
    }

    /// Whether an override was empty in all cases, and in all calls of its scope.
    pub(crate) fn always_falls_back(&self, found: &[Found], target: Target) -> bool {
        let key = (target.subscope, target.variable);
        let known = self.found.overrides.0.get(&key);
        let nothing = known.is_some_and(|known| known.handed == Handed::Nothing);
        let clauses = self.clauses().iter().zip(0u8..);
        let mut clauses = clauses.filter(|(clause, _)| clause.target == target);
        self.found.exact && nothing && !clauses.any(|(_, number)| self.held_in_call(found, number))
    }

    /// What to add to the warning that a target may be empty. There is no such warning where
    /// a run showed it, or where an override falls back to clauses of the called scope.
    pub(crate) fn without_definition(&self, target: Target) -> Option<String> {
        let Target { subscope, variable } = target;
        if subscope == NONE {
            let shown = self.found.has(Cause::Empty(subscope, variable));
            return (!shown).then(String::new);
        }
        let words = &self.words;
        let callee = words.book.callee(words.scope, subscope);
        let own = Target {
            subscope: NONE,
            ..target
        };
        let mut clauses = words.book.scopes[callee].clauses.iter();
        let defined = clauses.any(|clause| clause.target == own);
        let name = &words.book.names[words.scope].subscopes[usize::from(subscope)].text;
        let key = (format!("{name}."), callee, Cause::NotGiven(variable));
        let open = !defined && !self.found.endings.contains_key(&key);
        open.then(|| format!(", and scope {} does not define it", self.called(target)))
    }
}
