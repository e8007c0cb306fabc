//! The default tree of a target as SVG: a box a clause with its condition and
//! consequence, exceptions below what they are exceptions to. With inputs, the clause that
//! held is marked and those passed over are grey; below an override that fell back stands
//! the called scope's own tree.

use crate::evaluation::{enter, Entry, Tree};
use crate::inputs::{given_words, variable_named, Given};
use crate::marks::{fallback_of, tree_of, Marks};
use crate::nearest::did_you_mean;
use crate::overrides::{can_fall_back, Fallback};
use crate::printer::Expressions;
use crate::rulebook::Rulebook;
use crate::shape::{svg, text, Mark, Shape, GAP, LETTER, LINE};
use crate::words::{self, wrapped};
use second::kind::NONE;
use second::scope::{Clause, Consequence, Target};

/// Longest line of a box, and of a title, in letters.
const BOX: usize = 40;
const TITLE: usize = 110;

/// A target and the file that its drawing names.
pub struct Drawing<'a> {
    pub book: &'a Rulebook,
    pub file: &'a str,
    pub scope: usize,
    pub target: Target,
}

impl<'a> Drawing<'a> {
    /// The drawing of `variable` or `sub-scope.variable`.
    pub fn of(
        book: &'a Rulebook,
        file: &'a str,
        scope: usize,
        name: &str,
    ) -> Result<Drawing<'a>, String> {
        Ok(Drawing {
            book,
            file,
            scope,
            target: find_target(book, scope, name)?,
        })
    }

    /// The tree as it is written.
    pub fn plain(&self) -> String {
        let (scope, target) = decider(self.book, self.scope, self.target);
        let root = self.tree(scope, None, target);
        self.painted(&[], root, None)
    }

    /// The tree with what became of its clauses; below an override that fell back, the tree
    /// that it fell back to.
    pub fn with(&self, given: Given) -> String {
        let inputs = given_words(self.book, self.scope, &given);
        let entry = enter(self.book, self.scope, given);
        let fallback = fallback_of(&entry, self.target);
        let tree = tree_of(&entry, self.target);
        let outcome = self.outcome(&entry, tree, fallback.as_ref());
        let inputs = match inputs.is_empty() {
            true => format!("nothing given: {outcome}"),
            false => format!("given {}: {outcome}", inputs.join(", ")),
        };
        let (scope, target) = decider(self.book, self.scope, self.target);
        let root = self.tree(scope, Some(&Marks { tree }), target);
        let own = match fallback {
            Some(Fallback::Own(own)) => {
                let callee = self.book.callee(self.scope, self.target.subscope);
                Some(self.tree(callee, Some(&Marks { tree: Some(own) }), own.target))
            }
            _ => None,
        };
        self.painted(&[inputs], root, own)
    }

    fn tree(&self, scope: usize, marks: Option<&Marks>, target: Target) -> Shape {
        let book = self.book;
        Trees { book, scope, marks }.root(target)
    }

    /// What the target came to, and whether its override fell back.
    fn outcome(&self, entry: &Entry, tree: Option<&Tree>, fallback: Option<&Fallback>) -> String {
        let Target { subscope, variable } = self.target;
        let result = match fallback {
            None => tree.map(|tree| tree.result),
            Some(Fallback::Own(own)) => Some(own.result),
            Some(Fallback::NotEntered | Fallback::NotReached) => None,
        };
        let name = self.book.target_name(self.scope, self.target);
        let outcome = match (entry.value(subscope, variable), result) {
            (Some(value), _) => format!("{name} = {}", words::value(value)),
            (None, Some(Err(failure))) => format!("{name} is {}", words::failure(failure)),
            _ => format!("{name} is not reached"),
        };
        match fallback {
            Some(_) => format!("{outcome}, the override falls back to {}", self.called()),
            None => outcome,
        }
    }

    /// `scope film`, of a target of a sub-scope.
    fn called(&self) -> String {
        let callee = self.book.callee(self.scope, self.target.subscope);
        format!("scope {}", self.book.names[callee].scope.text)
    }

    fn title(&self) -> String {
        let (scope, target) = decider(self.book, self.scope, self.target);
        let name = self.book.target_name(self.scope, self.target);
        let title = format!("{name} in scope {}", self.book.names[self.scope].scope.text);
        if scope != self.scope {
            return format!("{title}, as {} decides it", self.called());
        }
        let open = target.subscope != NONE && can_fall_back(&self.book.scopes[scope], target);
        match open {
            true => format!("{title}, otherwise as {} decides it", self.called()),
            false => title,
        }
    }

    /// A tree with its title, and the called scope's own tree below it.
    fn painted(&self, more: &[String], root: Shape, own: Option<Shape>) -> String {
        let title = format!("{}, {}", self.title(), self.file);
        let mut lines = wrapped(&title, TITLE, "  ");
        lines.extend(more.iter().flat_map(|line| wrapped(line, TITLE, "  ")));
        let (mut width, mut height, mut boxes) = (root.span, root.depth, String::new());
        root.paint(0, 0, &mut boxes);
        if let Some(own) = own {
            let heading = format!("{} decides it:", self.called());
            boxes += &text(0, height + GAP + LINE, &heading, true, "black");
            let top = height + GAP + LINE + GAP / 2;
            own.paint(0, top, &mut boxes);
            width = width.max(own.span).max(heading.chars().count() * LETTER);
            height = top + own.depth;
        }
        svg(&lines, width, height, &boxes)
    }
}

fn find_target(book: &Rulebook, scope: usize, name: &str) -> Result<Target, String> {
    let Some((subscope, variable)) = name.split_once('.') else {
        let variable = variable_named(book, scope, name)? as u8;
        return Ok(Target {
            subscope: NONE,
            variable,
        });
    };
    let subscopes = &book.names[scope].subscopes;
    let found = subscopes.iter().position(|s| s.text == subscope);
    let k = found.ok_or_else(|| {
        let hint = did_you_mean(subscope, subscopes.iter().map(|s| s.text.as_str()));
        let scope = &book.names[scope].scope.text;
        format!("there is no sub-scope '{subscope}' in scope '{scope}'{hint}")
    })? as u8;
    Ok(Target {
        subscope: k,
        variable: variable_named(book, book.callee(scope, k), variable)? as u8,
    })
}

/// The scope whose clauses decide a target, and what it is there: a variable of a
/// sub-scope that is not overridden is decided by the scope that is called.
fn decider(book: &Rulebook, scope: usize, target: Target) -> (usize, Target) {
    let mut clauses = book.scopes[scope].clauses.iter();
    if target.subscope == NONE || clauses.any(|clause| clause.target == target) {
        return (scope, target);
    }
    let own = Target {
        subscope: NONE,
        ..target
    };
    (book.callee(scope, target.subscope), own)
}

/// Clauses as boxes.
struct Trees<'a> {
    book: &'a Rulebook,
    scope: usize,
    marks: Option<&'a Marks<'a>>,
}

impl Trees<'_> {
    /// One base is the tree; several, or rules, hang below a box of their own.
    fn root(&self, target: Target) -> Shape {
        let clauses = &self.book.scopes[self.scope].clauses;
        let mut below = self.row(|clause| clause.target == target && clause.parent == NONE);
        let rules = clauses.iter().any(|c| c.target == target && c.is_rule());
        if below.len() == 1 && !rules {
            return below.remove(0);
        }
        let otherwise = match (rules, below.is_empty(), target.subscope) {
            (true, ..) => "no, unless a rule holds".to_string(),
            (false, true, _) => "empty, unless given".to_string(),
            (false, false, NONE) => "empty, unless one holds".to_string(),
            (false, false, subscope) => {
                let callee = self.book.callee(self.scope, subscope);
                let scope = &self.book.names[callee].scope.text;
                format!("as scope {scope} decides, unless one holds")
            }
        };
        let name = self.book.target_name(self.scope, target);
        Shape::new(vec![name, otherwise], Mark::Plain, below)
    }

    fn row(&self, wanted: impl Fn(&Clause) -> bool) -> Vec<Shape> {
        let clauses = (0u8..).zip(&self.book.scopes[self.scope].clauses);
        let wanted = clauses.filter(|(_, clause)| wanted(clause));
        wanted.map(|(number, _)| self.clause(number)).collect()
    }

    fn clause(&self, number: u8) -> Shape {
        let clause = &self.book.scopes[self.scope].clauses[usize::from(number)];
        let expressions = Expressions::plain(self.book, self.scope);
        let condition = match clause.condition {
            NONE => "always".to_string(),
            node => format!("if {}", expressions.node(node, 0)),
        };
        let target = self.book.target_name(self.scope, clause.target);
        let consequence = match clause.consequence {
            Consequence::Node(node) => expressions.node(node, 0),
            Consequence::Constant(true) => "yes".to_string(),
            Consequence::Constant(false) => "no".to_string(),
        };
        let mut lines = vec![self.heading(number)];
        lines.extend(wrapped(&condition, BOX, "  "));
        lines.extend(wrapped(&format!("{target} is {consequence}"), BOX, "  "));
        let mark = self.marks.map_or(Mark::Plain, |marks| marks.of(number));
        let below = self.row(|other| other.parent == number);
        Shape::new(lines, mark, below)
    }

    fn heading(&self, number: u8) -> String {
        let clause = &self.book.scopes[self.scope].clauses[usize::from(number)];
        let name = &self.book.names[self.scope].clauses[usize::from(number)];
        let what = match (clause.parent, clause.is_rule()) {
            (NONE, true) => "rule",
            (NONE, false) => "definition",
            _ => "exception",
        };
        match &name.label {
            Some(label) => format!("{what} {label}, {}", name.place),
            None => format!("{what}, {}", name.place),
        }
    }
}

#[cfg(test)]
mod tests {
    use super::*;
    use crate::reading::to_rulebook;
    use second::value::Value;

    const TEXT: &str = "scope film
  variable speed : number
  variable frames : number
  label general
  define speed as 4
  exception to general
  define speed under condition frames < 24 as 2
  exception to general
  define speed under condition 30 < frames as 3";

    fn drawn(text: &str, target: &str) -> Result<String, String> {
        let book = to_rulebook(text).expect("a sound text");
        let drawing = Drawing::of(&book, "f", 0, target)?;
        Ok(drawing.plain())
    }

    #[test]
    fn one_box_a_clause_and_one_line_an_exception() {
        let svg = drawn(TEXT, "speed").expect("a target");
        assert_eq!(svg.matches("<rect x=").count(), 3);
        assert_eq!(svg.matches("<path").count(), 2);
        assert!(svg.contains("if frames &lt; 24"));
        assert!(svg.contains("definition general, 4:3"));
        assert!(svg.contains(">speed in scope film, f</text>"));
    }

    /// The first attribute of a name.
    fn number(svg: &str, name: &str) -> usize {
        let value = svg.split(&format!(" {name}=\"")).nth(1);
        let value = value.and_then(|v| v.split('"').next());
        value.and_then(|v| v.parse().ok()).expect("a number")
    }

    /// Left, top, right and bottom of every box.
    fn boxes(svg: &str) -> Vec<[usize; 4]> {
        let lines = svg.lines().filter(|line| line.starts_with("<rect x="));
        lines
            .map(|line| {
                let [x, y, w, h] = ["x", "y", "width", "height"].map(|name| number(line, name));
                [x, y, x + w, y + h]
            })
            .collect()
    }

    /// No box touches another one, and all are inside.
    fn stand_apart(svg: &str) {
        let boxes = boxes(svg);
        for (i, a) in boxes.iter().enumerate() {
            assert!(a[2] < number(svg, "width") && a[3] < number(svg, "height"));
            for b in &boxes[i + 1..] {
                let apart = a[2] < b[0] || b[2] < a[0] || a[3] < b[1] || b[3] < a[1];
                assert!(apart, "{a:?} and {b:?}");
            }
        }
    }

    #[test]
    fn boxes_stand_apart_and_inside() {
        stand_apart(&drawn(TEXT, "speed").expect("a target"));
    }

    #[test]
    fn wide_trees_are_stacked() {
        let mut text =
            "scope s variable x : number variable n : number label g define x as 0".to_string();
        for i in 0..20 {
            text += &format!("\nlabel e{i} exception to g define x under condition n = {i} as {i}");
            text +=
                &format!("\nexception to e{i} define x under condition n = {i} and n < {i} as {i}");
        }
        let svg = drawn(&text, "x").expect("a target");
        assert_eq!(boxes(&svg).len(), 41);
        assert!(number(&svg, "width") < 1100, "{}", number(&svg, "width"));
        stand_apart(&svg);
    }

    #[test]
    fn deep_trees_are_drawn_at_once() {
        let mut text = "scope s variable x : number define x as 0".to_string();
        text += &"\nexception define x as 1".repeat(127);
        assert_eq!(boxes(&drawn(&text, "x").expect("a target")).len(), 128);
    }

    #[test]
    fn a_target_without_clauses_is_one_box() {
        let svg = drawn(TEXT, "frames").expect("a target");
        assert_eq!(svg.matches("<rect x=").count(), 1);
        let wrong = |target| drawn(TEXT, target).expect_err("no target");
        assert_eq!(
            wrong("sped"),
            "there is no variable 'sped' in scope 'film'; did you mean 'speed'?"
        );
        assert_eq!(
            wrong("other.speed"),
            "there is no sub-scope 'other' in scope 'film'"
        );
    }

    #[test]
    fn what_held_is_marked_and_what_was_passed_over_is_grey() {
        let book = to_rulebook(TEXT).expect("a sound text");
        let drawing = Drawing::of(&book, "f", 0, "speed").expect("a target");
        let marked = |frames: i32| drawing.with(vec![None, Some(Value::Number(frames))]);
        let svg = marked(20);
        assert!(svg.contains("given frames = 20: speed = 2"));
        assert_eq!(svg.matches("stroke=\"#1c6b1c\"").count(), 1);
        assert_eq!(svg.matches("fill=\"white\" stroke=\"#bbb\"").count(), 2);
        let text = TEXT.replace("30 < frames", "10 < frames");
        let book = to_rulebook(&text).expect("a sound text");
        let drawing = Drawing::of(&book, "f", 0, "speed").expect("a target");
        let svg = drawing.with(vec![None, Some(Value::Number(20))]);
        assert!(svg.contains("given frames = 20: speed is in conflict"));
        assert_eq!(svg.matches("stroke=\"#9c1c1c\"").count(), 2);
        assert!(drawing
            .with(vec![None, None])
            .contains("speed is not reached"));
    }

    #[test]
    fn a_clause_above_or_below_the_range_is_marked_as_an_end() {
        let text = TEXT.replace("as 2", "as frames + 2147483628");
        let text = text.replace("as 3", "as -frames - 2147483618");
        let book = to_rulebook(&text).expect("a sound text");
        let drawing = Drawing::of(&book, "f", 0, "speed").expect("a target");
        for (frames, side) in [(20, "above"), (31, "below")] {
            let svg = drawing.with(vec![None, Some(Value::Number(frames))]);
            let title = format!("given frames = {frames}: speed is {side} the range<");
            assert!(svg.contains(&title), "{svg}");
            assert_eq!(svg.matches("stroke=\"#9c1c1c\"").count(), 1);
        }
    }

    #[test]
    fn what_is_not_overridden_is_decided_by_the_scope_that_is_called() {
        let text = "scope s variable m : number sub-scope k : t define k.n as 1
            scope t variable n : number variable y : yes/no define n as 2 rule y";
        let drawn = |target| drawn(text, target).expect("a target");
        assert!(drawn("k.n").contains("k.n is 1"));
        assert!(drawn("k.y").contains("no, unless a rule holds"));
        assert!(drawn("k.y").contains("k.y in scope s, as scope t decides it, f"));
        assert!(drawn("m").contains("empty, unless given"));
    }

    #[test]
    fn rules_and_overrides_hang_below_a_box() {
        let text = "scope s sub-scope k : t rule k.y exception rule not k.y under condition k.y
            scope t variable y : yes/no";
        assert!(to_rulebook(text).is_err(), "the call needs itself");
        let text = text.replace("under condition k.y", "under condition yes");
        let svg = drawn(&text, "k.y").expect("a target");
        assert!(svg.contains("<title>k.y in scope s, f</title>"));
        assert!(svg.contains("no, unless a rule holds"));
        assert_eq!(svg.matches("<rect x=").count(), 3);
    }
}
