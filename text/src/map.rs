//! The scopes of a book and their calls as SVG: callers above what they call.

use crate::choices::inputs_of;
use crate::rulebook::Rulebook;
use crate::shape::{svg, text, Mark, Shape, GAP, LETTER, WIDEST};
use crate::words::wrapped;

/// Longest line of a box, in letters.
const BOX: usize = 34;

/// Room between rows of scopes, for the names of calls.
const BETWEEN: usize = 64;

/// A scope's box and where it stands.
struct Placed {
    shape: Shape,
    left: usize,
    top: usize,
}

/// Draws the scopes of a book.
pub fn map(book: &Rulebook, file: &str) -> String {
    let placed = place(book);
    let calls = calls(book);
    let mut paint = String::new();
    for &(caller, callee) in &calls {
        paint_call(&placed, caller, callee, &mut paint);
    }
    for scope in &placed {
        scope.shape.paint_box(scope.left, scope.top, &mut paint);
    }
    for &(caller, callee) in &calls {
        paint_label(book, &placed, caller, callee, &mut paint);
    }
    let right = placed.iter().map(|p| p.left + p.shape.width()).max();
    let bottom = placed.iter().map(|p| p.top + p.shape.height()).max();
    let title = format!("the scopes of {file} and their calls");
    svg(&[title], right.unwrap_or(0), bottom.unwrap_or(0), &paint)
}

/// Which scope calls which, each pair once.
fn calls(book: &Rulebook) -> Vec<(usize, usize)> {
    let mut calls = Vec::new();
    for (caller, scope) in book.scopes.iter().enumerate() {
        for &callee in &scope.subscopes {
            let call = (caller, usize::from(callee));
            if !calls.contains(&call) {
                calls.push(call);
            }
        }
    }
    calls
}

/// How far below a scope that nothing calls each scope stands; those by themselves stand
/// below all others.
fn ranks(book: &Rulebook) -> Vec<usize> {
    let calls = calls(book);
    let mut ranks = vec![0; book.scopes.len()];
    // No scope reaches itself: after as many rounds as there are scopes all is settled.
    for _ in 0..book.scopes.len() {
        for &(caller, callee) in &calls {
            ranks[callee] = ranks[callee].max(ranks[caller] + 1);
        }
    }
    let last = ranks.iter().copied().max().unwrap_or(0);
    for (scope, rank) in ranks.iter_mut().enumerate() {
        let alone = !calls.iter().any(|&(a, b)| a == scope || b == scope);
        if alone && !calls.is_empty() {
            *rank = last + 1;
        }
    }
    ranks
}

/// The scopes of each row: one rank a row, broken where it would be too wide.
fn rows(ranks: &[usize], shapes: &[Shape]) -> Vec<Vec<usize>> {
    let mut rows: Vec<Vec<usize>> = Vec::new();
    for rank in 0..=ranks.iter().copied().max().unwrap_or(0) {
        let mut row: Vec<usize> = Vec::new();
        for scope in (0..ranks.len()).filter(|&scope| ranks[scope] == rank) {
            let width = row_width(&row, shapes) + 2 * GAP + shapes[scope].width();
            if width > WIDEST && !row.is_empty() {
                rows.push(std::mem::take(&mut row));
            }
            row.push(scope);
        }
        rows.push(row);
    }
    rows
}

fn row_width(row: &[usize], shapes: &[Shape]) -> usize {
    let widths = row.iter().map(|&scope| shapes[scope].width() + 2 * GAP);
    widths.sum::<usize>().saturating_sub(2 * GAP)
}

/// Rows below each other, each in the middle.
fn place(book: &Rulebook) -> Vec<Placed> {
    let shapes: Vec<Shape> = (0..book.scopes.len())
        .map(|s| scope_shape(book, s))
        .collect();
    let rows = rows(&ranks(book), &shapes);
    let widest = rows.iter().map(|row| row_width(row, &shapes)).max();
    let mut places = vec![(0, 0); shapes.len()];
    let mut top = 0;
    for row in &rows {
        let mut left = (widest.unwrap_or(0) - row_width(row, &shapes)) / 2;
        for &scope in row {
            places[scope] = (left, top);
            left += shapes[scope].width() + 2 * GAP;
        }
        let highest = row.iter().map(|&scope| shapes[scope].height()).max();
        top += highest.unwrap_or(0) + BETWEEN;
    }
    let placed = shapes.into_iter().zip(places);
    placed
        .map(|(shape, (left, top))| Placed { shape, left, top })
        .collect()
}

/// The scope's name, what is given to it and what it gives.
fn scope_shape(book: &Rulebook, scope: usize) -> Shape {
    let names = &book.names[scope];
    let inputs = inputs_of(&book.scopes[scope]);
    let listed = |what: &str, wanted: bool| {
        let all = names.variables.iter().enumerate();
        let some = all.filter(|(v, _)| inputs.contains(v) == wanted);
        let words: Vec<&str> = some.map(|(_, word)| word.text.as_str()).collect();
        match words.is_empty() {
            true => Vec::new(),
            false => wrapped(&format!("{what} {}", words.join(", ")), BOX, "  "),
        }
    };
    let mut lines = vec![format!("scope {}, {}", names.scope.text, names.scope.place)];
    lines.extend(listed("needs", true));
    lines.extend(listed("gives", false));
    Shape::new(lines, Mark::Plain, Vec::new())
}

/// From the bottom of the caller to the top of what is called.
fn ends(placed: &[Placed], caller: usize, callee: usize) -> [usize; 4] {
    let (from, to) = (&placed[caller], &placed[callee]);
    let x = from.left + from.shape.width() / 2;
    let y = from.top + from.shape.height();
    [x, y, to.left + to.shape.width() / 2, to.top]
}

fn paint_call(placed: &[Placed], caller: usize, callee: usize, paint: &mut String) {
    let [x, y, to_x, to_y] = ends(placed, caller, callee);
    let (half, head) = ((y + to_y) / 2, to_y - 5);
    *paint += &format!(
        "<path d=\"M{x} {y} C{x} {half} {to_x} {half} {to_x} {head}\" fill=\"none\" stroke=\"black\"/>\n\
         <path d=\"M{} {} L{to_x} {to_y} L{} {}\" fill=\"none\" stroke=\"black\"/>\n",
        to_x - 5,
        to_y - 8,
        to_x + 5,
        to_y - 8
    );
}

/// The names of the calls, on their line where it comes to the row of what is called.
fn paint_label(
    book: &Rulebook,
    placed: &[Placed],
    caller: usize,
    callee: usize,
    paint: &mut String,
) {
    let calls = book.scopes[caller].subscopes.iter();
    let names = calls.zip(&book.names[caller].subscopes);
    let own = names.filter(|(&called, _)| usize::from(called) == callee);
    let label: Vec<&str> = own.map(|(_, word)| word.text.as_str()).collect();
    let label = label.join(", ");
    let width = label.chars().count() * LETTER + 6;
    let ends = ends(placed, caller, callee);
    let height = ends[3] - BETWEEN / 2;
    let left = across(ends, height).saturating_sub(width / 2);
    *paint += &format!(
        "<rect width=\"{width}\" height=\"16\" transform=\"translate({left} {})\" fill=\"white\"/>\n",
        height - 8
    );
    *paint += &text(left + 3, height + 4, &label, false, "#1c3f6b");
}

/// Where the line of a call is at a height: the curve rises with its parameter.
fn across([x, y, to_x, to_y]: [usize; 4], height: usize) -> usize {
    let [x, y, to_x, to_y, height] = [x, y, to_x, to_y, height].map(|n| n as f64);
    let half = (y + to_y) / 2.0;
    let at = |t: f64, ends: [f64; 4]| {
        let s = 1.0 - t;
        let weights = [s * s * s, 3.0 * s * s * t, 3.0 * s * t * t, t * t * t];
        weights
            .iter()
            .zip(ends)
            .map(|(w, end)| w * end)
            .sum::<f64>()
    };
    let (mut low, mut high) = (0.0, 1.0);
    for _ in 0..30 {
        let middle = (low + high) / 2.0;
        match at(middle, [y, half, half, to_y]) < height {
            true => low = middle,
            false => high = middle,
        }
    }
    at(low, [x, x, to_x, to_x]) as usize
}

#[cfg(test)]
mod tests {
    use super::*;
    use crate::reading::to_rulebook;

    #[test]
    fn a_line_is_followed_to_its_ends() {
        assert_eq!(across([10, 0, 10, 64], 32), 10);
        assert!(across([0, 0, 100, 64], 1) < 5);
        assert!((48..=50).contains(&across([0, 0, 100, 64], 32)));
        assert!(across([0, 0, 100, 264], 232) > 80);
    }

    #[test]
    fn callers_stand_above_what_they_call() {
        let text = "scope b variable y : yes/no scope a sub-scope k : b sub-scope l : b sub-scope m : c scope c sub-scope n : b";
        let book = to_rulebook(text).expect("a sound text");
        assert_eq!(ranks(&book), [2, 0, 1]);
        let alone = to_rulebook("scope a scope b sub-scope k : c scope c").expect("a sound text");
        assert_eq!(ranks(&alone), [2, 0, 1]);
        assert_eq!(
            ranks(&to_rulebook("scope a scope b").expect("a sound text")),
            [0, 0]
        );
        let svg = map(&book, "f");
        assert_eq!(svg.matches("<rect x=").count(), 3);
        assert!(svg.contains(">k, l</text>"));
        assert!(svg.contains(">needs y</text>"));
        assert!(svg.contains(">the scopes of f and their calls</text>"));
    }
}
