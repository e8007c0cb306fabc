//! Boxes of text that hang below one another, painted as SVG. What would be too wide stands
//! in lines below each other instead.

use crate::html::escaped;

/// Sizes in pixels, for letters of one width.
pub const LETTER: usize = 8;
pub const LINE: usize = 17;
pub const PADDING: usize = 9;
pub const GAP: usize = 24;
const DROP: usize = 34;
const INDENT: usize = 40;

/// The widest that boxes stand side by side.
pub const WIDEST: usize = 1000;

/// How a box is painted.
#[derive(Clone, Copy, Debug, Default, PartialEq, Eq)]
pub enum Mark {
    #[default]
    Plain,
    /// It gave the value.
    Held,
    /// It ended in conflict, above or below the range, or met another one.
    Ended,
    /// It was passed over, or not tried.
    Passed,
}

impl Mark {
    /// Fill, stroke, width of the stroke and colour of the letters.
    fn colours(self) -> [&'static str; 4] {
        match self {
            Mark::Plain => ["white", "black", "1", "black"],
            Mark::Held => ["#e3f3e3", "#1c6b1c", "3", "black"],
            Mark::Ended => ["#fbe6e6", "#9c1c1c", "3", "black"],
            Mark::Passed => ["white", "#bbb", "1", "#999"],
        }
    }
}

/// A box and those below it; the first line is its heading.
pub struct Shape {
    lines: Vec<String>,
    mark: Mark,
    below: Vec<Shape>,
    /// Width of the boxes below, side by side, and whether they stand in lines.
    row: usize,
    stacked: bool,
    /// Width and height of the whole tree.
    pub span: usize,
    pub depth: usize,
}

impl Shape {
    /// A box with its sizes, those of the boxes below being known.
    pub fn new(lines: Vec<String>, mark: Mark, below: Vec<Shape>) -> Shape {
        let row = below.iter().map(|shape| shape.span).sum::<usize>();
        let row = row + GAP * below.len().saturating_sub(1);
        let stacked = row > WIDEST;
        let mut shape = Shape {
            lines,
            mark,
            below,
            row,
            stacked,
            span: 0,
            depth: 0,
        };
        let widest = shape.below.iter().map(|below| below.span).max();
        let depths = shape.below.iter().map(|below| below.depth);
        let (span, depth) = match stacked {
            true => (
                INDENT + widest.unwrap_or(0),
                depths.map(|depth| GAP + depth).sum(),
            ),
            false => (row, depths.map(|depth| DROP + depth).max().unwrap_or(0)),
        };
        shape.span = shape.width().max(span);
        shape.depth = shape.height() + depth;
        shape
    }

    pub fn width(&self) -> usize {
        let longest = self.lines.iter().map(|line| line.chars().count()).max();
        longest.unwrap_or(0) * LETTER + 2 * PADDING
    }

    pub fn height(&self) -> usize {
        self.lines.len() * LINE + 2 * PADDING
    }

    /// Paints the tree into the part from `left` and `top` on.
    pub fn paint(&self, left: usize, top: usize, svg: &mut String) {
        match self.stacked {
            true => self.paint_stacked(left, top, svg),
            false => self.paint_beside(left, top, svg),
        }
    }

    /// Boxes below stand side by side.
    fn paint_beside(&self, left: usize, top: usize, svg: &mut String) {
        let middle = left + self.span / 2;
        let bottom = top + self.height();
        let mut start = left + (self.span - self.row) / 2;
        for shape in &self.below {
            let under = start + shape.middle();
            let half = bottom + DROP / 2;
            let next = bottom + DROP;
            let line = format!("M{middle} {bottom} V{half} H{under} V{next}");
            shape.paint_line(&line, svg);
            shape.paint(start, next, svg);
            start += shape.span + GAP;
        }
        self.paint_box(middle - self.width() / 2, top, svg);
    }

    /// Boxes below stand in lines, each a little to the right.
    fn paint_stacked(&self, left: usize, top: usize, svg: &mut String) {
        let trunk = left + INDENT / 2;
        let bottom = top + self.height();
        let mut next = bottom + GAP;
        for shape in &self.below {
            let start = left + INDENT;
            let side = start + shape.middle() - shape.width() / 2;
            let height = next + shape.height() / 2;
            shape.paint_line(&format!("M{trunk} {bottom} V{height} H{side}"), svg);
            shape.paint(start, next, svg);
            next += shape.depth + GAP;
        }
        self.paint_box(left, top, svg);
    }

    /// The middle of the box, from the left side of its tree.
    fn middle(&self) -> usize {
        match self.stacked {
            true => self.width() / 2,
            false => self.span / 2,
        }
    }

    fn paint_line(&self, line: &str, svg: &mut String) {
        let colour = match self.mark {
            Mark::Passed => "#bbb",
            _ => "black",
        };
        *svg += &format!("<path d=\"{line}\" fill=\"none\" stroke=\"{colour}\"/>\n");
    }

    pub fn paint_box(&self, left: usize, top: usize, svg: &mut String) {
        let (width, height) = (self.width(), self.height());
        let [fill, stroke, thick, letters] = self.mark.colours();
        *svg += &format!(
            "<rect x=\"{left}\" y=\"{top}\" width=\"{width}\" height=\"{height}\" rx=\"4\" \
             fill=\"{fill}\" stroke=\"{stroke}\" stroke-width=\"{thick}\"/>\n"
        );
        for (i, line) in self.lines.iter().enumerate() {
            let (x, y) = (left + PADDING, top + PADDING + LINE * i + 13);
            *svg += &text(x, y, line, i == 0, letters);
        }
    }
}

/// A line of text.
pub fn text(x: usize, y: usize, line: &str, bold: bool, colour: &str) -> String {
    let weight = match bold {
        true => " font-weight=\"bold\"",
        false => "",
    };
    let line = escaped(line);
    format!("<text x=\"{x}\" y=\"{y}\"{weight} fill=\"{colour}\" xml:space=\"preserve\">{line}</text>\n")
}

/// A drawing of a size, with its title.
pub fn svg(title: &[String], width: usize, height: usize, paint: &str) -> String {
    let longest = title.iter().map(|line| line.chars().count()).max();
    let above = LINE * title.len() + GAP / 2;
    let width = (width + 2 * GAP).max(longest.unwrap_or(0) * LETTER + 2 * GAP);
    let height = height + above + 2 * GAP;
    let mut svg = format!(
        "<svg xmlns=\"http://www.w3.org/2000/svg\" width=\"{width}\" height=\"{height}\" \
         viewBox=\"0 0 {width} {height}\" font-family=\"monospace\" font-size=\"13\">\n\
         <title>{}</title>\n<rect width=\"{width}\" height=\"{height}\" fill=\"white\"/>\n",
        escaped(&title.join(", "))
    );
    for (i, line) in title.iter().enumerate() {
        svg += &text(GAP, GAP + LINE * i + 10, line, i == 0, "black");
    }
    let top = GAP + above;
    svg + &format!("<g transform=\"translate({GAP} {top})\">\n{paint}</g>\n</svg>\n")
}
