//! Time of a table, the engine's and the second program's, and of a row of it beside one
//! evaluation.

use crate::engine::{self, Engine};
use crate::family;
use crate::timing::{beside, of_two, Beside, Call};
use second::cases::{shapes, tabulations::HUGE};
use second::Outcome;
use std::hint::black_box;

/// A table of a scope, and its bytes.
pub struct Table {
    name: &'static str,
    book: Vec<u8>,
    scope: usize,
    chosen: Vec<u8>,
    fixed: Vec<u8>,
    bytes: Vec<u8>,
}

type Tabulate = fn(&[u8], usize, &[u8], &[u8], &mut [u8]) -> Result<usize, u8>;

/// The records that give each of some variables no.
fn no(variables: &[u8]) -> Vec<u8> {
    variables.iter().flat_map(|&v| [1, v, 0]).collect()
}

impl Table {
    /// The engine must write what the second program writes, and every row must end in
    /// values.
    fn checked(mut self) -> Table {
        let name = self.name;
        let written = |tabulate: Tabulate| {
            let mut memory = vec![0; HUGE];
            let length = self.by(tabulate, &mut memory);
            memory.truncate(length.expect("a table"));
            memory
        };
        let bytes = written(engine::tabulate);
        assert!(bytes == written(second::tabulate), "{name}: second program");
        let mut rows = bytes.chunks_exact(bytes.len() >> self.chosen.len());
        let values = rows.all(|row| row[0] == Outcome::Values as u8);
        assert!(values, "{name}: a row without values");
        self.bytes = bytes;
        self
    }

    fn by(&self, tabulate: Tabulate, memory: &mut [u8]) -> Result<usize, u8> {
        let book = black_box(&self.book);
        tabulate(book, self.scope, &self.chosen, &self.fixed, memory)
    }

    /// A call of a copy of the engine.
    fn tabulating<'a>(&'a self, engine: &'static Engine) -> Call<'a> {
        let (scope, mut table) = (self.scope, self.bytes.clone());
        let (chosen, fixed) = (&self.chosen, &self.fixed);
        Box::new(move || {
            let book = black_box(&self.book);
            _ = black_box(engine.tabulate(book, scope, chosen, fixed, &mut table));
        })
    }

    /// The engine's times and the second program's, in turns.
    fn times(&self) -> Beside {
        let mut table = self.bytes.clone();
        let other = move || _ = black_box(self.by(second::tabulate, &mut table));
        beside(|engine| self.tabulating(engine), Box::new(other))
    }

    /// The engine's times of the table and of one evaluation, of the first row, in turns.
    fn beside_evaluating(&self) -> (f64, f64) {
        let list = [&self.fixed[..], &no(&self.chosen)].concat();
        let (list, scope) = (&list[..], self.scope);
        let evaluate = |engine: &'static Engine| -> Call {
            let mut results = [0; 192];
            Box::new(move || {
                let book = black_box(&self.book);
                _ = black_box(engine.evaluate(book, scope, list, &mut results));
            })
        };
        of_two(|engine| self.tabulating(engine), evaluate)
    }

    fn print(&self) {
        let (name, chosen) = (self.name, self.chosen.len());
        let times = self.times();
        let (tabulated, evaluated) = self.beside_evaluating();
        let (rows, engine, second) = (1 << chosen, times.engine.mean, times.other);
        let row = engine / f64::from(rows);
        let part = tabulated / f64::from(rows) / evaluated;
        print!("| {name} | {chosen} | {rows} | {engine:.2} | {second:.2} |");
        println!(
            "{} {row:.2} | {evaluated:.2} | {part:.2} |",
            times.columns()
        );
    }
}

/// The tables of the books whose name has this part: as many chosen as a table may have,
/// where the scope has so many, and one. What the review does not choose is no.
pub fn tables(part: &str) -> Vec<Table> {
    let (reviewed, wide) = (family::reviewed(), shapes::wide().bytes());
    let nested = shapes::deep_scopes(false).bytes();
    let all: Vec<u8> = (0..12).collect();
    let (one, others) = all.split_at(1);
    let table = |name, book: &[u8], scope, chosen: &[u8], fixed: &[u8]| Table {
        name,
        book: book.to_vec(),
        scope,
        chosen: chosen.to_vec(),
        fixed: no(fixed),
        bytes: Vec::new(),
    };
    let tables = [
        table(family::REVIEWED, &reviewed, family::REVIEW, &all, &[]),
        table(family::REVIEWED, &reviewed, family::REVIEW, one, others),
        table("wide scope", &wide, 0, &all, &[]),
        table("wide scope", &wide, 0, one, &[]),
        table("32 nested scopes", &nested, 31, &[1], &[]),
    ];
    let named = tables.into_iter().filter(|table| table.name.contains(part));
    named.map(Table::checked).collect()
}

/// A line for each; none without tables.
pub fn print(tables: &[Table]) {
    if tables.is_empty() {
        return;
    }
    let (titles, lines) = Beside::titles();
    print!("\n| table of | chosen | rows | engine us | second us |{titles}");
    println!(" engine us a row | evaluate us | row/evaluate |");
    println!("|---|---|---|---|---|{lines}---|---|---|");
    tables.iter().for_each(Table::print);
}
