//! Random accepted code that no compiler wrote.

use super::assembler::{Assembler, Label, MANY};
use super::random::Random;
use super::sides;

/// A block already written: its scope number and the types of its variables.
struct Written {
    number: u8,
    types: Vec<u8>,
}

/// Code, and the scope asked for with its types.
pub struct Handmade {
    pub code: Vec<u8>,
    pub scope: usize,
    pub types: Vec<u8>,
}

pub fn handmade(rng: &mut Random) -> Handmade {
    let mut numbers: Vec<u8> = (0..32).collect();
    rng.shuffle(&mut numbers);
    let mut assembler = Assembler::default();
    let mut written: Vec<Written> = Vec::new();
    for &number in &numbers[..rng.range(1, 4)] {
        let types: Vec<u8> = (0..rng.below(4)).map(|_| rng.pick(&[1, 2])).collect();
        let mut subscopes = Vec::new();
        if !written.is_empty() {
            let count = rng.below(3);
            subscopes.extend((0..count).map(|_| rng.below(written.len())));
        }
        let named: Vec<u8> = subscopes.iter().map(|&b| written[b].number).collect();
        assembler.block(number, &types, &named);
        let callees = subscopes.iter().map(|&b| written[b].types.clone());
        let mut writer = Writer::new(rng, types.clone(), callees.collect());
        writer.write(rng, &mut assembler);
        written.push(Written { number, types });
    }
    let last = written.len() - 1;
    let asked = if rng.percent(70) {
        last
    } else {
        rng.below(last + 1)
    };
    Handmade {
        code: assembler.finish(),
        scope: usize::from(written[asked].number),
        types: written.swap_remove(asked).types,
    }
}

/// What stands on the stack on the straight way through: 1 yes/no, 2 number,
/// 3 nothing, 4 many.
struct Writer {
    types: Vec<u8>,
    callees: Vec<Vec<u8>>,
    stack: Vec<u8>,
    stored: Vec<bool>,
    entered: Vec<bool>,
    tries: usize,
    open: Vec<Label>,
    /// Chances in a hundred: of an instruction that does not fit, of leaving the range.
    wild: usize,
    leaving: usize,
}

impl Writer {
    fn new(rng: &mut Random, types: Vec<u8>, callees: Vec<Vec<u8>>) -> Writer {
        Writer {
            stored: vec![false; types.len()],
            entered: vec![false; callees.len()],
            types,
            callees,
            stack: Vec::new(),
            tries: 0,
            open: Vec::new(),
            wild: rng.pick(&[0, 0, 1, 5, 30]),
            leaving: rng.pick(&[0, 0, 0, 3]),
        }
    }

    fn write(&mut self, rng: &mut Random, out: &mut Assembler) {
        for _ in 0..rng.below(24) {
            self.instruction(rng, out);
            if rng.percent(30) {
                if let Some(label) = self.open.pop() {
                    out.land(label);
                }
            }
        }
        self.complete(rng, out);
        for label in std::mem::take(&mut self.open) {
            out.land(label);
        }
    }

    /// Mostly stores and enters what the end of the block asks for.
    fn complete(&mut self, rng: &mut Random, out: &mut Assembler) {
        if rng.percent(self.wild) {
            return;
        }
        for k in 0..self.callees.len() {
            if !self.entered[k] {
                out.put(&[43, k as u8]);
            }
        }
        for v in 0..self.types.len() {
            if !self.stored[v] {
                let label = out.label();
                out.branch(&[44, v as u8], label);
                self.push_value(rng, out, self.types[v]);
                out.put(&[41, v as u8]);
                out.land(label);
            }
        }
    }

    fn push_value(&mut self, rng: &mut Random, out: &mut Assembler, of: u8) {
        match of {
            1 => out.put(&[4, rng.below(2) as u8]),
            _ => {
                out.put(&[5]);
                out.put(&rng.number(20).to_be_bytes());
            }
        }
    }

    fn top(&self, depth: usize) -> u8 {
        let at = self.stack.len().checked_sub(depth + 1);
        at.map_or(0, |at| self.stack[at])
    }

    fn instruction(&mut self, rng: &mut Random, out: &mut Assembler) {
        if rng.percent(self.wild) {
            return self.anything(rng, out);
        }
        if rng.percent(self.leaving) {
            out.put(&sides::any_instructions(rng));
            return self.stack.push(2);
        }
        match rng.below(12) {
            0..=2 => self.push(rng, out),
            3 | 4 => self.operate(rng, out),
            5 => self.join(rng, out),
            6 => self.store(rng, out),
            7 => self.call(rng, out),
            8 => self.jump(rng, out),
            9 => self.open_try(rng, out),
            10 => self.close_try(out),
            _ => self.read(rng, out),
        }
    }

    fn push(&mut self, rng: &mut Random, out: &mut Assembler) {
        let of = rng.pick(&[1, 1, 2, 2, 2, 3, 4]);
        match of {
            3 => out.put(&[38]),
            4 => out.put(MANY),
            _ => self.push_value(rng, out, of),
        }
        self.stack.push(of);
    }

    fn operate(&mut self, rng: &mut Random, out: &mut Assembler) {
        let (left, right) = (self.top(1), self.top(0));
        let (kind, takes, gives) = match (left, right) {
            (1, 1) => (rng.pick(&[12, 15]), 2, 1),
            (2, 2) => rng.pick(&[(13, 2, 2), (14, 2, 2), (15, 2, 1), (16, 2, 1)]),
            (_, 1) => (10, 1, 1),
            (_, 2) => (11, 1, 2),
            _ => return,
        };
        self.stack.truncate(self.stack.len() - takes);
        self.stack.push(gives);
        out.put(&[kind]);
    }

    /// Joins the top two, or settles the top with any landing.
    fn join(&mut self, rng: &mut Random, out: &mut Assembler) {
        if self.stack.len() >= 2 && rng.percent(60) {
            let (right, left) = (self.stack.pop(), self.stack.pop());
            let joined = match (left, right) {
                (Some(3), Some(a)) | (Some(a), Some(3)) => a,
                _ => 4,
            };
            self.stack.push(joined);
            out.put(&[39]);
        } else if matches!(self.top(0), 1..=3) {
            let label = self.forward(out);
            out.branch(&[40], label);
            if self.top(0) == 3 {
                self.stack.pop();
            }
        }
    }

    fn store(&mut self, rng: &mut Random, out: &mut Assembler) {
        let v = rng.below(self.types.len().max(1));
        let fits = self.types.get(v) == Some(&self.top(0)) && !self.stored[v];
        if fits {
            let label = out.label();
            out.branch(&[44, v as u8], label);
            out.put(&[41, v as u8]);
            out.land(label);
            self.stored[v] = true;
            self.stack.pop();
        }
    }

    /// Overrides one variable, or enters.
    fn call(&mut self, rng: &mut Random, out: &mut Assembler) {
        let k = rng.below(self.callees.len().max(1));
        let Some(types) = self.callees.get(k) else {
            return;
        };
        if self.entered[k] {
            return;
        }
        let wanted = types.iter().position(|&of| of == self.top(0));
        if let Some(v) = wanted {
            self.stack.pop();
            out.put(&[42, k as u8, v as u8]);
        }
        out.put(&[43, k as u8]);
        self.entered[k] = true;
    }

    fn forward(&mut self, out: &mut Assembler) -> Label {
        let label = out.label();
        self.open.push(label);
        label
    }

    fn jump(&mut self, rng: &mut Random, out: &mut Assembler) {
        let label = self.forward(out);
        if self.top(0) == 1 {
            self.stack.pop();
            out.branch(&[35], label);
        } else if rng.percent(30) {
            out.branch(&[34], label);
        } else if !self.types.is_empty() {
            let v = rng.below(self.types.len()) as u8;
            out.branch(&[44, v], label);
        }
    }

    fn open_try(&mut self, rng: &mut Random, out: &mut Assembler) {
        let label = self.forward(out);
        out.branch(&[36], label);
        self.tries += 1;
        if rng.percent(30) {
            out.put(&[32]);
        }
    }

    fn close_try(&mut self, out: &mut Assembler) {
        if self.tries > 0 {
            self.tries -= 1;
            out.put(&[37]);
        }
    }

    fn read(&mut self, rng: &mut Random, out: &mut Assembler) {
        let v = rng.below(self.types.len().max(1));
        if self.types.len() > v && self.stored[v] {
            out.put(&[6, v as u8]);
            self.stack.push(self.types[v]);
        }
        let k = rng.below(self.callees.len().max(1));
        if self.entered.get(k) == Some(&true) && !self.callees[k].is_empty() {
            let v = rng.below(self.callees[k].len());
            out.put(&[7, k as u8, v as u8]);
            self.stack.push(self.callees[k][v]);
        }
    }

    /// Any instruction that names only what is there, fitting or not.
    fn anything(&mut self, rng: &mut Random, out: &mut Assembler) {
        let v = rng.below(self.types.len().max(1)) as u8;
        let k = rng.below(self.callees.len().max(1)) as u8;
        let u = self.callees.get(usize::from(k)).map_or(0, Vec::len);
        let label = self.forward(out);
        match rng.below(16) {
            0 if u > 0 => out.put(&[7, k, rng.below(u) as u8]),
            1 if u > 0 => out.put(&[42, k, rng.below(u) as u8]),
            2 if !self.callees.is_empty() => out.put(&[43, k]),
            3 if !self.types.is_empty() => out.put(&[6, v]),
            4 if !self.types.is_empty() => out.put(&[41, v]),
            5 if !self.types.is_empty() => out.branch(&[44, v], label),
            6 => out.put(&[33]),
            7 => out.put(&[32]),
            8 => out.put(&[37]),
            9 => out.branch(&[rng.pick(&[34, 35, 36, 40])], label),
            10 => out.put(&[38]),
            _ => out.put(&[rng.pick(&[10, 11, 12, 13, 14, 15, 16, 39])]),
        }
    }
}
