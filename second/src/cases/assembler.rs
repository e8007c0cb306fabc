//! Code under construction, written with the paper's own numbers.

/// One entry of each sort for the stack: the code that puts it there.
pub const YES: &[u8] = &[4, 1];
pub const ONE: &[u8] = &[5, 0, 0, 0, 1];
pub const NOTHING: &[u8] = &[38];
pub const MANY: &[u8] = &[4, 1, 4, 1, 39];

/// A place in the code that distances land on.
#[derive(Clone, Copy)]
pub struct Label(usize);

#[derive(Default)]
pub struct Assembler {
    bytes: Vec<u8>,
    places: Vec<Option<usize>>,
    /// Where a distance stands, and where it lands.
    distances: Vec<(usize, Label)>,
}

impl Assembler {
    /// Begins a block with its variables and sub-scopes.
    pub fn block(&mut self, number: u8, types: &[u8], subscopes: &[u8]) {
        self.bytes.extend([1, number]);
        types.iter().for_each(|&of| self.bytes.extend([2, of]));
        subscopes.iter().for_each(|&s| self.bytes.extend([3, s]));
    }

    pub fn put(&mut self, bytes: &[u8]) {
        self.bytes.extend(bytes);
    }

    pub fn label(&mut self) -> Label {
        self.places.push(None);
        Label(self.places.len() - 1)
    }

    /// An instruction that ends in a distance.
    pub fn branch(&mut self, head: &[u8], to: Label) {
        self.put(head);
        self.distances.push((self.bytes.len(), to));
        self.put(&[0, 0]);
    }

    /// Puts a label here.
    pub fn land(&mut self, label: Label) {
        self.places[label.0] = Some(self.bytes.len());
    }

    pub fn finish(mut self) -> Vec<u8> {
        for &(at, label) in &self.distances {
            let place = self.places[label.0].unwrap_or(at + 2);
            let distance = (place - at - 2) as u16;
            self.bytes[at..at + 2].copy_from_slice(&distance.to_be_bytes());
        }
        self.bytes
    }
}
