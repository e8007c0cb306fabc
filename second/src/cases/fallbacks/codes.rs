//! Code with tries around overrides, as the translation has them and otherwise.

use super::super::stuck::Directed;
use super::super::Expected;
use crate::answer::Outcome;
use crate::examples::hex;

const STUCK: Expected = Expected::Refused(17);
const VALUES: Expected = Expected::Ends(Outcome::Values);
const EMPTY: Expected = Expected::Ends(Outcome::Empty);
const CONFLICT: Expected = Expected::Ends(Outcome::Conflict);
const ABOVE: Expected = Expected::Ends(Outcome::Above);
const BELOW: Expected = Expected::Ends(Outcome::Below);

/// What stands between the head of the caller's block and the read of the sub-scope's
/// variable, which is no by itself; the answer.
const OVERRIDES: &[(&str, Expected)] = &[
    // As the translation has them: an empty one, and values.
    ("240005 20 25 2a0000 2b00", VALUES),
    ("240006 0401 25 2a0000 2b00", VALUES),
    // Before request 5.
    ("20 2a0000 2b00", EMPTY),
    ("0401 2a0000 2b00", VALUES),
    // 37 behind the 42, or none.
    ("240005 20 2a0000 25 2b00", VALUES),
    ("240006 0401 2a0000 25 2b00", VALUES),
    ("240005 0401 2a0000 2b00", VALUES),
    // The try lands on the 37, on the 42 without a value and with one, and past the 43.
    ("240001 20 25 2a0000 2b00", STUCK),
    ("240002 20 25 2a0000 2b00", STUCK),
    ("0401 240002 20 25 2a0000 2b00", VALUES),
    ("240007 20 25 2a0000 2b00", STUCK),
    // Nothing handed over, then a value; a value, then another or nothing.
    ("240005 20 25 2a0000 240006 0401 25 2a0000 2b00", VALUES),
    ("240006 0401 25 2a0000 240006 0401 25 2a0000 2b00", STUCK),
    ("240006 0401 25 2a0000 240005 20 25 2a0000 2b00", VALUES),
    // An empty one after the entry is no second override.
    ("2b00 240005 20 25 2a0000", VALUES),
    ("2b00 240006 0401 25 2a0000", STUCK),
    // Conflict, above and below pass the try.
    ("240005 21 25 2a0000 2b00", CONFLICT),
    ("24000a 0580000000 0b 25 2a0000 2b00", ABOVE),
    ("24000f 0580000000 0500000001 0e 25 2a0000 2b00", BELOW),
];

/// A try that is open when the sub-scope is entered does not catch its empty.
const AROUND_ENTRY: [&str; 2] = [
    "240005 20 25 2a0000 2b00",
    "24000b 240005 20 25 2a0000 2b00 25",
];

pub fn codes() -> Vec<Directed> {
    let no = OVERRIDES
        .iter()
        .map(|&(code, expected)| directed(code, "0400", expected));
    let empty = AROUND_ENTRY.map(|code| directed(code, "20", EMPTY));
    no.chain(empty).collect()
}

/// A sub-scope of one variable with its own tree; the caller's variable reads it.
fn directed(overrides: &str, own: &str, expected: Expected) -> Directed {
    let past = hex(own).len() + 2;
    let callee = format!("0100 0201 2c0000{past:02x} {own} 2900");
    Directed {
        code: hex(&format!("{callee} 0101 0201 0300 {overrides} 070000 2900")),
        scope: 1,
        inputs: Vec::new(),
        expected,
    }
}
