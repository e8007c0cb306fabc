//! "In the fixed translation each override tree has 36 before it and 37, then 42, after it;
//! the try lands past the 42": looked for in the code.

use super::execution::length;
use std::collections::BTreeMap;

/// How many overrides the code has; nothing where one has no such try.
pub fn tried_overrides(code: &[u8]) -> Option<usize> {
    let mut kinds = Vec::new();
    // The tries by where they land.
    let mut tries: BTreeMap<usize, Vec<usize>> = BTreeMap::new();
    let (mut at, mut count) = (0, 0);
    while at < code.len() {
        let record = &code[at..at + length(code[at])];
        at += record.len();
        if let [36, high, low] = *record {
            let landing = at + usize::from(high) * 256 + usize::from(low);
            tries.entry(landing).or_default().push(kinds.len());
        }
        if record[0] == 42 {
            let landing = tries.get(&at).map_or(&[][..], |all| all);
            let [opened] = landing else { return None };
            if kinds.last() != Some(&37) || !begins(&kinds[..*opened]) {
                return None;
            }
            count += 1;
        }
        kinds.push(record[0]);
    }
    Some(count)
}

/// Whether a tree may begin behind records of these kinds: a head, or a store, an override
/// or an entry.
fn begins(before: &[u8]) -> bool {
    matches!(before.last(), Some(1..=3 | 41..=43))
}
