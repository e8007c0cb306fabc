//! "Did you mean": the known word that is nearest to one that is not known.

/// The nearest of some words, where few letters are other ones.
pub fn nearest<'a>(word: &str, known: impl IntoIterator<Item = &'a str>) -> Option<&'a str> {
    let allowed = match word.chars().count() {
        0..=2 => 1,
        3..=5 => 2,
        _ => 3,
    };
    let known = known
        .into_iter()
        .map(|other| (distance(word, other), other));
    let best = known.filter(|&(far, other)| far <= allowed && far < other.chars().count());
    best.min().map(|(_, other)| other)
}

/// `; did you mean 'speed'?`, or nothing.
pub fn did_you_mean<'a>(word: &str, known: impl IntoIterator<Item = &'a str>) -> String {
    let found = nearest(word, known);
    found.map_or_else(String::new, |found| format!("; did you mean '{found}'?"))
}

/// The word of the language for what other languages call otherwise: `true`, `Yes`.
pub fn yes_no_word(name: &str) -> Option<&'static str> {
    match name.to_lowercase().as_str() {
        "yes" | "true" => Some("yes"),
        "no" | "false" => Some("no"),
        _ => None,
    }
}

/// The same for types.
pub fn type_word(name: &str) -> Option<&'static str> {
    match name.to_lowercase().as_str() {
        "yesno" | "yes_no" | "yes" | "bool" | "boolean" | "truth" => Some("yes/no"),
        "number" | "numbers" | "int" | "integer" | "decimal" | "money" | "amount" => Some("number"),
        _ => None,
    }
}

/// How many letters must be put in, left out, changed or exchanged with the next one;
/// capitals do not count.
fn distance(a: &str, b: &str) -> usize {
    let a: Vec<char> = a.to_lowercase().chars().collect();
    let b: Vec<char> = b.to_lowercase().chars().collect();
    let mut rows = vec![(0..=b.len()).collect::<Vec<usize>>()];
    for i in 1..=a.len() {
        let mut row = vec![i];
        for j in 1..=b.len() {
            let changed = rows[i - 1][j - 1] + usize::from(a[i - 1] != b[j - 1]);
            let mut least = changed.min(rows[i - 1][j] + 1).min(row[j - 1] + 1);
            if i > 1 && j > 1 && a[i - 1] == b[j - 2] && a[i - 2] == b[j - 1] {
                least = least.min(rows[i - 2][j - 2] + 1);
            }
            row.push(least);
        }
        rows.push(row);
    }
    rows[a.len()][b.len()]
}

#[cfg(test)]
mod tests {
    use super::*;

    #[test]
    fn distances() {
        assert_eq!(distance("speed", "speed"), 0);
        assert_eq!(distance("Speed", "speed"), 0);
        assert_eq!(distance("sped", "speed"), 1);
        assert_eq!(distance("sepia", "speia"), 1);
        assert_eq!(distance("", "abc"), 3);
    }

    #[test]
    fn the_nearest_word() {
        let known = ["speed", "shrunken", "n"];
        assert_eq!(nearest("shrunk", known), Some("shrunken"));
        assert_eq!(nearest("spede", known), Some("speed"));
        assert_eq!(nearest("temperature", known), None);
        assert_eq!(nearest("x", known), None);
        assert_eq!(did_you_mean("sped", known), "; did you mean 'speed'?");
    }
}
