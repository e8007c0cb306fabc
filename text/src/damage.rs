//! Damaged texts: whatever is written, a book or faults with their places come out.

use crate::reading::to_book;
use second::cases::random::Random;

/// What damage puts in: every word and sign, names as the printer makes them.
const PIECES: &str = "scope variable sub-scope define rule label exception to under condition as \
    if then else and or not yes no empty conflict default none number yes/no unused record \
    + - = < > <= >= <> ( ) [ ] , | : . @ v0 v1 s0 scope0 scope1 c0 0 1 7 255 2147483647 2147483648 ? é";

/// A few words of the text left out, doubled, exchanged or replaced.
pub fn damaged(rng: &mut Random, text: &str) -> String {
    let pieces: Vec<&str> = PIECES.split_whitespace().collect();
    let mut words: Vec<&str> = text.split(' ').collect();
    for _ in 0..rng.range(1, 3) {
        let place = rng.below(words.len());
        let other = rng.below(words.len());
        match rng.below(5) {
            0 if words.len() > 1 => {
                words.remove(place);
            }
            1 => words.insert(place, words[other]),
            2 => words.swap(place, other),
            3 => words.insert(place, rng.pick(&pieces)),
            _ => words[place] = rng.pick(&pieces),
        }
    }
    words.join(" ")
}

/// A text gives an accepted book, or faults that all have a place.
pub fn is_book_or_placed(text: &str) -> Result<bool, String> {
    match to_book(text) {
        Ok(book) => match second::judge(&book) {
            Ok(_) => Ok(true),
            Err(number) => Err(format!("a book refused with {number} from\n{text}")),
        },
        Err(faults) => {
            let placed = !faults.is_empty() && faults.iter().all(|f| f.place.is_some());
            let wrong = || format!("{faults:?} in\n{text}");
            placed.then_some(false).ok_or_else(wrong)
        }
    }
}
