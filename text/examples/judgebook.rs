//! Stands in for the proved program judgebook in tests that run before it is built.

use std::io::Read;

fn main() {
    let mut book = Vec::new();
    std::io::stdin().read_to_end(&mut book).expect("a book");
    match second::judge(&book) {
        Ok(count) => println!("accepted {count}"),
        Err(number) => println!("refused {number}"),
    }
}
