//! Stands in for the proved program rulerun in tests that run before it is built.

use std::io::Read;

fn main() {
    let mut input = Vec::new();
    std::io::stdin().read_to_end(&mut input).expect("input");
    print!("{}", second::rulerun::rulerun(&input));
}
