//! Worked examples: every example line of the readings, the trial terms a to m and
//! the rulerun example. A line is a service, its arguments and the expected answer;
//! bytes are hexadecimal, `-` stands for none.

use crate::answer::{Answer, Outcome};
use crate::cases::lend;
use crate::evaluate::observed_evaluate;
use crate::rulerun::rulerun;
use crate::{code_by, compile, evaluate, judge, run, tabulate, Overriding};

/// The example lines of the readings, in their order. `@4` asks for the meaning and the
/// translation before request 5, `@5` for those since.
pub const READINGS: &[&str] = &[
    "judge 0102094d = refused 5",
    "judge 014d0209 = refused 2",
    "judge 010401 = ok 1",
    "judge 0101 = ok 2",
    "evaluate 01 0 - = value 1 0",
    "judge 14 = refused 1",
    "judge 0201 = refused 3",
    "judge 00 = refused 2",
    "judge 010803 = refused 5",
    "judge 01020114ff00ffffff = refused 5",
    "judge 01020107ff00 = refused 6",
    "judge 01040112ffffffff00 = refused 6",
    "judge 010201040113ff00ffffff = refused 6",
    "evaluate 01020205000000070401050000000512ff00ff010213ff00ffff03 0 - = value 1 6 020000000007",
    "judge 01030101 = ok 2",
    "judge 010300 = refused 10",
    "judge 0102010103000300140000ffff0114010000ff01 = refused 6",
    "judge 010600 = refused 6",
    "judge 0104010c0000 = refused 7",
    "judge 0104010a000a00 = refused 7",
    "judge 0102010401040013ff00ffff0013ff00000000 = refused 7",
    "judge 0102010201040113ff00ffff0014ff01ffff00 = ok 1",
    "judge 01040104000500000000 = ok 1",
    "judge 0104010b00 = refused 8",
    "judge 010202080113ff00ffff00 = refused 8",
    "evaluate 010201040004000f000113ff00ffff02 0 - = value 1 3 010001",
    "judge 01020214ff00ffff01 = refused 8",
    "judge 010202050000000113ff00ffff0014ff00ffff01 = refused 8",
    "judge 010201040113ff00ffff0014ff0000ff01 = refused 9",
    "judge 0102010401060013ff00ffff00 = ok 1",
    "judge 0102010400060013ff00ff0001 = refused 12",
    "judge 010201010300070000130000ffff00 = refused 12",
    "judge 0102010103000300070100130000ffff00 = ok 2",
    "evaluate 010201040014ff00ff0001 0 - = value 1 3 010000",
    "evaluate 010201080114ff00ff0001 0 - = value 1 3 010000",
    "evaluate 01020114ff00ffff00 0 - = value 1 3 010000",
    "evaluate 01020114ff00ffff0114ff00ffff01 0 - = conflict 1 0",
    "evaluate@4 0102010103000801130000ffff00 1 - = empty 1 0",
    "evaluate 010201040008010c000113ff00ffff02 0 - = empty 1 0",
    "evaluate 0102010801040104011100010213ff00ffff03 0 - = empty 1 0",
    "evaluate 010201080113ff00ffff00010201020103000401090113ff00ffff0013ff01ffff01 1 - = conflict 1 0",
    "evaluate 01020102010201060108010c00010401090113ff00ffff0213ff01ffff0313ff02ffff04 0 - = empty 1 0",
    "evaluate 010201090113ff00ffff00010201030007000013ff00ffff00 1 010001 = conflict 2 0",
    "evaluate 010201020102010602060009010c0102080113ff00ffff0013ff01ffff0313ff02ffff04 0 010001 = empty 1 0",
    "evaluate@4 0102010103000801130000ffff00 1 - = empty 1 0",
    "evaluate 010201080113ff00ffff00010300 1 - = empty 2 0",
    "compile - = -",
    "compile 0103020101 = 01010102010003022b00",
    "compile 010201 = 010002012c000003202900",
    "compile 010201040113ff00ffff00 = 010002012c00000d04012300050401220001202900",
    "compile 01020114ff00ffff01 = 010002012c0000252624000f040123000504012200012025220001262728000b04012300050400220001202900",
    "compile 0102010401040013ff00ffff0013ff00ffff01 = 010002012c0000382624000f040123000504012200012025220001262724000f040123000504002200012025220001262728000a040123000420220001202900",
    "run 01000801 0 - = refused 16",
    "run 0107 7 - = value 1 0",
    "run 01000300 0 - = refused 16",
    "run - 0 - = refused 13",
    "run 010021220005 0 - = refused 16",
    "run 0100220002010121 0 - = refused 16",
    "run 010024000120 0 - = value 1 0",
    "run 0100020121 0 - = conflict 1 0",
    "run 010002012521 0 - = refused 17",
    "run 010024000025 0 - = value 1 0",
    "run 01002400052400002520 0 - = value 1 0",
    "run 01000201240009040124000329002026 0 - = refused 17",
    "run 01000401050000000127280000 0 - = conflict 1 0",
    "run 0100040105000000010f 0 - = refused 17",
    "run 0100020105000000012900 0 - = refused 17",
    "run 010002010600 0 010001 = value 1 3 010001",
    "run 01000201040129002c00000121 0 - = conflict 1 0",
    "run 010020010103002400022b00 1 - = empty 2 0",
    "run 01000401 0 - = value 1 0",
    "evaluate 010202090205800000000b0113ff00ffff0013ff00ffff02 0 - = conflict 1 0",
    "evaluate 01020205800000000b00090213ff00ffff0113ff00ffff02 0 - = above 1 0",
];

/// The example lines of the readings of request 1 of the second paper, in their order.
/// A number behind the fixed list is the length of the memory lent.
pub const TABLES: &[&str] = &[
    "sheet 010201020102020600050000000713ff02ff0001 0 0100 - = ok 52 01000000000000000000000000010000000000000000000000000001000101010002020000000700010001010101020200000007",
    "sheet 010201020102020600050000000713ff02ff0001 0 - - = ok 13 01000000000000000000000000",
    "sheet 010201020102020600050000000713ff02ff0001 0 00 010001 = refused 18",
    "sheet 010201020102020600050000000713ff02ff0001 0 00 010003 = refused 14",
    "sheet 010201020102020600050000000713ff02ff0001 0 ffff 07 = refused 14",
    "sheet 010201020102020600050000000713ff02ff0001 1 ffff 07 = refused 13",
    "sheet 010201020102020600050000000713ff02ff0001 0 0000 - 0 = refused 18",
    "sheet 010201020102020600050000000713ff02ff0001 0 00 - 0 = refused 15",
    "sheet 010201020102020600050000000713ff02ff0001 0 02 - = refused 18",
    "sheet 010201020102020600050000000713ff02ff0001 0 03 - = refused 18",
];

/// The example lines of the readings of request 3, in their order.
pub const SIDES: &[&str] = &[
    "evaluate 010202057fffffff05000000010d000113ff00ffff02 0 - = above 1 0",
    "evaluate 010202058000000005000000010e000113ff00ffff02 0 - = below 1 0",
    "evaluate 010202058000000005000000010e0001057fffffff05000000010d030413ff00ffff0213ff00ffff05 0 - = below 1 0",
    "evaluate 01020205800000000b0013ff00ffff01 0 - = above 1 0",
    "sheet 01020102020600057fffffff05000000010d0102058000000005000000010e04051100030613ff01ffff07 0 00 - = ok 20 0400000000000000000003000000000000000000",
];

/// The example lines of the readings of request 5, in their order.
pub const FALLBACKS: &[&str] = &[
    "evaluate@4 010202050000000913ff00ffff0001020203000802070000130000ffff0013ff00ffff01 1 - = empty 1 0",
    "evaluate@5 010202050000000913ff00ffff0001020203000802070000130000ffff0013ff00ffff01 1 - = value 2 6 020000000009",
    "evaluate 010202050000000913ff00ffff000102020300050000000408020d0001070000130000ffff0213ff00ffff03 1 - = value 2 6 020000000009",
    "evaluate 010202050000000913ff00ffff0001020203000902070000130000ffff0013ff00ffff01 1 - = conflict 1 0",
    "evaluate@4 01020202020500000009050000000813ff00ffff0013ff01ffff01010202030008020902070000130000ffff00130001ffff0113ff00ffff02 1 - = empty 1 0",
    "evaluate 01020202020500000009050000000813ff00ffff0013ff01ffff01010202030008020902070000130000ffff00130001ffff0113ff00ffff02 1 - = conflict 1 0",
    "evaluate@4 01020201020203000802070000130000ffff0013ff00ffff01 1 - = empty 1 0",
    "evaluate 01020201020203000802070000130000ffff0013ff00ffff01 1 - = empty 2 0",
    "evaluate 010201040113ff00ffff0001020103000801070000140000ff000113ff00ffff01 1 - = value 2 3 010000",
    "compile@4 010202050000000913ff00ffff0001020203000802070000130000ffff0013ff00ffff01 = 010002022c00001004012300080500000009220001202900010102020300040123000420220001202a00002b002c00000e0401230006070000220001202900",
    "compile@5 010202050000000913ff00ffff0001020203000802070000130000ffff0013ff00ffff01 = 010002022c0000100401230008050000000922000120290001010202030024000e04012300042022000120252a00002b002c00000e0401230006070000220001202900",
    "evaluate 0102020202050000000113ff01ffff0001020203000500000005070000130001ffff0013ff00ffff01 1 - = empty 2 0",
    "evaluate 010202050000000913ff00ffff00010202030008020802130000ffff0013ff00ffff01 1 - = empty 1 0",
];

/// The paper's trial terms a to m, each the one definition of a number variable.
pub const TRIALS: &[(&str, &str)] = &[
    ("a", "evaluate 0102020401050000000512ffffff000113ff00ffff02 0 - = value 1 6 020000000005"),
    ("b", "evaluate 0102020400050000000512ffffff000113ff00ffff02 0 - = empty 1 0"),
    ("c", "evaluate 0102020500000007040005000000051200ffff010213ff00ffff03 0 - = value 1 6 020000000007"),
    ("d", "evaluate 0102020802050000000704010500000005120001ff020313ff00ffff04 0 - = value 1 6 020000000007"),
    ("e", "evaluate 0102020500000007050000000704010500000005120001ff020313ff00ffff04 0 - = conflict 1 0"),
    ("f", "evaluate 0102020802080105000000051200ffff010213ff00ffff03 0 - = empty 1 0"),
    ("g", "evaluate 0102020400050000000112ffffff0001040105000000021202ffff030413ff00ffff05 0 - = value 1 6 020000000002"),
    ("h", "evaluate 0102020902057fffffff05000000010d010204010500000005120003ff040513ff00ffff06 0 - = conflict 1 0"),
    ("i", "evaluate 01020205000000010500000002057fffffff05000000010d02030401050000000512000104050613ff00ffff07 0 - = above 1 0"),
    ("j", "evaluate 010202080209020d000113ff00ffff02 0 - = empty 1 0"),
    ("k", "evaluate 010202090208020d000113ff00ffff02 0 - = conflict 1 0"),
    ("l, negate", "evaluate 01020205800000000b0013ff00ffff01 0 - = above 1 0"),
    ("l, add", "evaluate 010202057fffffff05000000010e000105000000010d020313ff00ffff04 0 - = value 1 6 02007fffffff"),
    ("m", "evaluate 010202090213ff00ffff00 0 020000000009 = value 1 6 020000000009"),
];

/// Standard input of rulerun and what it prints.
pub const RULERUN: &[(&str, &str)] = &[
    (
        "001d010202020105004593c00601050022c9e013ff00ffff0013ff0000010200010101",
        "value 1\n0 2279904\n1 yes\n",
    ),
    (
        "001d010202020105004593c00601050022c9e013ff00ffff0013ff0000010200",
        "empty 1\n",
    ),
    ("-", "refused 1\n"),
    ("00", "refused 1\n"),
    ("0000", "refused 1\n"),
    ("000101", "refused 1\n"),
    ("800101", "refused 1\n"),
    ("00010100", "value 1\n"),
    ("00010101", "refused 13\n"),
    ("000000", "refused 13\n"),
    (
        "001d010202020105004593c00601050022c9e013ff00ffff0013ff00000102000101",
        "refused 14\n",
    ),
    ("000b010201090113ff00ffff0000", "conflict 1\n"),
    ("001001020205800000000b0013ff00ffff0100", "above 1\n"),
    (
        "0016010202057fffffff05000000010d000113ff00ffff0200",
        "above 1\n",
    ),
    (
        "0016010202058000000005000000010e000113ff00ffff0200",
        "below 1\n",
    ),
    ("000e01020205fffffffb13ff00ffff0000", "value 1\n0 -5\n"),
    ("000b010201040013ff00ffff0000", "value 1\n0 no\n"),
];

/// Memory that every table of the examples fits into.
const AMPLE: usize = 256;

/// Bytes from hexadecimal digits; spaces part them, `-` stands for none.
pub fn hex(text: &str) -> Vec<u8> {
    let digits: Vec<u32> = text.chars().filter_map(|c| c.to_digit(16)).collect();
    let pairs = digits.chunks_exact(2);
    pairs.map(|pair| (pair[0] * 16 + pair[1]) as u8).collect()
}

/// Hexadecimal digits of bytes, `-` for none.
pub fn digits(bytes: &[u8]) -> String {
    if bytes.is_empty() {
        return "-".to_string();
    }
    bytes.iter().map(|byte| format!("{byte:02x}")).collect()
}

/// The answer as the examples print it.
fn shown(answer: Result<Answer, u8>, results: &[u8]) -> String {
    let answer = match answer {
        Ok(answer) => answer,
        Err(refusal) => return format!("refused {refusal}"),
    };
    let name = match answer.outcome {
        Outcome::Values => "value",
        Outcome::Empty => "empty",
        Outcome::Conflict => "conflict",
        Outcome::Above => "above",
        Outcome::Below => "below",
    };
    let line = format!("{name} {} {}", answer.count, answer.length);
    match &results[..answer.length] {
        [] => line,
        bytes => format!("{line} {}", digits(bytes)),
    }
}

type Entered = fn(&[u8], usize, &[u8], &mut [u8]) -> Result<Answer, u8>;

/// An evaluation or run of the words bytes, scope and inputs.
fn entered(service: Entered, bytes: &[u8], words: &[&str]) -> String {
    let mut results = [0xa5; 256];
    let scope = words[2].parse().expect("a scope number");
    let answer = service(bytes, scope, &hex(words[3]), &mut results);
    shown(answer, &results)
}

/// A table of the words book, scope, chosen, fixed list and, if not ample, memory.
fn tabulated(book: &[u8], words: &[&str]) -> String {
    let scope = words[2].parse().expect("a scope number");
    let room = words
        .get(5)
        .map_or(AMPLE, |room| room.parse().expect("a length"));
    let mut table = lend(room);
    match tabulate(book, scope, &hex(words[3]), &hex(words[4]), &mut table) {
        Ok(length) => format!("ok {length} {}", digits(&table[..length])),
        Err(refusal) => format!("refused {refusal}"),
    }
}

fn compiled(book: &[u8]) -> String {
    let mut code = [0xa5; 512];
    match compile(book, &mut code) {
        Ok(length) => digits(&code[..length]),
        Err(refusal) => format!("refused {refusal}"),
    }
}

/// Evaluating as it was before request 5.
fn evaluate_before(
    book: &[u8],
    scope: usize,
    inputs: &[u8],
    results: &mut [u8],
) -> Result<Answer, u8> {
    observed_evaluate(Overriding::EndsCaller, book, scope, inputs, results, &())
}

/// The answers of evaluating and of running what the book is compiled to.
fn both(overriding: Overriding, book: &[u8], words: &[&str]) -> Vec<String> {
    let service = match overriding {
        Overriding::FallsBack => evaluate,
        Overriding::EndsCaller => evaluate_before,
    };
    let code = code_by(overriding, book).unwrap_or_default();
    vec![entered(service, book, words), entered(run, &code, words)]
}

/// Answers to a line, which must all be the expected one: an evaluation is also
/// compiled and run.
fn answers(line: &str) -> Vec<String> {
    let words: Vec<&str> = line.split(' ').collect();
    let bytes = hex(words[1]);
    match words[0] {
        "judge" => vec![match judge(&bytes) {
            Ok(scopes) => format!("ok {scopes}"),
            Err(refusal) => format!("refused {refusal}"),
        }],
        "compile" | "compile@5" => vec![compiled(&bytes)],
        "run" => vec![entered(run, &bytes, &words)],
        "sheet" => vec![tabulated(&bytes, &words)],
        "compile@4" => vec![digits(
            &code_by(Overriding::EndsCaller, &bytes).unwrap_or_default(),
        )],
        "evaluate@4" => both(Overriding::EndsCaller, &bytes, &words),
        _ => both(Overriding::FallsBack, &bytes, &words),
    }
}

/// What is wrong with a line, if anything.
fn wrong(line: &str) -> Option<String> {
    let (asked, expected) = line.split_once(" = ").expect("an answer");
    let got = answers(asked);
    let fits = got.iter().all(|answer| answer == expected);
    (!fits).then(|| format!("{line}: got {}", got.join(", ")))
}

/// Everything that is wrong with the tables, and how many lines they have.
pub fn check() -> (usize, Vec<String>) {
    let readings = READINGS.iter().chain(TABLES).chain(SIDES);
    let readings = readings.chain(FALLBACKS).copied();
    let trials = TRIALS.iter().map(|&(_, line)| line);
    let lines: Vec<&str> = readings.chain(trials).collect();
    let mut faults: Vec<String> = lines.iter().copied().filter_map(wrong).collect();
    for (input, expected) in RULERUN {
        let printed = rulerun(&hex(input));
        if printed != *expected {
            faults.push(format!("rulerun {input}: got {printed:?}"));
        }
    }
    (lines.len() + RULERUN.len(), faults)
}

/// Prints what is wrong; hands back how many passed and failed.
pub fn report() -> (usize, usize) {
    let (lines, faults) = check();
    for fault in &faults {
        println!("{fault}");
    }
    (lines - faults.len(), faults.len())
}

#[cfg(test)]
mod tests {
    #[test]
    fn every_example_gives_its_answer() {
        let (_, faults) = super::check();
        assert!(faults.is_empty(), "{}", faults.join("\n"));
    }
}
