//! What must hold of one case.

use super::coverage::{may_refuse, Coverage};
use super::fallbacks::{in_table, tried, TABULATED};
use super::former::Former;
use super::leaving::COMPILED;
use crate::answer::{Answer, Outcome};
use crate::cases::fallbacks::FORMER;
use crate::cases::{lend, Case, Reply, Service, Success};
use crate::code::accept;
use crate::naive::evaluation::Rules;
use crate::naive::execution::{Blocks, End};
use crate::naive::tries::tried_overrides;
use crate::naive::{self, relations, tabulation};
use crate::rulerun::rulerun;
use crate::run::observed_run;
use crate::{code_by, code_of, compile, evaluate, judge, steps_of, weights_of, Overriding};

/// No code of a book is longer: a scope of 1 byte becomes 2, a variable of 2 becomes 9, a
/// sub-scope of 2 becomes 4, a clause of 6 at most 42 (a rule on an override), and nodes at
/// most 46 for each 14 (a default term with its five operands, four of them no terms).
const MAX_CODE: usize = {
    let (scopes, variables, subscopes, clauses) = (32, 32 * 32, 32 * 8, 32 * 128);
    let nodes = 32_768 - scopes - 2 * variables - 2 * subscopes - 6 * clauses;
    2 * scopes + 9 * variables + 4 * subscopes + 42 * clauses + nodes * 46 / 14
};

type Check = Result<(), String>;

fn ensure(holds: bool, reason: &str) -> Check {
    holds.then_some(()).ok_or_else(|| reason.to_string())
}

pub fn check(case: &Case, coverage: &mut Coverage) -> Check {
    let reply = case.reply();
    coverage.reply(case, &reply);
    if !case.is_expected(reply.result) {
        return Err(format!(
            "expected {:?}, got {:?}",
            case.expected, reply.result
        ));
    }
    check_memory(case, &reply)?;
    match (case.service, reply.result) {
        (Service::Run, _) => return check_run(case, &reply, coverage),
        (Service::Compile, Ok(Success::Code(length))) => {
            check_code(case, &reply.memory[..length], coverage)?
        }
        (Service::Evaluate, _) => check_evaluation(case, &reply, coverage)?,
        (Service::Tabulate, _) => {
            check_table(case, reply.result, &reply.memory)?;
            check_former_table(case, &reply, coverage)?;
        }
        _ => {}
    }
    check_judgement(case, reply.result, coverage)
}

/// "Lent memory changes only where code or values are written, from its first byte,
/// and nothing after them"; a service gives only its own refusals.
fn check_memory(case: &Case, reply: &Reply) -> Check {
    let written = match reply.result {
        Err(number) => {
            ensure(
                may_refuse(case.service, number),
                "not a refusal of the service",
            )?;
            0
        }
        Ok(Success::Scopes(_)) => 0,
        Ok(Success::Code(length) | Success::Table(length)) => length,
        Ok(Success::Answer(answer)) => {
            let values = answer.outcome == Outcome::Values;
            ensure(values || answer.length == 0, "length without values")?;
            answer.length
        }
    };
    let lent = lend(case.room);
    ensure(reply.memory.len() == lent.len(), "memory resized")?;
    ensure(written <= lent.len(), "more written than lent")?;
    ensure(
        reply.memory[written..] == lent[written..],
        "memory changed behind",
    )
}

/// The services agree on a book, and with the definitions where these are cheap.
fn check_judgement(case: &Case, result: Result<Success, u8>, coverage: &mut Coverage) -> Check {
    let judged = judge(&case.bytes);
    match result {
        Err(number) if number <= 12 => ensure(judged == Err(number), "judged otherwise")?,
        _ => ensure(judged.is_ok(), "not judged good")?,
    }
    let Some(scopes) = naive::parse(&case.bytes) else {
        return ensure(judged.is_err(), "unreadable, but accepted");
    };
    check_faults(&scopes, judged)?;
    if let Ok(count) = judged {
        ensure(count == scopes.len(), "number of scopes")?;
        coverage.book(&scopes);
        check_order(case, &scopes)?;
    }
    Ok(())
}

/// Faults 7, 10, 11 and 12 by definition, in their order, where 1 to 6 are not given
/// (the definitions take for granted that names resolve).
fn check_faults(scopes: &[naive::Scope], judged: Result<usize, u8>) -> Check {
    let found = judged.err().unwrap_or(0);
    let reached = |number: u8| found == 0 || found >= number;
    let agrees = |number: u8, present: bool| present == (found == number);
    if reached(7) {
        ensure(agrees(7, relations::has_shared_node(scopes)), "fault 7")?;
    }
    if reached(10) {
        ensure(agrees(10, relations::has_scope_cycle(scopes)), "fault 10")?;
    }
    if reached(11) {
        let heavy = relations::weights(scopes)
            .iter()
            .any(|&weight| weight > 4_096);
        ensure(agrees(11, heavy), "fault 11")?;
    }
    if reached(12) {
        ensure(agrees(12, relations::has_step_cycle(scopes)), "fault 12")?;
    }
    Ok(())
}

/// Orders and weights by definition, for an accepted book.
fn check_order(case: &Case, scopes: &[naive::Scope]) -> Check {
    let steps = steps_of(&case.bytes).map_err(|_| "no steps")?;
    let mut pairs = scopes.iter().zip(&steps);
    let ordered = pairs.all(|(scope, order)| relations::is_step_order(scope, order));
    ensure(ordered, "order of steps")?;
    let weights = weights_of(&case.bytes).map_err(|_| "no weights")?;
    let weights: Vec<u128> = weights.iter().map(|&weight| weight as u128).collect();
    ensure(weights == relations::weights(scopes), "weights")
}

/// Compiled code is accepted, its blocks are in order, each of its override trees has its
/// try, and a byte less of room is 15.
fn check_code(case: &Case, code: &[u8], coverage: &mut Coverage) -> Check {
    ensure(code_of(&case.bytes).as_deref() == Ok(code), "code differs")?;
    let accepted = accept(code).map_err(|fault| format!("compiled code refused: {fault:?}"))?;
    ensure(code.len() <= MAX_CODE, "code too long")?;
    let order: Vec<usize> = accepted
        .blocks
        .iter()
        .map(|b| usize::from(b.number))
        .collect();
    let scopes = naive::parse(&case.bytes).ok_or("unreadable")?;
    ensure(
        relations::is_block_order(&scopes, &order),
        "order of blocks",
    )?;
    let overrides: Vec<_> = scopes.iter().flat_map(tried).collect();
    let found = tried_overrides(code);
    ensure(found == Some(overrides.len()), "tries of overrides")?;
    coverage.fallbacks().compiled(overrides);
    if let Some(room) = code.len().checked_sub(1) {
        let mut short = lend(room);
        ensure(
            compile(&case.bytes, &mut short) == Err(15),
            "too short, but not 15",
        )?;
        ensure(short == lend(room), "too short, but changed")?;
    }
    Ok(())
}

/// "Run and evaluation get the same scope number and input bytes and equal result
/// memories", and agree on everything; never stuck, never bad code.
fn check_evaluation(case: &Case, reply: &Reply, coverage: &mut Coverage) -> Check {
    let Ok(code) = code_of(&case.bytes) else {
        return Ok(());
    };
    let mut memory = lend(case.room);
    let executed = coverage.executed(COMPILED);
    let ran = observed_run(&code, case.scope, &case.inputs, &mut memory, executed);
    let ran = ran.map(Success::Answer).map_err(u8::from);
    ensure(ran == reply.result, "run and evaluation differ")?;
    ensure(
        memory == reply.memory,
        "run and evaluation wrote different bytes",
    )?;
    let Ok(Success::Answer(answer)) = reply.result else {
        return Ok(());
    };
    coverage.evaluated(case, answer.outcome);
    let weights = weights_of(&case.bytes).map_err(|_| "no weights")?;
    check_count(answer, weights[case.scope])?;
    check_answer(Overriding::FallsBack, case, answer, &reply.memory)?;
    check_former(case, reply, coverage)
}

/// The evaluation under the former meaning, by definition and by the former translation;
/// "runs that meet no such override keep their answers".
fn check_former(case: &Case, reply: &Reply, coverage: &mut Coverage) -> Check {
    let before = Overriding::EndsCaller;
    let former = Former::evaluation(case);
    ensure(
        former.is_kept(reply),
        "answer changed without an empty override",
    )?;
    coverage
        .fallbacks()
        .former(Service::Evaluate, former.any_empty);
    let Ok(Success::Answer(answer)) = former.reply.result else {
        return Err("refused under the former meaning".to_string());
    };
    check_answer(before, case, answer, &former.reply.memory)?;
    let code = code_by(before, &case.bytes).map_err(|_| "no former code")?;
    let mut memory = lend(case.room);
    let executed = coverage.executed(FORMER);
    let ran = observed_run(&code, case.scope, &case.inputs, &mut memory, executed);
    let result = ran.map(Success::Answer).map_err(u8::from);
    ensure(
        Reply { result, memory } == former.reply,
        "run of former code",
    )
}

/// Rows that meet no empty override under the former meaning keep their bytes.
fn check_former_table(case: &Case, reply: &Reply, coverage: &mut Coverage) -> Check {
    let former = Former::table(case);
    ensure(
        former.is_kept(reply),
        "table changed without an empty override",
    )?;
    let kept = former.keeps_rows(case.chosen.len(), reply);
    ensure(kept, "row changed without an empty override")?;
    if reply.result.is_ok() {
        let fallbacks = coverage.fallbacks();
        fallbacks.former(Service::Tabulate, former.any_empty);
        fallbacks.meet(TABULATED, in_table(case));
    }
    Ok(())
}

/// The table, byte for byte, or the refusal, as the definition has it.
fn check_table(case: &Case, result: Result<Success, u8>, memory: &[u8]) -> Check {
    let choice = (&case.chosen[..], &case.inputs[..]);
    match tabulation::table(&case.bytes, case.scope, choice, case.room) {
        Ok(table) => {
            let length = table.len();
            ensure(result == Ok(Success::Table(length)), "length of the table")?;
            ensure(memory[..length] == table, "table by definition")
        }
        Err(refusal) => ensure(result == Err(refusal), "refusal by definition"),
    }
}

/// The count is at most the weight, and equal to it where the run ends in values.
fn check_count(answer: Answer, weight: usize) -> Check {
    let values = answer.outcome == Outcome::Values;
    ensure(answer.count >= 1 && answer.count <= weight, "count")?;
    ensure(
        !values || answer.count == weight,
        "count of a run with values",
    )
}

/// Outcome, count and result bytes as the definitions have them.
fn check_answer(overriding: Overriding, case: &Case, answer: Answer, memory: &[u8]) -> Check {
    let scopes = naive::parse(&case.bytes).ok_or("unreadable")?;
    let steps = steps_of(&case.bytes).map_err(|_| "no steps")?;
    let types = &scopes[case.scope].variables;
    let given = given_values(types.len(), &case.inputs);
    let mut rules = Rules {
        overriding,
        scopes: &scopes,
        steps: &steps,
        count: 0,
    };
    let (outcome, bytes) = match rules.enter(case.scope, given) {
        Ok(values) => (Outcome::Values, records(types, &values)),
        Err(outcome) => (outcome, Vec::new()),
    };
    ensure(outcome == answer.outcome, "outcome by definition")?;
    ensure(rules.count == answer.count, "count by definition")?;
    ensure(bytes == memory[..answer.length], "results by definition")
}

/// The values of a good input list.
fn given_values(variables: usize, mut inputs: &[u8]) -> Vec<Option<i64>> {
    let mut given = vec![None; variables];
    while let [kind, variable, rest @ ..] = inputs {
        let length = if *kind == 1 { 1 } else { 4 };
        let bytes = rest[..length].iter();
        let unsigned = bytes.fold(0u32, |all, &byte| all << 8 | u32::from(byte));
        given[usize::from(*variable)] = Some(i64::from(unsigned as i32));
        inputs = &rest[length..];
    }
    given
}

/// Result records by definition.
fn records(types: &[u8], values: &[i64]) -> Vec<u8> {
    let mut bytes = Vec::new();
    for (variable, (&of, &value)) in types.iter().zip(values).enumerate() {
        bytes.extend([of, variable as u8]);
        match of {
            1 => bytes.push(value as u8),
            _ => bytes.extend((value as i32).to_be_bytes()),
        }
    }
    bytes
}

/// What rulerun prints, against an evaluation and a plain reading of its results.
pub fn check_rulerun(bytes: &[u8], coverage: &mut Coverage) -> Check {
    let printed = rulerun(bytes);
    let word = printed.split([' ', '\n']).next().unwrap_or_default();
    coverage.printed(word);
    let length = match bytes {
        [high, low, ..] => usize::from(*high) * 256 + usize::from(*low),
        _ => 0,
    };
    if bytes.len() < length + 3 {
        return ensure(printed == "refused 1\n", "missing bytes");
    }
    let (book, rest) = bytes[2..].split_at(length);
    let mut results = [0; 192];
    let expected = match evaluate(book, usize::from(rest[0]), &rest[1..], &mut results) {
        Err(number) => format!("refused {number}\n"),
        Ok(answer) => printed_answer(answer, &results[..answer.length]),
    };
    ensure(printed == expected, "printed otherwise")
}

fn printed_answer(answer: Answer, results: &[u8]) -> String {
    let word = ["value", "empty", "conflict", "above", "below"][answer.outcome as usize];
    let mut text = format!("{word} {}\n", answer.count);
    // Results have the form of an input list of 32 variables or fewer.
    let kinds = result_kinds(results);
    for (variable, value) in given_values(kinds.len(), results).iter().enumerate() {
        let value = match (kinds[variable], value.unwrap_or_default()) {
            (1, 0) => "no".to_string(),
            (1, _) => "yes".to_string(),
            (_, number) => number.to_string(),
        };
        text += &format!("{variable} {value}\n");
    }
    text
}

/// The kind of each result record.
fn result_kinds(mut results: &[u8]) -> Vec<u8> {
    let mut kinds = Vec::new();
    while let Some(&kind) = results.first() {
        kinds.push(kind);
        results = &results[if kind == 1 { 3 } else { 6 }..];
    }
    kinds
}

/// A run with its causes, against the definition; in accepted code too the count is
/// tied to the weight.
fn check_run(case: &Case, reply: &Reply, coverage: &mut Coverage) -> Check {
    let mut memory = lend(case.room);
    let executed = coverage.executed(case.label);
    let ran = observed_run(&case.bytes, case.scope, &case.inputs, &mut memory, executed);
    if let Err(denial) = ran {
        coverage.denial(denial);
    }
    let shown = ran.map(Success::Answer).map_err(u8::from);
    ensure(shown == reply.result, "observed run differs")?;
    if let Err(13..=16) = shown {
        return Ok(());
    }
    check_execution(case, reply)?;
    let (Ok(answer), Ok(code)) = (ran, accept(&case.bytes)) else {
        return Ok(());
    };
    let block = code.find(case.scope).ok_or("no block")?;
    check_count(answer, code.blocks[block].weight)
}

/// Outcome, count and result bytes of accepted code as the definition has them.
fn check_execution(case: &Case, reply: &Reply) -> Check {
    let mut blocks = Blocks::of(&case.bytes);
    let number = case.scope as u8;
    let types = blocks.types(number).ok_or("no block")?.to_vec();
    let values = given_values(types.len(), &case.inputs);
    let typed = types.iter().zip(values);
    let given = typed.map(|(&of, value)| value.map(|value| (of, value)));
    let (outcome, bytes) = match blocks.enter(number, given.collect()) {
        Ok(values) => {
            let values: Vec<i64> = values.iter().map(|&(_, value)| value).collect();
            (Outcome::Values, records(&types, &values))
        }
        Err(End::Outcome(outcome)) => (outcome, Vec::new()),
        Err(End::Stuck) => return ensure(reply.result == Err(17), "stuck by definition"),
    };
    let expected = Answer {
        outcome,
        count: blocks.count,
        length: bytes.len(),
    };
    let same = reply.result == Ok(Success::Answer(expected));
    ensure(same, "answer of the run by definition")?;
    ensure(
        reply.memory[..bytes.len()] == bytes,
        "results of the run by definition",
    )
}
