//! Stored runs: what may be left out, and what a failure shows.

mod common;

use common::{folder, stand_ins, text, SPEED};

/// A folder with the tour's book and its runs, run by the stand-in.
fn ran(name: &str, runs: Option<&str>) -> common::Ran {
    ran_of(name, SPEED, runs)
}

/// The same with any book.
fn ran_of(name: &str, rules: &str, runs: Option<&str>) -> common::Ran {
    let inside = folder().join(name);
    std::fs::create_dir_all(&inside).expect("a folder");
    std::fs::write(inside.join("speed.rules"), rules).expect("a file");
    if let Some(runs) = runs {
        std::fs::write(inside.join("speed.runs"), runs).expect("a file");
    }
    let program = stand_ins().join("rulerun");
    text(&format!("examples {} {name}", program.display()))
}

#[test]
fn only_what_matters_need_be_named() {
    let runs = "# All of it, without the count, without the word, and in any order.
film shrunken=yes nitrate=no = value 1 / speed 2279904 / shrunken yes / nitrate no
film shrunken=yes nitrate=no = value / speed 2_279_904
film shrunken=no nitrate=no = speed 4559808

film shrunken=no nitrate=yes = nitrate yes / speed 3419856
film shrunken=yes nitrate=yes = conflict
film shrunken=yes nitrate=yes = conflict 1
film = empty
";
    let ran = ran("some", Some(runs));
    assert_eq!((ran.status, ran.out.as_str()), (0, "7 passed, 0 failed\n"));
}

#[test]
fn a_failure_shows_the_difference() {
    let runs = "film shrunken=yes nitrate=no = value 2 / speed 1 / shrunken yes
film shrunken=yes nitrate=yes = speed 7
film shrunken=yes = value / sped 7
flim = empty
film
film shrunken=no nitrate=no = speed 4559808
";
    let ran = ran("wrong", Some(runs));
    let expected = "\
failed: wrong/speed.runs:1: film shrunken=yes nitrate=no: the outcome: value 2 expected, value 1 found; speed: 1 expected, 2279904 found
failed: wrong/speed.runs:2: film shrunken=yes nitrate=yes: the outcome: value expected, conflict found; speed: 7 expected, nothing found
failed: wrong/speed.runs:3: there is no variable 'sped' in scope 'film'; did you mean 'speed'?
failed: wrong/speed.runs:4: there is no scope 'flim'; did you mean 'film'?
failed: wrong/speed.runs:5: a run is 'scope inputs = answer'
1 passed, 5 failed
";
    assert_eq!((ran.status, ran.out.as_str()), (1, expected));
}

#[test]
fn the_former_outcome_is_told_with_what_to_write() {
    let runs = "film shrunken=no nitrate=no = range 1
film shrunken=no nitrate=no = range
film shrunken=no nitrate=no = above
film shrunken=no nitrate=no = below 1
";
    let ran = ran("former", Some(runs));
    let expected = "\
failed: former/speed.runs:1: 'range' is now 'above' or 'below': write the side on which the result lies
failed: former/speed.runs:2: 'range' is now 'above' or 'below': write the side on which the result lies
failed: former/speed.runs:3: film shrunken=no nitrate=no: the outcome: above expected, value found
failed: former/speed.runs:4: film shrunken=no nitrate=no: the outcome: below 1 expected, value 1 found
0 passed, 4 failed
";
    assert_eq!((ran.status, ran.out.as_str()), (1, expected));
}

#[test]
fn a_variable_may_have_the_name_of_an_outcome() {
    let rules = "scope s variable range : number variable above : yes/no define range as 7";
    let runs = "s above=no = range 7\ns above=yes = value / above yes\n";
    let ran = ran_of("named", rules, Some(runs));
    assert_eq!((ran.status, ran.out.as_str()), (0, "2 passed, 0 failed\n"));
}

#[test]
fn a_book_without_runs_is_passed_over_with_a_word() {
    let ran = ran("bare", None);
    let expected =
        "bare/speed.rules: passed over, there is no bare/speed.runs\n0 passed, 0 failed\n";
    assert_eq!((ran.status, ran.out.as_str()), (1, expected));
}
