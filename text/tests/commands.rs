//! The commands as a user types them: what they print, where, and with which status.

mod common;

use common::{command, file, folder, text, text_reading, SPEED};
use std::process::Stdio;

#[test]
fn help_and_version() {
    for words in ["--help", "help", "judge --help", "-h"] {
        let ran = text(words);
        assert_eq!((ran.status, ran.err.as_str()), (0, ""), "{words}");
        assert!(ran.out.contains("text evaluate FILE SCOPE"), "{}", ran.out);
    }
    assert_eq!(text("--version").out, "text 0.1.0\n");
    let ran = text("");
    assert_eq!((ran.status, ran.out.as_str()), (2, ""));
    assert!(ran.err.contains("text judge FILE"));
}

#[test]
fn what_is_typed_wrongly_is_named() {
    file("typed.rules", format!("{SPEED}scope store"));
    let cases = [
        (
            "jugde f",
            "there is no command 'jugde'; did you mean 'judge'?",
        ),
        (
            "paint f",
            "there is no command 'paint'\n'text --help' lists",
        ),
        ("judge", "'text judge' takes FILE\nusage: text judge FILE"),
        (
            "judge a b",
            "'text judge' takes FILE, not 'a b'\nusage: text judge FILE",
        ),
        ("judge --loud f", "'text judge' has no option '--loud'"),
        (
            "explain --ful f s",
            "'text explain' has no option '--ful'; did you mean '--full'?",
        ),
        (
            "evaluate typed.rules",
            "say which scope: film, store\nusage: text evaluate FILE SCOPE [NAME=VALUE ..]",
        ),
        ("draw f s", "'text draw' takes FILE SCOPE VARIABLE"),
        ("self-check many .", "'many' is no count"),
        ("judge f -o", "-o needs the file to write"),
    ];
    for (words, expected) in cases {
        let ran = text(words);
        assert_eq!((ran.status, ran.out.as_str()), (2, ""), "{words}");
        assert!(ran.err.contains(expected), "{words}: {}", ran.err);
    }
}

#[test]
fn files_that_cannot_be_read_are_named() {
    for words in ["judge", "to-book", "to-text"] {
        let ran = text(&format!("{words} nowhere.rules"));
        assert_eq!((ran.status, ran.out.as_str()), (1, ""));
        assert_eq!(ran.err, "nowhere.rules: there is no such file\n");
        assert_eq!(
            text(&format!("{words} .")).err,
            ".: this is a folder, not a file\n"
        );
    }
}

#[test]
fn texts_and_books_are_not_taken_for_each_other() {
    file("kind.rules", SPEED);
    let ran = text("to-text kind.rules");
    assert_eq!(ran.err, "kind.rules: this is a text already, and no book\n");
    text("to-book kind.rules -o kind.book");
    let ran = text("to-book kind.book");
    assert_eq!((ran.status, ran.out.as_str()), (1, ""));
    assert_eq!(ran.err, "kind.book: this is a book already\n");
    assert!(text("to-text kind.book").out.starts_with("scope scope0\n"));
}

#[test]
fn judge_says_accepted_and_the_names() {
    file("judge.rules", SPEED);
    let ran = text("judge judge.rules");
    assert_eq!(
        (ran.status, ran.out.as_str()),
        (0, "accepted, 1 scope: film\n")
    );
    let ran = text_reading("judge -", SPEED.as_bytes());
    assert_eq!(
        (ran.status, ran.out.as_str()),
        (0, "accepted, 1 scope: film\n")
    );
    let book = text("to-book judge.rules").bytes;
    let ran = text_reading("judge -", &book);
    assert_eq!((ran.status, ran.out.as_str()), (0, "accepted, 1 scope\n"));
}

#[test]
fn judge_says_what_is_wrong_with_a_text() {
    let wrong = SPEED.replace("condition shrunken", "condition speed");
    let ran = text_reading("judge -", wrong.as_bytes());
    assert_eq!((ran.status, ran.out.as_str()), (1, ""));
    let expected = "standard input:11:32: a condition is a yes/no, and this is a number\n";
    assert_eq!(ran.err, expected);
}

#[test]
fn judge_says_where_a_book_has_its_fault() {
    file("fault.rules", SPEED);
    let mut book = text("to-book fault.rules").bytes;
    *book.last_mut().expect("a byte") = 9;
    let ran = text_reading("judge -", &book);
    let expected =
        "refused 6, dangling reference: clause 2 of scope 0 names node 9, which is not there\n";
    assert_eq!((ran.status, ran.out.as_str()), (1, expected));
    let ran = text_reading("judge -", b"record 1 record 4 1\nrecord 10 0 record 10 0");
    let expected = "refused 7, shared node: node 0 of scope 0 is named more than once\n";
    assert_eq!((ran.status, ran.out.as_str()), (1, expected));
    let cases: [(&[u8], &str); 8] = [
        (&[1, 2], "refused 1, truncated: the record at byte 1, of kind 2\n"),
        (&[1, 99], "refused 2, unknown kind: the record at byte 1, of kind 99\n"),
        (&[2, 1], "refused 3, out of order: the record at byte 0, of kind 2\n"),
        (&[1, 2, 1, 2, 7], "refused 5, invalid byte: the record at byte 3, of kind 2\n"),
        (&[1, 3, 4], "refused 6, dangling reference: sub-scope 0 of scope 0 calls scope 4, which is not there\n"),
        (&[1, 4, 1, 12, 0, 0], "refused 7, shared node: node 0 of scope 0 is named more than once\n"),
        (&[1, 2, 2, 4, 1, 19, 255, 0, 255, 255, 0], "refused 8, type mismatch: the variable defined is a number, and this is a yes/no, in 'define v0 as yes'\n"),
        (&[1, 3, 0], "refused 10, scope cycle: a scope calls itself: scope0 calls scope0, in 'sub-scope s0 : scope0'\n"),
    ];
    for (bytes, expected) in cases {
        let ran = text_reading("judge -", bytes);
        assert_eq!((ran.status, ran.out.as_str()), (1, expected), "{bytes:?}");
    }
}

#[test]
fn evaluate_prints_names_and_values() {
    file("values.rules", SPEED);
    let ran = text("evaluate values.rules film shrunken=yes nitrate=no");
    let expected = "speed = 2279904\nshrunken = yes\nnitrate = no\n";
    assert_eq!((ran.status, ran.out.as_str()), (0, expected));
    let ran = text("evaluate values.rules film speed=1_000 shrunken=yes nitrate=no");
    assert!(ran.out.starts_with("speed = 1000\n"), "{}", ran.out);
    let book = text("to-book values.rules").bytes;
    let ran = text_reading("evaluate - scope0 v1=no v2=yes", &book);
    assert_eq!(
        (ran.status, ran.out.as_str()),
        (0, "v0 = 3419856\nv1 = no\nv2 = yes\n")
    );
}

#[test]
fn evaluate_says_why_there_are_no_values() {
    file("none.rules", SPEED);
    let ran = text("evaluate none.rules film shrunken=yes nitrate=yes");
    let expected = "conflict: speed, since the exception 'gentle' at none.rules:9:3 and \
                    the exception 'safe' at none.rules:13:3 both held\n";
    assert_eq!((ran.status, ran.out.as_str()), (1, expected));
    let ran = text("evaluate none.rules film shrunken=yes");
    let expected = "empty: nitrate, since it is not given and scope film does not define it\n";
    assert_eq!((ran.status, ran.out.as_str()), (1, expected));
}

#[test]
fn evaluate_says_which_operation_is_above_or_below() {
    let called = "scope s variable n : number sub-scope k : t define n as k.m
        scope t variable m : number define m under condition yes as 2147483647 + 1";
    let ran = text_reading("evaluate - s", called.as_bytes());
    let expected = "above the range: k.m, since in the definition at standard input:2:37 \
                    '2147483647 + 1' is above 2147483647\n";
    assert_eq!((ran.status, ran.out.as_str()), (1, expected));
    let overridden = "scope s variable n : number sub-scope k : t
        define k.m under condition 0 < n - 9 - 2147483647 as 1
        scope t variable m : number";
    let ran = text_reading("evaluate - s n=-1", overridden.as_bytes());
    let expected = "below the range: k.m, since in the definition at standard input:2:9 \
                    'n - 9 - 2147483647' is below -2147483648 (n = -1)\n";
    assert_eq!((ran.status, ran.out.as_str()), (1, expected));
    let conflict = "scope s variable n : number define n as conflict";
    let ran = text_reading("evaluate - s", conflict.as_bytes());
    let expected = "conflict: n, since the definition at standard input:1:29 is in conflict\n";
    assert_eq!((ran.status, ran.out.as_str()), (1, expected));
}

#[test]
fn inputs_that_do_not_fit_are_named() {
    file("inputs.rules", SPEED);
    for (input, expected) in [
        (
            "speed=_1",
            "'_1' is no number from -2147483648 to 2147483647",
        ),
        ("speed=+1", "'+1' is no number"),
        ("speed=2_147_483_648", "'2_147_483_648' is no number"),
        ("shrunken", "input 'shrunken': write it as name=value"),
        (
            "print.speed=1",
            "there is no variable 'print.speed' in scope 'film'; only the scope's own variables",
        ),
    ] {
        let ran = text(&format!("evaluate inputs.rules film {input}"));
        assert_eq!((ran.status, ran.out.as_str()), (1, ""), "{input}");
        assert!(ran.err.contains(expected), "{}", ran.err);
    }
}

#[test]
fn a_program_that_is_missing_is_named_with_what_to_build() {
    file("missing.rules", SPEED);
    let mut judge = command();
    judge
        .env("RULE_PROGRAMS", "nowhere")
        .args(["judge", "missing.rules"]);
    let output = judge.output().expect("the program runs");
    assert_eq!(output.status.code(), Some(1));
    let said = String::from_utf8_lossy(&output.stderr).into_owned();
    assert!(
        said.contains("'judgebook' is not there: run 'bash tools/build.sh'"),
        "{said}"
    );
}

#[test]
fn a_full_disk_is_an_error() {
    file("full.rules", SPEED);
    for words in [
        "to-book full.rules",
        "judge full.rules",
        "explain full.rules film",
        "draw full.rules film speed",
        "--help",
        "self-check 0 .",
    ] {
        let full = std::fs::OpenOptions::new().write(true).open("/dev/full");
        let mut full_disk = command();
        full_disk.args(words.split(' '));
        full_disk.stdout(Stdio::from(full.expect("a full disk")));
        let output = full_disk.output().expect("the program runs");
        assert_ne!(output.status.code(), Some(0), "{words}");
        assert!(!output.stderr.is_empty(), "{words}");
        assert!(output.status.code() < Some(100), "{words}: a panic");
    }
}

#[test]
fn an_output_file_is_written_as_a_whole_or_not_at_all() {
    file("whole.rules", SPEED);
    file("broken.rules", "scope s define");
    let out = folder().join("whole.book");
    let _ = std::fs::remove_file(&out);
    assert_eq!(text("to-book broken.rules -o whole.book").status, 1);
    assert!(!out.exists());
    assert_eq!(text("to-book whole.rules -o whole.book").status, 0);
    let book = std::fs::read(&out).expect("a book");
    assert_eq!(book, text("to-book whole.rules").bytes);
    assert_eq!(text("to-book broken.rules -o whole.book").status, 1);
    assert_eq!(std::fs::read(&out).expect("a book"), book);
    let ran = text("to-book whole.rules -o nowhere/whole.book");
    assert_eq!(ran.status, 1);
    assert!(ran.err.starts_with("nowhere/whole.book: "), "{}", ran.err);
}

#[test]
fn what_is_read_is_not_written_over() {
    file("kept.rules", SPEED);
    let ran = text("to-book kept.rules -o ./kept.rules");
    assert_eq!(ran.status, 2);
    assert_eq!(ran.err, "-o kept.rules would write over what is read\n");
    let kept = std::fs::read_to_string(folder().join("kept.rules")).expect("a text");
    assert_eq!(kept, SPEED);
}

/// Bytes of every sort: an answer or an error, and never a crash.
#[test]
fn any_bytes_are_read() {
    let mut bytes: Vec<Vec<u8>> = vec![vec![], vec![0], vec![255; 40], vec![1; 40_000]];
    bytes.push((0..=255).collect());
    bytes.push(b"scope s variable x : number define x as 1 \xff".to_vec());
    bytes.push("scope ".repeat(9000).into_bytes());
    bytes.push(b"record 1 record 255".to_vec());
    for input in bytes {
        for words in [
            "judge -",
            "to-book -",
            "to-text -",
            "evaluate - s",
            "explain - s",
            "table - s",
            "draw - s x",
            "check -",
            "map -",
            "report -",
        ] {
            let ran = text_reading(words, &input);
            assert!(ran.status <= 1, "{words}: {}", ran.err);
            let silent = ran.status == 1 && ran.err.is_empty() && ran.out.is_empty();
            assert!(!silent, "{words}");
        }
    }
}
