//! Tables of every choice, in their three forms.

mod common;

use common::{file, project, text, SPEED};

#[test]
fn a_table_as_text() {
    file("table.rules", SPEED);
    let expected = "\
scope film

shrunken  nitrate  | speed
-------------------+----------
no        no       | 4559808
no        yes      | 3419856
yes       no       | 2279904
yes       yes      | conflict
";
    let ran = text("table table.rules film");
    assert_eq!((ran.status, ran.out.as_str()), (0, expected));
    let expected = "\
scope film, given shrunken = no

nitrate  | speed
---------+---------
no       | 4559808
yes      | 3419856
";
    assert_eq!(text("table table.rules film shrunken=no").out, expected);
    let expected = "\
scope film

nitrate  |
---------+
no       | empty
yes      | empty

not given: shrunken
";
    let missing = text("table table.rules film nitrate speed=7").out;
    assert_eq!(
        missing,
        expected.replace("film\n", "film, given speed = 7\n")
    );
}

#[test]
fn a_table_as_csv_and_as_html() {
    file("csv.rules", SPEED);
    let expected = "\
shrunken,nitrate,outcome,speed
no,no,values,4559808
no,yes,values,3419856
yes,no,values,2279904
yes,yes,conflict,
";
    assert_eq!(text("table --csv csv.rules film").out, expected);
    let html = text("table csv.rules film --html").out;
    assert!(html.starts_with("<!DOCTYPE html>"));
    assert!(html.contains(
        "<td class=\"no\">no</td><td class=\"yes\">yes</td><td class=\"result\">3419856</td>"
    ));
    assert!(html.contains("<td class=\"none\" colspan=\"1\">conflict</td>"));
}

#[test]
fn what_is_the_same_in_all_rows_is_said_once() {
    let ran = text(&format!("table {} film", project("examples/vault.rules")));
    let end = "\nin every row: pitch = 47498, frame = 189992, eight_frames = 1519936, ceiling = 4559808, half = 2279904\n";
    assert!(ran.out.ends_with(end), "{}", ran.out);
}

#[test]
fn what_cannot_vary_is_named() {
    file("vary.rules", SPEED);
    for (words, expected) in [
        (
            "speed",
            "'speed' is a number: give it a value, as in speed=1\n",
        ),
        (
            "nitrat",
            "there is no variable 'nitrat' in scope 'film'; did you mean 'nitrate'?\n",
        ),
        ("nitrate nitrate", "'nitrate' is named twice\n"),
        ("nitrate nitrate=yes", "'nitrate' is named twice\n"),
    ] {
        let ran = text(&format!("table vary.rules film {words}"));
        assert_eq!((ran.status, ran.err.as_str()), (1, expected), "{words}");
    }
    let many: String = (0..13)
        .map(|i| format!(" variable y{i} : yes/no"))
        .collect();
    file("many.rules", format!("scope s{many}"));
    let ran = text("table many.rules s");
    assert!(
        ran.err
            .starts_with("13 variables vary, and 12 are the most"),
        "{}",
        ran.err
    );
    let all: String = (0..13).map(|i| format!(" y{i}=no")).collect();
    let given = all.replace(" y3=no", "").replace(" y7=no", "");
    let ran = text(&format!("table --csv many.rules s{given}"));
    let expected = "y3,y7,outcome\nno,no,values\nno,yes,values\nyes,no,values\nyes,yes,values\n";
    assert_eq!(ran.out, expected);
}
