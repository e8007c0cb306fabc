//! Reports, maps and drawings as they are asked for; in a browser where there is one.

mod common;

use common::{file, folder, project, text, SPEED};
use std::process::{Command, Stdio};

#[test]
fn a_report_has_everything_in_one_page() {
    file("report.rules", format!("# The speed of <film>.\n{SPEED}"));
    file(
        "report.runs",
        "film shrunken=yes nitrate=no = speed 2279904\nfilm shrunken=yes nitrate=yes = value\n",
    );
    let ran = text("report report.rules");
    assert_eq!((ran.status, ran.err.as_str()), (0, ""));
    for part in [
        "<title>The rules of report.rules</title>",
        "The proved judge says: accepted, 1 scope: film.",
        "line 14, column 3: speed can be in conflict",
        "   1  # The speed of &lt;film&gt;.",
        "speed in scope film, report.rules</text>",
        "<td class=\"none\" colspan=\"1\">conflict</td>",
        "<td>speed 2279904</td><td>agrees</td>",
        "the outcome: value expected, conflict found",
    ] {
        assert!(ran.out.contains(part), "{part} in\n{}", ran.out);
    }
    for outside in ["http:", "https:", "src=", "@import", "<script"] {
        let own = ran.out.replace("http://www.w3.org/2000/svg", "");
        assert!(!own.contains(outside), "{outside}");
    }
}

#[test]
fn a_report_of_a_book_without_names() {
    let rules = "scope s variable y : yes/no variable x : number define x as if y then 1 else 2 \
        scope t variable n : number variable m : number variable w : yes/no sub-scope k : s \
        rule w under condition n < m \
        scope u variable n : number variable v : yes/no rule v under condition n > 7";
    file("named.rules", rules);
    let page = text("report named.rules").out;
    assert!(page.contains("<h3>All cases</h3>"), "{page}");
    assert!(
        page.contains("<h3>All cases, each number on both sides of"),
        "{page}"
    );
    assert!(
        page.contains("<td class=\"result\">8</td><td class=\"result\">yes</td>"),
        "{page}"
    );
    assert!(
        page.contains("There is no table of all cases: there are too many."),
        "{page}"
    );
    assert_eq!(page.matches("   1  scope s").count(), 3, "{page}");
    text("to-book named.rules -o named.book");
    let ran = text("report named.book");
    assert!(ran.out.contains("Scope scope1"), "{}", ran.err);
    assert_eq!(text("report nowhere.rules").status, 1);
    file("empty.rules", "");
    assert_eq!(text("report empty.rules").status, 0);
    assert_eq!(text("map empty.rules").status, 0);
}

#[test]
fn maps_and_drawings_name_their_file() {
    let vault = project("examples/vault.rules");
    let ran = text(&format!("map {vault}"));
    assert!(ran
        .out
        .contains(&format!("the scopes of {vault} and their calls")));
    let ran = text(&format!(
        "draw {vault} store print.speed humid=no shrunken=yes polyester=no"
    ));
    assert!(ran
        .out
        .contains("print.speed in scope store, as scope film decides it"));
    assert!(
        ran.out.contains("polyester = no: print.speed = 2279904"),
        "{}",
        ran.out
    );
    let ran = text(&format!("draw {vault} store print.sped"));
    assert!(ran.err.ends_with("did you mean 'speed'?\n"), "{}", ran.err);
}

/// The browser of this machine, where there is one.
fn browser() -> Option<&'static str> {
    let names = ["chromium", "chromium-browser", "google-chrome"];
    names.into_iter().find(|name| {
        let mut asked = Command::new(name);
        asked
            .arg("--version")
            .stdout(Stdio::null())
            .stderr(Stdio::null());
        asked.status().is_ok_and(|status| status.success())
    })
}

/// The page as a browser has read it: all parts closed, all drawings drawn.
#[test]
fn a_browser_reads_a_report() {
    let Some(browser) = browser() else {
        return;
    };
    let report = folder().join("browser.html");
    let vault = project("examples/vault.rules");
    text(&format!("report {vault} -o {}", report.display()));
    let output = Command::new(browser)
        .args(["--headless", "--no-sandbox", "--disable-gpu", "--dump-dom"])
        .arg(format!("file://{}", report.display()))
        .output()
        .expect("the browser runs");
    if output.stdout.is_empty() {
        // A browser that cannot start here says nothing about the page.
        return;
    }
    let page = String::from_utf8_lossy(&output.stdout).into_owned();
    let written = std::fs::read_to_string(&report).expect("a report");
    for part in ["<svg", "<tr>", "<h2", "<td", "<li", "<text", "</table>"] {
        assert_eq!(
            page.matches(part).count(),
            written.matches(part).count(),
            "{part}"
        );
    }
    assert!(page.contains("Example runs"));
}
