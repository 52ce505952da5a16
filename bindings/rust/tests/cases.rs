//! The stored cases of the repository: each document is built by `Doc`, node by node, and has the layout that its line
//! states.

#[path = "../examples/replay/case.rs"]
mod case;

use std::fs;
use std::path::Path;

/// The lines of `crates/replay/stdin` that are written as every reader of cases has them.
fn stored_cases() -> String {
    let path = Path::new(env!("CARGO_MANIFEST_DIR")).join("../../crates/replay/stdin");
    let stored = fs::read_to_string(path).expect("the repository has crates/replay/stdin");
    let (cases, _) = stored
        .split_once("# Cases of replay alone")
        .expect("the cases of replay alone come last");
    cases.to_owned()
}

/// What a line states, without the reason why it is no case.
fn stated(line: &str) -> Option<&str> {
    let (_, stated) = line.rsplit_once(" => ")?;
    match stated.split_once(' ') {
        Some(("error", _)) => Some("error"),
        _ => Some(stated),
    }
}

#[test]
fn the_stored_cases_are_as_they_state() {
    for (number, line) in (1..).zip(stored_cases().lines()) {
        if let Some(answer) = case::answer(line.as_bytes()) {
            assert_eq!(stated(line), Some(answer.as_str()), "line {number}");
        }
    }
}

#[test]
fn lines_that_are_no_cases() {
    for line in [
        "80 lf eager",
        "80 lf eager t 4A",
        "80 lf eager nil nil",
        "+1 lf eager nil",
        "80 lf eager nest +1 nil",
    ] {
        assert_eq!(case::answer(line.as_bytes()).as_deref(), Some("error"), "{line}");
    }
    assert_eq!(case::answer(b""), None);
    assert_eq!(case::answer(b"# nil"), None);
    assert_eq!(case::answer(b"80 lf eager t 61 => ok 61").as_deref(), Some("ok 61"));
}
