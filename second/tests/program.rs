//! The program `second` as a caller meets it.

use std::io::Write;
use std::process::{Command, Output, Stdio};

fn run(words: &[&str], input: &[u8]) -> Output {
    let mut child = Command::new(env!("CARGO_BIN_EXE_second"))
        .args(words)
        .stdin(Stdio::piped())
        .stdout(Stdio::piped())
        .stderr(Stdio::piped())
        .spawn()
        .unwrap();
    // A program that does not read may have closed its input already.
    let _ = child.stdin.take().unwrap().write_all(input);
    child.wait_with_output().unwrap()
}

fn output(words: &[&str]) -> String {
    let output = run(words, b"");
    assert!(output.status.success() && output.stderr.is_empty(), "{words:?}");
    String::from_utf8(output.stdout).unwrap()
}

#[test]
fn plan() {
    assert_eq!(output(&["plan", "53"]), "3\n20 04 00 00 03\n20 88 00 00 0D\n21 08 00 00 35\n");
    assert_eq!(output(&["plan", "1"]), "0\n");
    assert_eq!(output(&["plan", "0"]), "refused 1\n");
    assert_eq!(output(&["plan", "65536"]), "refused 1\n");
}

#[test]
fn check() {
    assert_eq!(output(&["check", "59", "40 18 00 00 3F\n60 88 00 00 3B\n"]), "accepted\n");
    assert_eq!(output(&["check", "59", "401800003f608800003b"]), "accepted\n");
    assert_eq!(output(&["check", "8", ""]), "accepted\n");
    assert_eq!(output(&["check", "59", "40"]), "refused 3\n");
    assert_eq!(output(&["check", "61", "401800003F608800003B"]), "refused 8\n");
}

/// 3, then 131, then 131 * 16 - 131; one line of it changed.
#[test]
fn check_tells_the_bad_line() {
    let checked = |lines: &str| output(&["check", "1965", lines]);
    assert_eq!(checked("2004000003 201C100083 41102007AD"), "accepted\n");
    assert_eq!(checked("2004000003 A01C100083 41102007AD"), "refused 4: line 2\n");
    assert_eq!(checked("2004000003 001C100083 41102007AD"), "refused 4: line 2\n");
    assert_eq!(checked("2004000003 201C200083 41102007AD"), "refused 5: line 2\n");
    assert_eq!(checked("2004000003 201C100083 41102007AC"), "refused 6: line 3\n");
    assert_eq!(checked("2004000005 201C100083 41102007AD"), "refused 7: line 1 gives 3, claims 5\n");
    assert_eq!(checked("2004000003 401000000F 40802007AD"), "refused 7: line 3 gives -12, claims 1965\n");
    assert_eq!(checked("40500FFFFF 607C100001"), "refused 7: line 2 gives -2251797666201599, claims 1\n");
    assert_eq!(checked("40500FFFFF 20FC1FFFFF"), "refused 7: line 2 gives 2251797667250175, claims 1048575\n");
    assert_eq!(output(&["check", "0", "2004000005"]), "refused 1\n");
    assert_eq!(output(&["write", "3", "2", "2004000005"]), "refused 7\n");
}

#[test]
fn write() {
    let file = String::from_utf8(second::print(b"3 2\n")).unwrap();
    assert_eq!(output(&["write", "3", "2"]), file);
    assert_eq!(output(&["write", "3", "2", "2004000003"]), file);
    assert_eq!(output(&["write", "5", "1", "2004000003 4084000005"]), "c mul 5 1\nc y 1 0 1\np cnf 1 0\n");
    assert_eq!(output(&["write", "3", "17"]), "refused 2\n");
    assert_eq!(output(&["write", "0", "17"]), "refused 1\n");
    assert_eq!(output(&["write", "3", "2", ""]), "refused 8\n");
}

#[test]
fn print() {
    for input in [&b"3 2\n"[..], b"6 02\n", b"0 1\n", b"3 2", b""] {
        let output = run(&["print"], input);
        assert!(output.status.success());
        assert_eq!(output.stdout, second::print(input));
    }
}

#[test]
fn streams_of_passes() {
    let calls = run(&["calls", "passes", "7", "40"], b"");
    assert!(calls.status.success() && calls.stderr.is_empty());
    assert_eq!(calls.stdout, second::streams::passes(7, 40));
    let answers = run(&["answers", "passes"], &calls.stdout);
    assert!(answers.status.success() && answers.stderr.is_empty());
    assert_eq!(answers.stdout, second::streams::pass_answers(&calls.stdout));
}

#[test]
fn wrong_usage() {
    let wrong: [&[&str]; 14] = [
        &[],
        &["plan"],
        &["plan", "x"],
        &["plan", "-1"],
        &["plan", "+1"],
        &["plan", ""],
        &["plan", "3", "4"],
        &["check", "3"],
        &["check", "3", "20040"],
        &["check", "3", "zz"],
        &["solve", "3"],
        &["calls", "passes", "7"],
        &["calls", "propagations", "7", "40"],
        &["answers", "propagations"],
    ];
    for words in wrong {
        let output = run(words, b"");
        assert_eq!(output.status.code(), Some(2), "{words:?}");
        assert!(output.stdout.is_empty() && output.stderr.starts_with(b"usage: "), "{words:?}");
    }
}
