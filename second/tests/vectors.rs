//! The vectors are the same each time, cover every answer, and are answered line by line.
#![forbid(unsafe_code)]

use second::cases;
use second::vectors::{from_hex, to_hex, Family};
use std::collections::BTreeSet;
use std::io::Write;
use std::process::{Command, Stdio};

#[test]
fn cases_are_the_same_each_time() {
    for family in [Family::Values, Family::Check] {
        assert_eq!(family.cases(), family.cases());
    }
}

#[test]
fn value_cases_cover_every_operator() {
    let cases = Family::Values.cases();
    let codes: BTreeSet<&str> = cases.lines().filter_map(|l| l.split(' ').next()).collect();
    assert_eq!(codes.len(), 16);
    assert!(cases.lines().count() >= 3000);
    for line in [
        "4 -7 2",
        "5 7 -2",
        "4 -2147483648 -1",
        "3 65536 65536",
        "15 0 0",
    ] {
        assert!(cases.lines().any(|case| case == line), "{line}");
    }
}

#[test]
fn value_answers() {
    let cases = "4 -7 2\n5 -7 2\n4 1 0\n5 0 0\n8 0 5\n9 0 5\n2 -8 3\n10 1 2\n";
    let answers = "value -4\nvalue 1\nzero\nzero\nvalue 0\nvalue 1\nvalue -5\nvalue 1\n";
    assert_eq!(Family::Values.answers(cases), Ok(answers.to_string()));
}

#[test]
fn check_cases_meet_every_number_within_four_million_bytes() {
    let cases = Family::Check.cases();
    assert!(cases.len() < 4_000_000);
    let answers = Family::Check.answers(&cases).expect("all are cases");
    assert_eq!(answers.lines().count(), cases.lines().count());
    for number in 1..=8 {
        let start = format!("refused {number} ");
        assert!(
            answers.lines().any(|line| line.starts_with(&start)),
            "{number}"
        );
    }
    assert!(
        answers
            .lines()
            .filter(|line| line.starts_with("accepted "))
            .count()
            > 500
    );
}

#[test]
fn check_cases_hold_every_stated_case() {
    let cases = Family::Check.cases();
    let lines: BTreeSet<&str> = cases.lines().collect();
    for case in cases::all() {
        assert!(lines.contains(to_hex(&case.file).as_str()), "{}", case.name);
    }
}

#[test]
fn an_empty_line_is_the_empty_file() {
    let answers = Family::Check.answers("\n\n04000d00\n");
    let expected = "refused 6 0\nrefused 6 0\nrefused 6 0\n";
    assert_eq!(answers, Ok(expected.to_string()));
}

#[test]
fn a_line_that_is_no_case_is_told() {
    for line in [
        "16 1 1",
        "1 1",
        "1 1 1 1",
        "x 1 1",
        "1 2147483648 1",
        "",
        "1  1 1",
    ] {
        assert_eq!(
            Family::Values.answers(&format!("0 1 1\n{line}\n")),
            Err(2),
            "{line}"
        );
    }
    for line in ["0", "0g", "0A", "04 0"] {
        assert_eq!(
            Family::Check.answers(&format!("{line}\n")),
            Err(1),
            "{line}"
        );
    }
}

#[test]
fn hex_reads_back() {
    let all: Vec<u8> = (0..=255).collect();
    assert_eq!(from_hex(&to_hex(&all)), Some(all));
    assert_eq!(to_hex(&[0, 10, 255]), "000aff");
}

fn second(words: &[&str], input: &str) -> (String, i32) {
    let mut child = Command::new(env!("CARGO_BIN_EXE_second"))
        .args(words)
        .stdin(Stdio::piped())
        .stdout(Stdio::piped())
        .stderr(Stdio::null())
        .spawn()
        .expect("the program runs");
    let mut stdin = child.stdin.take().expect("its input");
    let input = input.to_string();
    let writer = std::thread::spawn(move || stdin.write_all(input.as_bytes()).ok());
    let output = child.wait_with_output().expect("its output");
    writer.join().expect("written");
    let text = String::from_utf8(output.stdout).expect("text");
    (text, output.status.code().expect("a status"))
}

#[test]
fn the_commands_write_cases_and_answers() {
    for (name, family) in [
        ("values", Family::Values),
        ("check", Family::Check),
        ("walk", Family::Walk),
        ("session", Family::Session),
    ] {
        let (cases, status) = second(&["vectors", name], "");
        assert_eq!((&cases, status), (&family.cases(), 0));
        let (answers, status) = second(&["expect", name], &cases);
        assert_eq!((Ok(answers), status), (family.answers(&cases), 0));
    }
    assert_eq!(second(&["expect", "values"], "0 1\n"), (String::new(), 1));
    assert_eq!(second(&["vectors", "none"], "").1, 2);
    assert_eq!(second(&["expect", "none"], "").1, 2);
    assert_eq!(second(&["vectors"], "").1, 2);
}

#[test]
fn walks_print_what_they_met_or_fail() {
    let (text, status) = second(&["walks", "3", "600"], "");
    assert_eq!(status, 0);
    assert!(text.starts_with("number 0: ") && text.contains("\nnumber 34: "));
    assert_eq!(second(&["walks", "3", "1"], ""), (String::new(), 1));
}
