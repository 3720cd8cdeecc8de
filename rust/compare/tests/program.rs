//! The command line, and the program `vectors` as the runner sees it: `compare
//! answer` stands in for it.

use std::{
    env, fs, process,
    process::{Command, Output, Stdio},
};

use compare::{
    chance::Chance,
    runs,
    vectors::{self, KINDS},
    NOTHING_COMPARED,
};
use oracle::Oracle;

/// What a comparison says first.
fn head() -> String {
    let version = thimbleford::BOUNDARY_VERSION;
    format!(
        "published: lazor-kit/program-v2 6c727b9f05, unchanged\n\
         archive: boundary version {version}\n"
    )
}

fn compare() -> Command {
    let mut command = Command::new(env!("CARGO_BIN_EXE_compare"));
    command.env_remove("THIMBLEFORD_VECTORS");
    command
}

fn published() -> Oracle {
    Oracle::find().expect("ignored where the sources were not found")
}

fn kinds() -> u64 {
    KINDS.len() as u64
}

fn output(arguments: &[&str]) -> Output {
    compare().args(arguments).output().unwrap()
}

fn status(arguments: &[&str]) -> Option<i32> {
    output(arguments).status.code()
}

#[test]
#[cfg_attr(not(oracle_sources), ignore)]
fn a_right_program_passes() {
    let oracle = published();
    let report = vectors::compare(&oracle, compare().arg("answer"), &KINDS, 2, 300).unwrap();
    assert!(report.passed(), "{report}");
}

/// Each line of the help is taken for an answer, and so are those that are not there. A blank one
/// may be right where a key is looked up.
#[test]
#[cfg_attr(not(oracle_sources), ignore)]
fn other_lines_differ() {
    let oracle = published();
    let report = vectors::compare(&oracle, compare().arg("help"), &KINDS, 2, 30).unwrap();
    assert!(report.differences() >= 30 * (kinds() - 1));
    let text = report.to_string();
    let shown = "difference: read_u64, seed 2, case 0\n  payload                 ";
    assert!(text.contains(shown), "{text}");
    let parts = "parts at                character 0, in field 0\n  expected                ";
    assert!(text.contains(parts), "{text}");
    let got = "  got                     Holds the port beside the publis..\n";
    assert!(text.contains(got), "{text}");
}

#[test]
#[cfg_attr(not(oracle_sources), ignore)]
fn surplus_lines_and_a_failing_program_differ() {
    let oracle = published();
    let report = vectors::compare(&oracle, compare().arg("help"), &KINDS, 2, 1).unwrap();
    assert_eq!(report.differences(), kinds() + 1);
    let mut failing = compare();
    failing.arg("no command").stderr(Stdio::null());
    let report = vectors::compare(&oracle, &mut failing, &KINDS, 2, 1).unwrap();
    assert_eq!(report.differences(), kinds());
    assert!(report.to_string().contains("ended with exit status: 2"));
}

#[test]
#[cfg_attr(not(oracle_sources), ignore)]
fn a_program_that_is_not_there_is_an_error() {
    assert_eq!(status(&["run", "--vectors", "/no such program"]), Some(2));
    assert_eq!(status(&["replay", "--program", "/no such one"]), Some(2));
    assert_eq!(status(&["replay"]), Some(2));
}

#[test]
fn what_is_not_compared_is_said_in_one_line() {
    let output = output(&["run", "--cases", "2000"]);
    let expected = if oracle::AVAILABLE { 0 } else { 2 };
    assert_eq!(output.status.code(), Some(expected));
    let text = String::from_utf8(output.stderr).unwrap();
    assert_eq!(text.lines().count(), 1);
    assert_eq!(text.starts_with(NOTHING_COMPARED), !oracle::AVAILABLE);
    let text = String::from_utf8(output.stdout).unwrap();
    assert_eq!(text.ends_with("no difference\n"), oracle::AVAILABLE);
}

#[test]
#[cfg_attr(not(oracle_sources), ignore)]
fn too_few_cases_are_no_difference() {
    let said = output(&["run", "--cases", "1"]);
    assert_eq!(said.status.code(), Some(3));
    let text = String::from_utf8(said.stdout).unwrap();
    assert!(text.starts_with(&head()), "{text}");
    assert!(text.contains("never reached: create, "), "{text}");
    let last = text.lines().last().unwrap();
    assert!(
        last.starts_with("no difference, and too few cases: "),
        "{last}"
    );
}

/// The runner without a command stands in for a program that prints nothing and
/// fails. So few cases do not reach every number either.
#[test]
#[cfg_attr(not(oracle_sources), ignore)]
fn a_difference_counts_more_than_too_few_cases() {
    let wrong = env!("CARGO_BIN_EXE_compare");
    for arguments in [
        &["replay", "--runs", "0", "--program", wrong][..],
        &[
            "run",
            "--cases",
            "1",
            "--vectors-cases",
            "1",
            "--vectors",
            wrong,
        ],
    ] {
        let said = output(arguments);
        assert_eq!(said.status.code(), Some(1), "{arguments:?}");
        let text = String::from_utf8(said.stdout).unwrap();
        assert!(text.starts_with(&head()), "{text}");
        assert!(text.contains("never reached: "), "{text}");
        let last = text.lines().last().unwrap();
        assert!(last.contains(" differences, 5 shown; "), "{last}");
    }
}

#[test]
#[cfg_attr(not(oracle_sources), ignore)]
fn a_case_is_compared_again() {
    let file = env::temp_dir().join(format!("compare-again-{}", process::id()));
    let path = file.to_str().unwrap();
    fs::write(&file, runs::draw(&mut Chance::new(1)).to_string()).unwrap();
    let said = output(&["again", path]);
    assert_eq!(said.status.code(), Some(0));
    assert!(said.stdout.starts_with(b"expected "));
    assert!(said.stdout.ends_with(b"no difference\n"));
    fs::write(&file, "no case").unwrap();
    assert_eq!(status(&["again", path]), Some(2));
    fs::remove_file(file).unwrap();
}

#[test]
#[cfg_attr(not(oracle_sources), ignore)]
fn the_sample_is_recorded_and_checked() {
    let dir = env::temp_dir().join(format!("compare-record-{}", process::id()));
    let out = dir.to_str().unwrap();
    assert_eq!(status(&["record", "--out", out, "--check"]), Some(1));
    assert_eq!(status(&["record", "--out", out]), Some(0));
    let said = output(&["record", "--out", out, "--check"]);
    assert_eq!(said.status.code(), Some(0));
    assert_eq!(String::from_utf8(said.stdout).unwrap(), head());
    fs::write(dir.join("stdout"), "0\n").unwrap();
    assert_eq!(status(&["record", "--out", out, "--check"]), Some(1));
    fs::remove_dir_all(dir).unwrap();
}

#[test]
fn the_command_line() {
    assert_eq!(status(&["--help"]), Some(0));
    assert_eq!(status(&["run", "--help"]), Some(0));
    for wrong in [
        &[][..],
        &["walk"],
        &["run", "--cases"],
        &["run", "--seed", "x"],
        &["again"],
    ] {
        assert_eq!(status(wrong), Some(2), "{wrong:?}");
    }
    assert_eq!(status(&["run", "--check"]), Some(2));
    assert_eq!(status(&["answer", "--seed", "1"]), Some(2));
}
