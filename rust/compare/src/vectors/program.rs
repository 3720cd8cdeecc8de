//! Asking the program and holding its lines beside the expected ones.

use std::{io, process::Command};

use oracle::Oracle;

use super::{answer, draw, encode, judging, Case, Kind};
use crate::{
    chance::Chance,
    lines, program,
    progress::Progress,
    report::{Difference, Report},
    words::many,
};

/// Cases of so many bytes go to one start of the program.
const BATCH: usize = 50_000;

/// The lines that a program prints for the cases. One more says so where the
/// program fails, and stands for the case at which it did.
pub fn ask(program: &mut Command, cases: &[Case]) -> io::Result<Vec<String>> {
    let text = program::output(program, encode(cases))?;
    Ok(text.lines().map(str::to_string).collect())
}

/// Compares the program's lines with the expected ones, on so many cases of
/// each of the kinds. A judged call that was drawn, with a record that only the
/// published code takes for a token account, is left out, and counted.
pub fn compare(
    oracle: &Oracle,
    program: &mut Command,
    kinds: &[Kind],
    seed: u64,
    all: u64,
) -> io::Result<Report> {
    let mut report = Report::new(kinds.iter().copied().map(Kind::domain).collect());
    let numbered = |kind: Kind| {
        (0..all).map(move |number| {
            let mut chance = Chance::of_case(seed, kind.name(), number);
            (number, draw(&mut chance, kind, number))
        })
    };
    let mut drawn = kinds.iter().copied().flat_map(numbered);
    let mut progress = Progress::start();
    loop {
        let (numbers, cases) = batch(&mut drawn, &mut report);
        if cases.is_empty() {
            return Ok(report);
        }
        let mut answers = ask(program, &cases)?.into_iter();
        for (number, case) in numbers.into_iter().zip(&cases) {
            progress.at(case.kind.name(), number, all);
            let expected = answer(oracle, case).expect("drawn payloads are long enough");
            report.count(case.kind.name(), expected.sort);
            let got = answers.next().unwrap_or("no line".to_string());
            if got != expected.line {
                report.differ(|| {
                    let mut parts = vec![("payload", many(case.payload.len(), "byte"))];
                    parts.extend(lines::parting(&expected.line, &got));
                    Difference {
                        function: case.kind.name(),
                        seed,
                        case: number,
                        parts,
                    }
                });
            }
        }
        if let Some(surplus) = answers.next() {
            report.differ(|| Difference {
                function: "a line more than cases",
                seed,
                case: cases.len() as u64,
                parts: vec![("got", lines::around(&surplus, 0))],
            });
        }
    }
}

/// The next cases with their numbers, so many that they make a batch.
fn batch(
    drawn: &mut impl Iterator<Item = (u64, Case)>,
    report: &mut Report,
) -> (Vec<u64>, Vec<Case>) {
    let (mut numbers, mut cases) = (Vec::new(), Vec::new());
    let mut size = 0;
    while size < BATCH {
        let Some((number, case)) = drawn.next() else {
            break;
        };
        let only_published = judging::left_out(number, &case);
        if only_published > 0 {
            report.leave_out(case.kind.name(), 1, only_published);
            continue;
        }
        size += case.payload.len();
        numbers.push(number);
        cases.push(case);
    }
    (numbers, cases)
}
