//! The program `replay`: runs of calls on one region from its standard input,
//! and a line for each.
//!
//! Inputs that have names come first, then those by [chance](draw). What has to be
//! printed is read from an input's bytes ([`Reading`]), and the numbers in it are
//! those of the published code.

mod draw;
pub mod frame;
mod named;
mod reading;

use std::{fs, io, path::Path};

use crate::{
    calls::Call,
    chance::Chance,
    lines,
    numbers::{self, CREATION, REPLAYING},
    progress::Progress,
    report::{Difference, Domain, Report},
    subjects::Subject,
    words::many,
};

pub use draw::draw;
pub use reading::{Ending, Reading, ENDINGS};

/// The name of a run that differs.
pub const REPLAY: &str = "replay";

/// The name of the regions in a report.
pub const REGIONS: &str = "replay, regions";

/// The name of the calls in a report.
pub const CALLS: &str = "replay, calls";

/// The name of the endings in a report.
pub const ENDS: &str = "replay, endings";

/// Inputs of at most so many bytes are recorded as samples.
const SMALL: usize = 2_000;

/// What a program prints when it is given some input.
pub type Prints<'a> = dyn FnMut(Vec<u8>) -> io::Result<String> + 'a;

/// Compares what the program prints with what it has to print by the subject's
/// numbers, on the named runs and on so many drawn ones. A drawn run with a record
/// that only the published code takes for a token account is left out, counted,
/// and another drawn.
pub fn compare(
    expected: &mut dyn Subject,
    program: &mut Prints,
    seed: u64,
    runs: u64,
) -> io::Result<Report> {
    let domain = |function, answers| Domain { function, answers };
    let mut report = Report::new(vec![
        domain(REGIONS, numbers::names(&CREATION)),
        domain(CALLS, numbers::names(&REPLAYING)),
        domain(ENDS, ENDINGS.map(Ending::name).to_vec()),
    ]);
    let named = named::runs();
    let all = named.len() as u64 + runs;
    let drawn = (named.len() as u64..).map(|case| {
        let mut chance = Chance::of_case(seed, REPLAY, case);
        ("drawn".to_string(), draw(&mut chance))
    });
    let mut progress = Progress::start();
    let mut done = 0;
    for (case, (name, input)) in (0..).zip(named.into_iter().chain(drawn)) {
        if done == all {
            break;
        }
        let calls = reading::calls(&input);
        let only_published = calls.iter().map(Call::only_published).sum();
        if only_published > 0 {
            report.leave_out(CALLS, calls.len(), only_published);
            continue;
        }
        progress.at(REPLAY, done, all);
        done += 1;
        let reading = Reading::of(expected, &input);
        count(&mut report, &reading);
        let expected = reading.to_string();
        let got = program(input.clone())?;
        if got != expected {
            report.differ(|| {
                let mut parts = vec![("run", name), ("input", many(input.len(), "byte"))];
                parts.extend(lines::first_differing(&expected, &got));
                Difference {
                    function: REPLAY,
                    seed,
                    case,
                    parts,
                }
            });
        }
    }
    Ok(report)
}

/// Counts what is expected.
fn count(report: &mut Report, reading: &Reading) {
    if let Some(number) = reading.region {
        report.count(REGIONS, numbers::name(number));
    }
    for number in &reading.calls {
        report.count(CALLS, numbers::name(*number));
    }
    report.count(ENDS, reading.ending.name());
}

/// The small ones of the named runs: each input, and what has to be printed by
/// the subject's numbers.
pub fn samples(expected: &mut dyn Subject) -> Vec<(String, Vec<u8>, String)> {
    let small = named::runs()
        .into_iter()
        .filter(|(_, input)| input.len() <= SMALL);
    small
        .map(|(name, input)| {
            let text = Reading::of(expected, &input).to_string();
            (name, input, text)
        })
        .collect()
}

/// Writes each sample to NAME.replay and what the program has to print to NAME.txt.
pub fn write_samples(expected: &mut dyn Subject, dir: &Path) -> io::Result<()> {
    fs::create_dir_all(dir)?;
    for (name, input, text) in samples(expected) {
        fs::write(dir.join(format!("{name}.replay")), input)?;
        fs::write(dir.join(format!("{name}.txt")), text)?;
    }
    Ok(())
}
