//! The runner: draws runs and compares two subjects on them, each answer and
//! every byte of each region afterwards, of refused calls too.

use std::{fmt, iter};

use crate::{
    calls::{self, Call},
    chance::Chance,
    creation, fields, long_records,
    numbers::{self, CREATION, JUDGING, RUNNING},
    progress::Progress,
    report::{Difference, Domain, Report},
    runs::{self, Run},
    shrink,
    subjects::Subject,
};

/// The name of creation in a report.
pub const CREATE: &str = "create";

/// The name of single judged calls in a report.
pub const JUDGE: &str = "judge";

/// The name of the calls of runs in a report.
pub const RUN: &str = "run";

/// So many fields of a region that differ are shown; the others are counted.
const FIELDS: usize = 5;

/// Where two subjects part.
#[derive(Clone, Debug, PartialEq, Eq)]
pub struct Parting {
    /// The run up to there: its one call, or none for creation, on the region
    /// as it was then.
    pub at: Run,
    /// The expected number and the other.
    pub numbers: [u32; 2],
    /// The expected region afterwards and the other.
    pub regions: [Vec<u8>; 2],
}

/// The first place at which two subjects part on a run, if there is one. Each
/// expected number goes to `seen`.
pub fn parting(
    expected: &mut dyn Subject,
    subject: &mut dyn Subject,
    run: &Run,
    seen: &mut dyn FnMut(u32),
) -> Option<Parting> {
    let Run { region, calls } = run;
    let mut regions = [region.clone(), region.clone()];
    if calls.is_empty() {
        let numbers = [expected.create(region), subject.create(region)];
        seen(numbers[0]);
        return (numbers[0] != numbers[1]).then(|| Parting {
            at: run.clone(),
            numbers,
            regions,
        });
    }
    let mut was = region.clone();
    for call in calls {
        let numbers = [
            expected.judge(&mut regions[0], call),
            subject.judge(&mut regions[1], call),
        ];
        seen(numbers[0]);
        if numbers[0] != numbers[1] || regions[0] != regions[1] {
            let at = Run {
                region: was,
                calls: vec![call.clone()],
            };
            return Some(Parting {
                at,
                numbers,
                regions,
            });
        }
        was.copy_from_slice(&regions[0]);
    }
    None
}

/// The smallest run that is found on which two subjects part, from where they
/// do. A subject has no memory, so the one call at which they part is enough.
/// What the comparison leaves out is not shown in its place.
fn smallest(expected: &mut dyn Subject, subject: &mut dyn Subject, parting: Parting) -> Run {
    shrink::smallest(parting.at, &mut |run| {
        run.only_published() == 0 && self::parting(expected, subject, run, &mut |_| {}).is_some()
    })
}

/// Compares a subject with the one that is expected to be right: on so many
/// cases of creation, on as many judged calls, and on runs that have as many
/// calls together. A run with a record that only the published code takes for a
/// token account is left out, and counted.
pub fn compare(
    expected: &mut dyn Subject,
    subject: &mut dyn Subject,
    seed: u64,
    cases: u64,
) -> Report {
    let domain = |function, numbers| Domain {
        function,
        answers: numbers::names(numbers),
    };
    let mut report = Report::new(vec![
        domain(CREATE, &CREATION),
        domain(JUDGE, &JUDGING),
        domain(RUN, &RUNNING),
    ]);
    let mut progress = Progress::start();
    for function in [CREATE, JUDGE, RUN] {
        let mut done = 0;
        for case in 0.. {
            if done >= cases {
                break;
            }
            let run = draw(function, seed, case);
            let only_published = run.only_published();
            if only_published > 0 {
                report.leave_out(function, run.calls.len(), only_published);
                continue;
            }
            for longest in run.calls.iter().filter_map(Call::long_record) {
                report.count_long(function, longest);
            }
            let mut count = |number| report.count(function, numbers::name(number));
            let parting = parting(expected, subject, &run, &mut count);
            done += run.calls.len().max(1) as u64;
            progress.at(function, done, cases);
            if let Some(parting) = parting {
                report.differ(|| Difference {
                    function,
                    seed,
                    case,
                    parts: parting.parts(),
                });
                report.keep_smallest(|| smallest(expected, subject, parting));
            }
        }
    }
    report
}

/// The case of a function and a number.
pub fn draw(function: &str, seed: u64, case: u64) -> Run {
    let mut chance = Chance::of_case(seed, function, case);
    let mut run = match function {
        CREATE => Run {
            region: creation::draw(&mut chance),
            calls: vec![],
        },
        JUDGE => {
            let (region, call) = calls::draw(&mut chance);
            Run {
                region,
                calls: vec![call],
            }
        }
        _ => runs::draw(&mut chance),
    };
    for call in &mut run.calls {
        long_records::sometimes(&mut chance, call);
    }
    run
}

impl Parting {
    /// What was asked, both answers, and where the regions afterwards differ.
    fn parts(&self) -> Vec<(&'static str, String)> {
        let [expected, got] = self.numbers.map(numbers::named);
        let mut parts = vec![
            ("asked", self.at.summary()),
            ("expected", expected),
            ("got", got),
        ];
        let [expected, got] = &self.regions;
        let differing = fields::differing(&self.at.region, expected, got);
        let labels = iter::once("region afterwards").chain(iter::repeat(""));
        let more = differing.len().saturating_sub(FIELDS);
        let rest = (more > 0).then(|| format!("and {more} more"));
        let lines = differing.into_iter().take(FIELDS).chain(rest);
        parts.extend(labels.zip(lines));
        parts
    }
}

impl fmt::Display for Parting {
    fn fmt(&self, f: &mut fmt::Formatter) -> fmt::Result {
        let mut parts = self.parts().into_iter();
        parts.try_for_each(|(name, value)| writeln!(f, "  {name:<24}{value}"))
    }
}
