//! The command line of the differential runner.

mod arguments;

use std::{
    env,
    error::Error,
    fs,
    io::{self, Read, Write},
    path::Path,
    process::{Command, ExitCode},
};

use arguments::{Comparison, Task, HELP};
use compare::{
    bench, program,
    record::Sample,
    replay,
    report::Outcome,
    runner,
    runs::Run,
    subjects::{Archive, Published},
    vectors::{self, answer, decode, KINDS},
    NOTHING_COMPARED,
};
use oracle::{Oracle, COMMIT};
use thimbleford::archive_version;

fn main() -> ExitCode {
    let task = match arguments::parse(env::args().skip(1)) {
        Ok(Some(task)) => task,
        Ok(None) => {
            print!("{HELP}");
            return ExitCode::SUCCESS;
        }
        Err(error) => {
            eprint!("compare: {error}\n\n{HELP}");
            return ExitCode::from(2);
        }
    };
    let oracle = match Oracle::find() {
        Ok(oracle) => oracle,
        Err(absent) => {
            eprintln!("{} {absent}", without_sources(&task));
            return ExitCode::from(2);
        }
    };
    match perform(oracle, task) {
        Ok(Outcome::AsExpected) => ExitCode::SUCCESS,
        Ok(Outcome::Differs) => ExitCode::from(1),
        Ok(Outcome::TooFew) => ExitCode::from(3),
        Err(error) => {
            eprintln!("compare: {error}");
            ExitCode::from(2)
        }
    }
}

/// What is said before where the published sources were looked for.
fn without_sources(task: &Task) -> &'static str {
    match task {
        Task::Run(_)
        | Task::Again { .. }
        | Task::Replay { .. }
        | Task::Record { check: true, .. } => NOTHING_COMPARED,
        // Nothing can be written, answered or timed without them.
        _ => "compare: the published sources were not found:",
    }
}

fn perform(oracle: Oracle, task: Task) -> Result<Outcome, Box<dyn Error>> {
    if let Task::Run(_)
    | Task::Replay { .. }
    | Task::Record { check: true, .. }
    | Task::Bench { .. } = task
    {
        say_what_is_compared();
    }
    match task {
        Task::Run(comparison) => run(oracle, comparison),
        Task::Again { file } => again(oracle, &file),
        Task::Bench { seed } => {
            bench::run(&oracle, seed, &mut io::stdout().lock())?;
            Ok(Outcome::AsExpected)
        }
        Task::Replay {
            runs,
            seed,
            program,
        } => {
            let mut program = Command::new(program.ok_or("--program is missing")?);
            let mut prints = |input| program::output(&mut program, input);
            let report = replay::compare(&mut Published(oracle), &mut prints, seed, runs)?;
            print!("{report}");
            Ok(report.outcome())
        }
        Task::Samples { out } => {
            replay::write_samples(&mut Published(oracle), &out)?;
            Ok(Outcome::AsExpected)
        }
        Task::Record { out, check: false } => {
            Sample::draw(&oracle).write(&out)?;
            Ok(Outcome::AsExpected)
        }
        Task::Record { out, check: true } => {
            if Sample::draw(&oracle).is_recorded(&out) {
                return Ok(Outcome::AsExpected);
            }
            eprintln!("compare: {} is not what would be recorded", out.display());
            Ok(Outcome::Differs)
        }
        Task::Answer => {
            let mut input = Vec::new();
            io::stdin().read_to_end(&mut input)?;
            let cases = decode(&input).ok_or("the input is no row of cases")?;
            let mut output = io::stdout().lock();
            for case in &cases {
                let answer = answer(&oracle, case).ok_or("a payload is too short")?;
                writeln!(output, "{}", answer.line)?;
            }
            Ok(Outcome::AsExpected)
        }
    }
}

/// The published files are those of the commit, or the oracle would not have
/// been built.
fn say_what_is_compared() {
    println!("published: lazor-kit/program-v2 {COMMIT}, unchanged");
    println!("archive: boundary version {}", archive_version());
}

/// Compares the archive, and the program `vectors` where it is named.
fn run(oracle: Oracle, comparison: Comparison) -> Result<Outcome, Box<dyn Error>> {
    let Comparison {
        cases,
        seed,
        found,
        vectors,
        vectors_cases,
    } = comparison;
    println!("through the archive, {cases} cases, seed {seed}");
    let report = runner::compare(&mut Published(oracle), &mut Archive, seed, cases);
    print!("{report}");
    if let Some(run) = report.smallest() {
        fs::write(&found, run.to_string())?;
        println!("the smallest: compare again {}", found.display());
    }
    let mut outcome = report.outcome();
    match vectors {
        Some(program) => {
            println!("through the program vectors, {vectors_cases} cases, seed {seed}");
            let mut program = Command::new(program);
            let report = vectors::compare(&oracle, &mut program, &KINDS, seed, vectors_cases)?;
            print!("{report}");
            outcome = outcome.max(report.outcome());
        }
        None => eprintln!("compare: no program `vectors` was named, so it was not compared"),
    }
    Ok(outcome)
}

/// Compares the archive on the case of a file.
fn again(oracle: Oracle, file: &Path) -> Result<Outcome, Box<dyn Error>> {
    let run: Run = fs::read_to_string(file)?.parse()?;
    match run.only_published() {
        0 => {}
        records => println!("the token rules part on {records} records"),
    }
    let mut seen = |number| println!("expected {}", compare::numbers::name(number));
    let parting = runner::parting(&mut Published(oracle), &mut Archive, &run, &mut seen);
    Ok(match parting {
        Some(parting) => {
            print!("{parting}");
            Outcome::Differs
        }
        None => {
            println!("no difference");
            Outcome::AsExpected
        }
    })
}
