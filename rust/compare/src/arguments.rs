//! What the command line asks for.

use std::{
    env,
    path::{Path, PathBuf},
};

/// Names the program `vectors` where the command line does not.
const VECTORS: &str = "THIMBLEFORD_VECTORS";

/// What `compare help` prints.
pub const HELP: &str = "\
Holds the port beside the published Rust.

compare run [--cases N] [--seed S] [--found FILE]
            [--vectors PATH] [--vectors-cases M]
    Draws N (10000) creations, as many judged calls, and runs of up to 200 calls
    on one region with as many calls together, from the seed S (1), and compares
    the archive's answers and the regions afterwards. A difference is shown as
    what differs: a case is drawn again from its seed and number, and the smallest
    one that is found is written to FILE (target/difference.run). Bytes, actions,
    characters and fields are counted from 0, and lines from 1.
    Then M (3000) cases of every function go to the program `vectors` at PATH,
    else THIMBLEFORD_VECTORS names it.
    A drawn call with a record that only the published Rust takes for a token
    account is left out; it says how many are, as `replay` does. One call in some
    thousands gets records of up to 10 MiB, the longest that an account can be.
    Exits with 1 where an answer differs, else with 3 where a number is never
    reached.

compare again FILE
    Compares the archive on the case of a FILE that `run` wrote.

compare bench [--seed S]
    Times judged calls and creation through the archive beside the published Rust.

compare replay [--runs N] [--seed S] --program PATH
    Compares what the program `replay` at PATH prints: on the runs that have
    names, then on N (100) runs of up to 200 calls on one region, drawn from the
    seed S (1). Half of these are cut short, or have too much in them.
    Exits with 1 where a text differs, else with 3 where a number or an ending is
    never reached.

compare samples [--out DIR]
    Writes the small ones of the runs that have names, and what `replay` has to
    print, to DIR (samples of the repository).

compare record [--out DIR] [--check]
    Writes the recorded sample of `vectors` to DIR/stdin and DIR/stdout (DIR is
    crates/vectors of the repository), or exits with 1 where it is not there.

compare answer
    Answers cases from standard input as `vectors` has to.

Without the sources of lazor-kit/program-v2, which are looked for when this is
built, each exits with 2 and says where that was.

Exit status: 0 as expected, 1 a difference, 2 the comparison could not be made,
3 no difference, and too few cases to reach every number.
";

/// What the command line asks for.
pub enum Task {
    Run(Comparison),
    Again {
        file: PathBuf,
    },
    Bench {
        seed: u64,
    },
    Replay {
        runs: u64,
        seed: u64,
        program: Option<PathBuf>,
    },
    Samples {
        out: PathBuf,
    },
    Record {
        out: PathBuf,
        check: bool,
    },
    Answer,
}

/// How the archive and the program `vectors` are compared.
pub struct Comparison {
    pub cases: u64,
    pub seed: u64,
    pub found: PathBuf,
    pub vectors: Option<PathBuf>,
    pub vectors_cases: u64,
}

/// The task, or nothing where help is asked for.
pub fn parse(mut arguments: impl Iterator<Item = String>) -> Result<Option<Task>, String> {
    let command = arguments.next().ok_or("a command is missing")?;
    let mut task = match command.as_str() {
        "run" => Task::Run(Comparison {
            cases: 10_000,
            seed: 1,
            found: beside("../target/difference.run"),
            vectors: env::var_os(VECTORS).map(PathBuf::from),
            vectors_cases: 3000,
        }),
        "again" => Task::Again {
            file: arguments.next().ok_or("a file is missing")?.into(),
        },
        "bench" => Task::Bench { seed: 1 },
        "replay" => Task::Replay {
            runs: 100,
            seed: 1,
            program: None,
        },
        "samples" => Task::Samples {
            out: beside("../../samples"),
        },
        "record" => Task::Record {
            out: beside("../../crates/vectors"),
            check: false,
        },
        "answer" => Task::Answer,
        "help" | "--help" | "-h" => return Ok(None),
        _ => return Err(format!("there is no command {command}")),
    };
    while let Some(flag) = arguments.next() {
        let mut value = || arguments.next().ok_or(format!("{flag} needs a value"));
        let number = |text: String| text.parse().map_err(|_| format!("{text} is no number"));
        match (&mut task, flag.as_str()) {
            (_, "--help" | "-h") => return Ok(None),
            (Task::Run(run), "--cases") => run.cases = number(value()?)?,
            (Task::Run(run), "--seed") => run.seed = number(value()?)?,
            (Task::Run(run), "--found") => run.found = value()?.into(),
            (Task::Run(run), "--vectors") => run.vectors = Some(value()?.into()),
            (Task::Run(run), "--vectors-cases") => run.vectors_cases = number(value()?)?,
            (Task::Bench { seed }, "--seed") => *seed = number(value()?)?,
            (Task::Replay { runs, .. }, "--runs") => *runs = number(value()?)?,
            (Task::Replay { seed, .. }, "--seed") => *seed = number(value()?)?,
            (Task::Replay { program, .. }, "--program") => *program = Some(value()?.into()),
            (Task::Samples { out }, "--out") => *out = value()?.into(),
            (Task::Record { out, .. }, "--out") => *out = value()?.into(),
            (Task::Record { check, .. }, "--check") => *check = true,
            _ => return Err(format!("{command} does not take {flag}")),
        }
    }
    Ok(Some(task))
}

/// A place named from this crate's folder.
fn beside(place: &str) -> PathBuf {
    Path::new(env!("CARGO_MANIFEST_DIR")).join(place)
}
