//! Judges the calls of one mix of `compare bench` once, through the archive, for
//! a profiler to count. In `rust/`:
//!
//!     cargo build --release -p compare --example judged
//!     valgrind --tool=callgrind --collect-atstart=no --toggle-collect=thimbleford_judge \
//!         target/release/examples/judged '1 record, 1 limit, 1 mint'
//!
//! What was collected, divided by the number of calls that is printed, is one
//! judged call.

use std::process::ExitCode;

use compare::{
    bench::mixes::{growth, mixes, Mix},
    subjects::{Archive, Subject},
};
use oracle::Oracle;

/// What `compare bench` draws from.
const SEED: u64 = 1;

fn main() -> ExitCode {
    let made = growth(SEED);
    let drawn = Oracle::find().map_or(vec![], |oracle| mixes(&oracle, SEED));
    let wanted = std::env::args().nth(1).unwrap_or_default();
    let all: Vec<Mix> = made.into_iter().chain(drawn).collect();
    let Some(mix) = all.iter().find(|mix| mix.name == wanted) else {
        let names: Vec<_> = all.iter().map(|mix| format!("'{}'", mix.name)).collect();
        eprintln!("judged: which mix? {}", names.join(", "));
        return ExitCode::from(2);
    };
    for timed in &mix.calls {
        Archive.judge(&mut timed.region.clone(), &timed.call);
    }
    println!("{} calls", mix.calls.len());
    ExitCode::SUCCESS
}
