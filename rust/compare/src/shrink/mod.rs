//! The smallest run on which something still holds, such as a difference.

mod lengths;
mod lists;
mod numbers;
mod parts;

use crate::runs::Run;

/// The smallest run that is found from one on which `holds` is true: in each
/// step one thing less, or a lower number, as long as it stays true.
pub fn smallest(mut run: Run, holds: &mut dyn FnMut(&Run) -> bool) -> Run {
    let mut step = |run: &Run| smaller(run).find(|candidate| holds(candidate));
    while let Some(found) = step(&run) {
        run = found;
    }
    run
}

/// Runs that are smaller in one place, the largest steps first. Each has fewer
/// bytes, or as many with a lower number or a zero more, so they come to an end.
fn smaller(run: &Run) -> Box<dyn Iterator<Item = Run> + '_> {
    let regions = parts::regions(&run.region).map(|region| Run {
        region,
        calls: run.calls.clone(),
    });
    let all = 0..run.calls.len();
    let with = move |at: usize| {
        move |call| {
            let mut run = run.clone();
            run.calls[at] = call;
            run
        }
    };
    let lengths = all
        .clone()
        .flat_map(move |at| lengths::shortened(&run.calls[at]).map(with(at)));
    let calls = all.flat_map(move |at| parts::calls(&run.calls[at]).map(with(at)));
    // Long data comes first: every other step copies it.
    let parts = lengths.chain(regions).chain(calls);
    Box::new(parts.chain(numbers::lowered(run)))
}
