//! Lower numbers: one of a run's, or two of them by the same amount, which
//! keeps what lies at an edge there.

use crate::{
    region::{self, Rule},
    runs::Run,
    table::{self, AMOUNT},
};

/// A run of more numbers than these has to lose other things first.
const FEW: usize = 60;

/// The run with one number or two lower.
pub fn lowered(run: &Run) -> impl Iterator<Item = Run> + '_ {
    let mut numbers = Vec::new();
    changed(run, &mut |number| numbers.push(*number));
    if numbers.len() > FEW {
        numbers.clear();
    }
    let all = 0..numbers.len();
    let pairs = all.flat_map(|first| {
        (first..=first)
            .chain(0..first)
            .map(move |other| (first, other))
    });
    let pairs: Vec<(usize, usize)> = pairs.collect();
    pairs.into_iter().flat_map(move |(first, other)| {
        let most = numbers[first].min(numbers[other]);
        let steps = (0..u64::BITS).map(move |halvings| most >> halvings);
        steps.take_while(|step| *step > 0).map(move |step| {
            let mut at = 0;
            changed(run, &mut |number| {
                if at == first || at == other {
                    *number -= step;
                }
                at += 1;
            })
        })
    })
}

/// The run with each of its numbers changed: of actions, of calls, and amounts
/// of token accounts.
fn changed(run: &Run, change: &mut dyn FnMut(&mut u64)) -> Run {
    let mut run = run.clone();
    if let Some(mut actions) = region::cut(&run.region) {
        for action in &mut actions {
            change(&mut action.expires_at);
            match &mut action.rule {
                Rule::SolLimit(number)
                | Rule::SolMaxPerTx(number)
                | Rule::TokenLimit(_, number)
                | Rule::TokenMaxPerTx(_, number) => change(number),
                Rule::SolRecurringLimit(fields) | Rule::TokenRecurringLimit(_, fields) => {
                    change(&mut fields.limit);
                    change(&mut fields.spent);
                    change(&mut fields.window);
                    change(&mut fields.last_reset);
                }
                Rule::ProgramWhitelist(_) | Rule::ProgramBlacklist(_) => {}
            }
        }
        run.region = region::encode(&actions);
    }
    for call in &mut run.calls {
        change(&mut call.slot);
        change(&mut call.lamports_before);
        change(&mut call.lamports_after);
        change(&mut call.gross);
        for bytes in [&mut call.before, &mut call.after] {
            let Some(mut records) = table::decode(bytes) else {
                continue;
            };
            for record in &mut records {
                let data = record.data.get_mut(AMOUNT..).unwrap_or_default();
                if let Some(field) = data.first_chunk_mut() {
                    let mut amount = u64::from_le_bytes(*field);
                    change(&mut amount);
                    *field = amount.to_le_bytes();
                }
            }
            *bytes = table::encode(&records);
        }
    }
    run
}
