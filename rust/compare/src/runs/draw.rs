//! Runs by chance.

use super::Run;
use crate::{
    calls::{self, Call},
    chance::Chance,
    damage::damage,
    region,
    replay::frame::MAX_PARTS,
    table::{self, Record, AMOUNT, TOKEN_ACCOUNT},
};

/// The most calls of a run.
pub const MAX_CALLS: usize = 200;

/// A region that creation accepts, with calls that a program reads: the slots
/// go on and back, and the amounts are small beside the limits, or are not.
pub fn draw(chance: &mut Chance) -> Run {
    let (mut actions, first) = calls::sound(chance);
    for fields in actions.iter_mut().filter_map(|a| a.rule.recurring_mut()) {
        fields.spent = 0;
        fields.last_reset = 0;
    }
    if first.parts_len() > MAX_PARTS {
        return draw(chance);
    }
    let count = match chance.one_in(8) {
        true => MAX_CALLS,
        false => 1 + chance.below(30),
    };
    // What is refused once in a while leaves no trace in what follows.
    let sound = first.clone();
    let mut calls = vec![first];
    while calls.len() < count {
        let mut call = following(chance, &calls[calls.len() - 1], &sound);
        if chance.one_in(20) {
            damage(chance, &mut call.instructions);
        }
        calls.push(call);
    }
    Run {
        region: region::encode(&actions),
        calls,
    }
}

/// A call some slots after or before the last, on the accounts of the first.
fn following(chance: &mut Chance, last: &Call, first: &Call) -> Call {
    let mut call = first.clone();
    let step = chance.below(40) as u64;
    call.slot = match chance.below(4) {
        0 => last.slot.saturating_sub(step),
        1 => last.slot,
        _ => last.slot.saturating_add(step),
    };
    let decrease = chance.below(60) as u64;
    call.lamports_before = call.lamports_before.max(decrease);
    call.lamports_after = call.lamports_before - decrease;
    call.gross = decrease;
    if let Some(mut records) = table::decode(&call.before) {
        for record in &mut records {
            if chance.one_in(2) {
                take(chance, record);
            }
        }
        if !records.is_empty() && chance.one_in(20) {
            let any = chance.below(TOKEN_ACCOUNT);
            if let Some(byte) = chance.one_of(&mut records).data.get_mut(any) {
                *byte ^= 1;
            }
        }
        call.after = table::encode(&records);
    }
    call
}

/// Takes some tokens out of an account, if it is one.
fn take(chance: &mut Chance, record: &mut Record) {
    if record.data.len() < TOKEN_ACCOUNT {
        return;
    }
    if let Some(field) = record.data[AMOUNT..].first_chunk_mut() {
        let taken = chance.below(60) as u64;
        *field = u64::from_le_bytes(*field)
            .saturating_sub(taken)
            .to_le_bytes();
    }
}

#[cfg(test)]
mod tests {
    use super::*;
    use crate::subjects::{Published, Subject};
    use oracle::Oracle;

    #[test]
    #[cfg_attr(not(oracle_sources), ignore)]
    fn runs_are_long_and_change_the_region() {
        let oracle = Oracle::find().expect("ignored where the sources were not found");
        let runs: Vec<Run> = (0..100)
            .map(|case| draw(&mut Chance::of_case(3, "run", case)))
            .collect();
        assert!(runs.iter().all(|run| oracle.create(&run.region) == 0));
        assert!(runs.iter().any(|run| run.calls.len() == MAX_CALLS));
        let back = |run: &Run| run.calls.windows(2).any(|two| two[1].slot < two[0].slot);
        assert!(runs.iter().any(back));
        let settles = |run: &Run| {
            let mut region = run.region.clone();
            for call in &run.calls {
                Published(oracle).judge(&mut region, call);
            }
            region != run.region
        };
        assert!(runs.iter().filter(|run| settles(run)).count() > 30);
    }
}
