//! Faults of other kinds.

use std::ops::Range;

use compare::{
    calls::Call,
    region::{self, Action, Rule},
    runner,
    subjects::{Published, Subject},
    table::{self, Record, TOKEN_ACCOUNT},
};

use super::{is_found, published, with_actions};

/// The table after is handed over with a field of the table before, wherever
/// the freeze would compare the two.
fn unfrozen(
    right: &mut Published,
    region: &mut [u8],
    call: &Call,
    put_back: impl Fn(&Record, &mut Record),
) -> u32 {
    let tables = (table::decode(&call.before), table::decode(&call.after));
    let (Some(before), Some(mut after)) = tables else {
        return right.judge(region, call);
    };
    for record in before
        .iter()
        .filter(|r| table::counted(r, &call.vault).is_some())
    {
        if let Some(first) = after.iter_mut().find(|other| other.key == record.key) {
            put_back(record, first);
        }
    }
    let call = Call {
        after: table::encode(&after),
        ..call.clone()
    };
    right.judge(region, &call)
}

fn put_back(record: &Record, other: &mut Record, field: Range<usize>) {
    if let Some(bytes) = other.data.get_mut(field.clone()) {
        bytes.copy_from_slice(&record.data[field]);
    }
}

#[test]
#[cfg_attr(not(oracle_sources), ignore)]
fn a_field_not_frozen() {
    is_found(|right, region, call| unfrozen(right, region, call, |a, b| put_back(a, b, 32..64)));
    is_found(|right, region, call| unfrozen(right, region, call, |a, b| put_back(a, b, 72..108)));
    is_found(|right, region, call| unfrozen(right, region, call, |a, b| put_back(a, b, 129..165)));
    is_found(|right, region, call| unfrozen(right, region, call, |a, b| b.owner = a.owner));
    is_found(|right, region, call| {
        unfrozen(right, region, call, |record, other| {
            if other.data.len() < record.data.len() {
                other.data.clone_from(&record.data);
            }
        })
    });
}

/// Accounts of Token-2022 with more behind them are handed over under an owner
/// that is no token program.
#[test]
#[cfg_attr(not(oracle_sources), ignore)]
fn a_longer_account_that_is_not_counted() {
    is_found(|right, region, call| {
        let plain_only = |bytes: &[u8]| {
            let Some(mut records) = table::decode(bytes) else {
                return bytes.to_vec();
            };
            for record in records.iter_mut().filter(|r| r.data.len() > TOKEN_ACCOUNT) {
                record.owner = [0; 32];
            }
            table::encode(&records)
        };
        let call = Call {
            before: plain_only(&call.before),
            after: plain_only(&call.after),
            ..call.clone()
        };
        right.judge(region, &call)
    });
}

/// The table after is handed over from its end.
#[test]
#[cfg_attr(not(oracle_sources), ignore)]
fn the_last_record_of_a_key() {
    is_found(|right, region, call| {
        let Some(mut records) = table::decode(&call.after) else {
            return right.judge(region, call);
        };
        records.reverse();
        let call = Call {
            after: table::encode(&records),
            ..call.clone()
        };
        right.judge(region, &call)
    });
}

/// Where the freeze refuses, it is asked again without expired token actions.
#[test]
#[cfg_attr(not(oracle_sources), ignore)]
fn a_freeze_of_live_actions_alone() {
    is_found(|right, region, call| {
        let answer = right.judge(region, call);
        if answer != 12 {
            return answer;
        }
        let mut actions = region::cut(region).expect("the region was judged");
        actions.retain(|action| !action.is_expired(call.slot));
        match right.judge(&mut region::encode(&actions), call) {
            12 => 12,
            _ => 0,
        }
    });
}

/// The decrease is handed over as gross outflow.
#[test]
#[cfg_attr(not(oracle_sources), ignore)]
fn a_most_per_call_that_looks_at_the_decrease() {
    is_found(|right, region, call| {
        let gross = call.lamports_before.saturating_sub(call.lamports_after);
        let call = Call {
            gross,
            ..call.clone()
        };
        right.judge(region, &call)
    });
}

/// The actions are handed over sorted by type.
#[test]
#[cfg_attr(not(oracle_sources), ignore)]
fn rules_not_in_region_order() {
    is_found(|right, region, call| {
        let Some(actions) = region::cut(region) else {
            return right.judge(region, call);
        };
        let mut order: Vec<usize> = (0..actions.len()).collect();
        order.sort_by_key(|at| actions[*at].rule.code());
        let sorted: Vec<Action> = order.iter().map(|at| actions[*at]).collect();
        let mut bytes = region::encode(&sorted);
        let answer = right.judge(&mut bytes, call);
        let left = region::cut(&bytes).expect("judging keeps every action");
        let mut merged = actions.clone();
        for (action, at) in left.into_iter().zip(order) {
            merged[at] = action;
        }
        region.copy_from_slice(&region::encode(&merged));
        answer
    });
}

/// Expired blacklists are handed over as live ones.
#[test]
#[cfg_attr(not(oracle_sources), ignore)]
fn a_ban_that_is_never_lifted() {
    is_found(|right, region, call| {
        let change = |mut action: Action| {
            if matches!(action.rule, Rule::ProgramBlacklist(_)) {
                action.expires_at = 0;
            }
            action
        };
        let back = |was: Action, _, left: Action| Action {
            expires_at: was.expires_at,
            ..left
        };
        with_actions(right, region, call, change, back)
    });
}

#[test]
#[cfg_attr(not(oracle_sources), ignore)]
fn an_accepted_call_that_writes_nothing() {
    is_found(|right, region, call| right.judge(&mut region.to_vec(), call));
}

#[test]
#[cfg_attr(not(oracle_sources), ignore)]
fn a_refused_call_that_writes() {
    is_found(|right, region, call| {
        let answer = right.judge(region, call);
        if let (1.., Some(byte)) = (answer, region.last_mut()) {
            *byte ^= 1;
        }
        answer
    });
}

/// A wrong number of creation is found as well.
#[test]
#[cfg_attr(not(oracle_sources), ignore)]
fn a_creation_that_finds_no_conflict() {
    struct NoConflict(Published);
    impl Subject for NoConflict {
        fn create(&mut self, region: &[u8]) -> u32 {
            self.0.create(region).min(1)
        }
        fn judge(&mut self, region: &mut [u8], call: &Call) -> u32 {
            self.0.judge(region, call)
        }
    }
    let right = published();
    let report = runner::compare(&mut right.clone(), &mut NoConflict(right), 1, 200);
    assert!(report.differences() > 0);
    assert!(report
        .to_string()
        .contains("difference: create, seed 1, case "));
    // The smallest region with a conflict has one entry of each list.
    let run = report.smallest().unwrap();
    let codes: Vec<u8> = (region::cut(&run.region).unwrap().iter())
        .map(|action| action.rule.code())
        .collect();
    assert!(run.calls.is_empty() && [[10, 11], [11, 10]].contains(&[codes[0], codes[1]]));
    assert_eq!(codes.len(), 2);
}
