//! The runner is shown faulty subjects, each made of the published code by what
//! it is handed, and faulty programs, and has to find every fault. Here are those
//! that document 01 calls easy to make.

mod others;
mod replay;
mod smallest;

use std::collections::HashSet;

use compare::{
    calls::Call,
    region::{self, Action, Rule},
    report::{Outcome, Report},
    runner,
    subjects::{Published, Subject},
    table::{self, AMOUNT},
};
use oracle::Oracle;

type Judge = fn(&mut Published, &mut [u8], &Call) -> u32;

/// The published code but for its judging.
struct Faulty(Published, Judge);

impl Subject for Faulty {
    fn create(&mut self, region: &[u8]) -> u32 {
        self.0.create(region)
    }

    fn judge(&mut self, region: &mut [u8], call: &Call) -> u32 {
        self.1(&mut self.0, region, call)
    }
}

fn published() -> Published {
    Published(Oracle::find().expect("ignored where the sources were not found"))
}

fn report(judge: Judge) -> Report {
    let right = published();
    runner::compare(&mut right.clone(), &mut Faulty(right, judge), 1, 3000)
}

/// Differences are found, in judged calls, and shown.
fn is_found(judge: Judge) {
    let report = report(judge);
    assert_eq!(report.outcome(), Outcome::Differs, "{report}");
    let text = report.to_string();
    assert!(text.contains("difference: judge, seed 1, case "), "{text}");
}

/// Judges with other actions and puts back what is not to be seen of that:
/// `back` gets an action as it was, as it was handed over and as it was left.
fn with_actions(
    right: &mut Published,
    region: &mut [u8],
    call: &Call,
    change: impl Fn(Action) -> Action,
    back: impl Fn(Action, Action, Action) -> Action,
) -> u32 {
    let Some(actions) = region::cut(region) else {
        return right.judge(region, call);
    };
    let handed: Vec<Action> = actions.iter().copied().map(change).collect();
    let mut bytes = region::encode(&handed);
    let answer = right.judge(&mut bytes, call);
    let left = region::cut(&bytes).expect("judging keeps every action");
    let merged: Vec<Action> = (0..actions.len())
        .map(|at| back(actions[at], handed[at], left[at]))
        .collect();
    region.copy_from_slice(&region::encode(&merged));
    answer
}

fn is_limit(action: &Action) -> bool {
    action.rule.code() < 10
}

#[test]
#[cfg_attr(not(oracle_sources), ignore)]
fn the_published_code_agrees_with_itself() {
    let report = report(|right, region, call| right.judge(region, call));
    assert!(report.passed(), "{report}");
}

/// Where slot - last_reset is just the window, last_reset is handed over one
/// smaller, and put back where it was not written.
fn reset_at_the_window(right: &mut Published, region: &mut [u8], call: &Call) -> u32 {
    let change = |mut action: Action| {
        if let Some(fields) = action.rule.recurring_mut() {
            let at_the_window = call.slot.checked_sub(fields.last_reset) == Some(fields.window);
            if at_the_window && fields.last_reset > 0 {
                fields.last_reset -= 1;
            }
        }
        action
    };
    let back = |was, handed, left| if left == handed { was } else { left };
    with_actions(right, region, call, change, back)
}

#[test]
#[cfg_attr(not(oracle_sources), ignore)]
fn a_reset_at_the_window_itself() {
    is_found(reset_at_the_window);
}

/// Expired whitelists are not handed over.
#[test]
#[cfg_attr(not(oracle_sources), ignore)]
fn expired_whitelists_dropped() {
    is_found(|right, region, call| {
        let Some(actions) = region::cut(region) else {
            return right.judge(region, call);
        };
        let dropped = |action: &Action| {
            matches!(action.rule, Rule::ProgramWhitelist(_)) && action.is_expired(call.slot)
        };
        let kept: Vec<Action> = actions.iter().copied().filter(|a| !dropped(a)).collect();
        let mut bytes = region::encode(&kept);
        let answer = right.judge(&mut bytes, call);
        let mut left = region::cut(&bytes)
            .expect("judging keeps every action")
            .into_iter();
        let merged: Vec<Action> = actions
            .iter()
            .map(|action| {
                if dropped(action) {
                    *action
                } else {
                    left.next().unwrap()
                }
            })
            .collect();
        region.copy_from_slice(&region::encode(&merged));
        answer
    });
}

/// Expired limits are handed over as limits that never expire and never bind.
#[test]
#[cfg_attr(not(oracle_sources), ignore)]
fn an_expired_limit_as_no_limit() {
    is_found(|right, region, call| {
        let change = |mut action: Action| {
            if is_limit(&action) && action.is_expired(call.slot) {
                action.expires_at = 0;
                match &mut action.rule {
                    Rule::SolLimit(number)
                    | Rule::SolMaxPerTx(number)
                    | Rule::TokenLimit(_, number)
                    | Rule::TokenMaxPerTx(_, number) => *number = u64::MAX,
                    rule => rule.recurring_mut().unwrap().limit = u64::MAX,
                }
            }
            action
        };
        let back = |was, handed, left| if was == handed { left } else { was };
        with_actions(right, region, call, change, back)
    });
}

/// An expired limit refuses the calls that are accepted beside it: those whose
/// decrease, or gross outflow, is 0.
#[test]
#[cfg_attr(not(oracle_sources), ignore)]
fn an_expired_limit_that_refuses_a_zero_decrease() {
    is_found(|right, region, call| {
        let mut left = region.to_vec();
        let answer = right.judge(&mut left, call);
        let actions = region::cut(region).unwrap_or_default();
        let expired = actions
            .iter()
            .find(|a| is_limit(a) && a.is_expired(call.slot));
        match expired.filter(|_| answer == 0) {
            Some(action) => [7, 8, 6, 10, 11, 9][usize::from(action.rule.code()) - 1],
            None => {
                region.copy_from_slice(&left);
                answer
            }
        }
    });
}

/// In both tables a mint's later token accounts are handed over empty.
#[test]
#[cfg_attr(not(oracle_sources), ignore)]
fn the_first_token_account_of_a_mint() {
    is_found(|right, region, call| {
        let first_only = |bytes: &[u8]| {
            let Some(mut records) = table::decode(bytes) else {
                return bytes.to_vec();
            };
            let mut seen = HashSet::new();
            for record in &mut records {
                if let Some((mint, _)) = table::counted(record, &call.vault) {
                    if !seen.insert(mint) {
                        record.data[AMOUNT..AMOUNT + 8].fill(0);
                    }
                }
            }
            table::encode(&records)
        };
        let call = Call {
            before: first_only(&call.before),
            after: first_only(&call.after),
            ..call.clone()
        };
        right.judge(region, &call)
    });
}
