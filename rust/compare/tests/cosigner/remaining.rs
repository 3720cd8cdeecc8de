//! What remains is the most that the published code accepts.

use compare::{calls, chance::Chance, region, subjects::Subject, table::TOKEN_ACCOUNT};
use thimbleford::{
    instructions,
    region::{Action, Rule},
    table::{self, Record},
    Key, SPL_TOKEN,
};

use crate::{published, typed, CASES};

const VAULT: Key = Key([7; 32]);

/// A call at a slot that spends an amount of what the rule limits.
fn spending(rule: &Rule, slot: u64, amount: u64) -> calls::Call {
    let (lamports, tokens) = match rule.mint() {
        None => (amount, 0),
        Some(_) => (0, amount),
    };
    let accounts = |amount| {
        let data = token_account(rule.mint().unwrap_or(&VAULT), amount);
        let record = Record {
            key: Key([1; 32]),
            owner: SPL_TOKEN,
            data: &data,
        };
        table::build(&[record]).expect("one record is a table")
    };
    calls::Call {
        before: accounts(tokens),
        after: accounts(0),
        instructions: instructions::build(&[], 1).expect("no instructions are a list"),
        vault: VAULT.0,
        slot,
        lamports_before: lamports,
        lamports_after: 0,
        gross: lamports,
    }
}

/// The data of the vault's account of a mint.
fn token_account(mint: &Key, amount: u64) -> Vec<u8> {
    let mut data = [&mint.0[..], &VAULT.0, &amount.to_le_bytes()].concat();
    data.resize(TOKEN_ACCOUNT, 0);
    data
}

#[test]
#[cfg_attr(not(oracle_sources), ignore)]
fn what_remains_is_accepted_and_no_more() {
    let mut right = published();
    let mut limits = 0;
    for case in 0..CASES {
        let (region, call) = calls::draw(&mut Chance::of_case(3, "remaining", case));
        if !right.is_stored(&region) {
            continue;
        }
        let actions = region::cut(&region).expect("what is stored is cut");
        // Each limit by itself, so that no other one decides.
        for (action, own) in typed(&actions).iter().zip(&actions) {
            let Some(remaining) = action.remaining(call.slot) else {
                assert!(matches!(own.rule.code(), 10 | 11), "{own:?}");
                continue;
            };
            let mut judge = |amount| {
                let call = spending(&action.rule, call.slot, amount);
                right.judge(&mut region::encode(&[*own]), &call)
            };
            assert_eq!(judge(remaining), 0, "case {case}: {action:?}");
            if let Some(more) = remaining.checked_add(1) {
                let number = refused_by(action);
                assert_eq!(judge(more), number, "case {case}: {action:?}");
            }
            limits += 1;
        }
    }
    assert!(limits > CASES, "{limits}");
}

/// The number of a limit's refusal.
fn refused_by(action: &Action) -> u32 {
    match action.rule.name() {
        "SolMaxPerTx" => 6,
        "SolLimit" => 7,
        "SolRecurringLimit" => 8,
        "TokenMaxPerTx" => 9,
        "TokenLimit" => 10,
        "TokenRecurringLimit" => 11,
        list => panic!("{list} limits nothing"),
    }
}
