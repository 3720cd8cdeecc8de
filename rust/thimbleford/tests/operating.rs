//! What docs/OPERATING.md warns of: what the judge cannot see, or takes from a
//! wrong hand.

use thimbleford::{
    region::{Action, Recurring, Rule, NEVER},
    table::{self, Record},
    Call, Key, Policy, Refusal, SPL_TOKEN,
};

const VAULT: Key = Key([7; 32]);
const MINT: Key = Key([9; 32]);

fn policy(rule: Rule) -> Policy {
    let action = Action {
        expires_at: NEVER,
        rule,
    };
    Policy::create(&[action]).unwrap()
}

/// A table of the vault's token accounts: the byte of each one's key, and what it
/// holds.
fn tokens(accounts: &[(u8, u64)]) -> Vec<u8> {
    let data = |amount: u64| {
        let mut data = [&MINT.0[..], &VAULT.0, &amount.to_le_bytes()].concat();
        data.resize(165, 0);
        data
    };
    let data: Vec<_> = accounts.iter().map(|(_, amount)| data(*amount)).collect();
    let records = accounts.iter().zip(&data).map(|((key, _), data)| Record {
        key: Key([*key; 32]),
        owner: SPL_TOKEN,
        data,
    });
    table::build(&records.collect::<Vec<_>>()).unwrap()
}

/// A call that spends no lamports.
fn call<'a>(before: &'a [u8], after: &'a [u8]) -> Call<'a> {
    Call {
        before,
        after,
        instructions: &[0],
        vault: &VAULT.0,
        slot: 5,
        lamports_before: 0,
        lamports_after: 0,
        gross: 0,
    }
}

/// What a TokenLimit of 10 says when the accounts go from one table to another.
fn judged(before: &[(u8, u64)], after: &[(u8, u64)]) -> Result<(), Refusal> {
    let limit = Rule::TokenLimit {
        mint: MINT,
        remaining: 10,
    };
    policy(limit).judge(&call(&tokens(before), &tokens(after)))
}

#[test]
fn an_account_in_neither_table_is_not_seen() {
    let over = Err(Refusal::ActionTokenLimitExceeded);
    assert_eq!(judged(&[(1, 5), (2, 50)], &[(1, 5), (2, 0)]), over);
    assert_eq!(judged(&[(1, 5)], &[(1, 5)]), Ok(()));
}

#[test]
fn an_account_in_the_table_after_alone_hides_spending() {
    let over = Err(Refusal::ActionTokenLimitExceeded);
    assert_eq!(judged(&[(1, 50), (2, 50)], &[(1, 0), (2, 50)]), over);
    assert_eq!(judged(&[(1, 50)], &[(1, 0), (2, 50)]), Ok(()));
}

#[test]
fn an_account_in_the_table_before_alone_is_refused() {
    let gone = Err(Refusal::SessionTokenAuthorityChanged);
    assert_eq!(judged(&[(1, 5), (2, 5)], &[(1, 5)]), gone);
}

#[test]
fn gross_of_0_switches_the_maximum_off() {
    let maximum = Rule::SolMaxPerTx { max: 10 };
    let spending = |gross| Call {
        lamports_before: 500,
        gross,
        ..call(&[0, 0], &[0, 0])
    };
    let over = Err(Refusal::ActionSolMaxPerTxExceeded);
    assert_eq!(policy(maximum).judge(&spending(500)), over);
    assert_eq!(policy(maximum).judge(&spending(0)), Ok(()));
}

#[test]
fn a_slot_too_high_holds_a_window_until_it_is_over() {
    let mut policy = policy(Rule::SolRecurringLimit(Recurring::fresh(10, 100)));
    let mut judged = |slot, lamports_before| {
        policy.judge(&Call {
            slot,
            lamports_before,
            ..call(&[0, 0], &[0, 0])
        })
    };
    assert_eq!(judged(1_000_000, 10), Ok(()));
    let over = Err(Refusal::ActionSolRecurringLimitExceeded);
    for slot in [200, 1_000, 1_000_100] {
        assert_eq!(judged(slot, 1), over);
    }
    assert_eq!(judged(1_000_101, 1), Ok(()));
}
