//! Document 01's named values, asked of the published code.

use crate::{Call, Instruction, Oracle, Part, Record};

const VAULT: [u8; 32] = [7; 32];
const MINT: [u8; 32] = [9; 32];
const SPL_TOKEN: [u8; 32] = [
    6, 221, 246, 225, 215, 101, 161, 147, 217, 203, 225, 70, 206, 235, 121, 172, 28, 180, 133, 237,
    95, 91, 55, 145, 58, 140, 245, 133, 126, 255, 0, 169,
];

fn oracle() -> Oracle {
    Oracle::find().expect("these tests are built only where the sources were found")
}

fn action(kind: u8, expires_at: u64, data: &[u8]) -> Vec<u8> {
    let mut bytes = vec![kind];
    bytes.extend((data.len() as u16).to_le_bytes());
    bytes.extend(expires_at.to_le_bytes());
    bytes.extend(data);
    bytes
}

fn numbers(values: &[u64]) -> Vec<u8> {
    values.iter().flat_map(|v| v.to_le_bytes()).collect()
}

fn token(kind: u8, amount: u64) -> Vec<u8> {
    action(kind, 0, &[&MINT[..], &numbers(&[amount])].concat())
}

fn token_account(key: u8, amount: u64) -> Record {
    let mut data = vec![0; 165];
    data[..32].copy_from_slice(&MINT);
    data[32..64].copy_from_slice(&VAULT);
    data[64..72].copy_from_slice(&amount.to_le_bytes());
    Record {
        key: [key; 32],
        owner: SPL_TOKEN,
        data,
    }
}

/// A call on empty tables without instructions.
fn quiet(slot: u64, decrease: u64) -> Call<'static> {
    Call {
        before: &[],
        after: &[],
        instructions: &[0],
        vault: &VAULT,
        slot,
        lamports_before: decrease,
        lamports_after: 0,
        gross: decrease,
    }
}

fn judge(region: &mut [u8], slot: u64, decrease: u64) -> u32 {
    oracle().judge(region, &quiet(slot, decrease))
}

#[test]
fn a1_the_empty_region() {
    assert_eq!(oracle().create(&[]), 0);
}

#[test]
fn a2_a_sol_limit() {
    let region = action(1, 0, &numbers(&[100]));
    assert_eq!(region.len(), 19);
    assert_eq!(oracle().create(&region), 0);
}

#[test]
fn a3_its_first_ten_bytes() {
    assert_eq!(oracle().create(&action(1, 0, &numbers(&[100]))[..10]), 1);
}

#[test]
fn a4_both_lists_and_two_sol_limits() {
    let limit = action(1, 0, &numbers(&[100]));
    let lists = [action(10, 0, &[1; 32]), action(11, 0, &[2; 32])].concat();
    assert_eq!(oracle().create(&[&lists[..], &limit, &limit].concat()), 2);
}

#[test]
fn a5_sixteen_and_seventeen_whitelists() {
    let whitelist = action(10, 0, &[1; 32]);
    let (sixteen, seventeen) = (whitelist.repeat(16), whitelist.repeat(17));
    assert_eq!((sixteen.len(), oracle().create(&sixteen)), (688, 0));
    assert_eq!((seventeen.len(), oracle().create(&seventeen)), (731, 1));
}

#[test]
fn b1_a_sol_limit_is_used_up() {
    let mut region = action(1, 0, &numbers(&[100]));
    assert_eq!(judge(&mut region, 1, 40), 0);
    assert_eq!(judge(&mut region, 1, 61), 7);
    assert_eq!(judge(&mut region, 1, 60), 0);
    assert_eq!(region, action(1, 0, &numbers(&[0])));
}

#[test]
fn b2_a_recurring_limit_and_its_windows() {
    let state = |spent, last_reset| action(2, 0, &numbers(&[100, spent, 10, last_reset]));
    let mut region = state(0, 0);
    let calls = [
        (10, 70, 0, state(70, 0)),
        (10, 40, 8, state(70, 0)),
        (11, 40, 0, state(40, 10)),
        (20, 60, 0, state(100, 10)),
        (21, 1, 0, state(1, 20)),
    ];
    for (slot, decrease, answer, after) in calls {
        assert_eq!(judge(&mut region, slot, decrease), answer);
        assert_eq!(region, after);
    }
}

#[test]
fn b3_a_full_window_at_the_top() {
    let full = action(2, 0, &numbers(&[u64::MAX, u64::MAX, 10, 0]));
    let mut region = full.clone();
    assert_eq!(judge(&mut region, 10, 1), 0);
    assert_eq!(region, full);
}

#[test]
fn b4_an_expired_sol_limit() {
    let region = action(1, 50, &numbers(&[100]));
    assert_eq!(judge(&mut region.clone(), 50, 1), 0);
    assert_eq!(judge(&mut region.clone(), 51, 1), 7);
    assert_eq!(judge(&mut region.clone(), 51, 0), 0);
}

#[test]
fn b5_gross_outflow_alone() {
    let mut region = action(3, 0, &numbers(&[10]));
    let call = Call {
        lamports_before: 500,
        lamports_after: 500,
        gross: 11,
        ..quiet(1, 0)
    };
    assert_eq!(oracle().judge(&mut region, &call), 6);
}

#[test]
fn c1_no_instructions() {
    assert_eq!(oracle().read(&[0]), Ok((vec![], 1)));
}

#[test]
fn c2_one_instruction_and_a_byte_after_it() {
    let bytes = [1, 2, 1, 5, 2, 0, 0xAA, 0xBB, 0xCC];
    let entry = Instruction {
        program: 2,
        accounts: Part { at: 3, len: 1 },
        data: Part { at: 6, len: 2 },
    };
    assert_eq!(oracle().read(&bytes), Ok((vec![entry], 8)));
    assert_eq!(oracle().write(&bytes, &[entry]), bytes[..8]);
    // Its highest index is 5: six records resolve it, five do not.
    let table = vec![token_account(1, 0); 6];
    assert_eq!(oracle().resolve(&table, &bytes, &entry), 0);
    assert_eq!(oracle().resolve(&table[..5], &bytes, &entry), 3);
}

#[test]
fn c3_seventeen_instructions() {
    assert_eq!(oracle().read(&[0x11]), Err(3));
}

#[test]
fn two_token_rules_on_one_mint() {
    let region = [token(4, 10), token(6, 10)].concat();
    assert_eq!(oracle().create(&region), 0);
}

#[test]
fn a_balance_over_two_accounts_and_an_account_gone() {
    let before = [token_account(1, 5), token_account(2, 5)];
    let after = [token_account(1, 0), token_account(2, 3)];
    let call = Call {
        before: &before,
        after: &after,
        ..quiet(1, 0)
    };
    let mut region = token(4, 10);
    assert_eq!(oracle().judge(&mut region, &call), 0);
    assert_eq!(region, token(4, 3));
    let gone = Call {
        after: &after[..1],
        ..call
    };
    assert_eq!(oracle().judge(&mut region, &gone), 12);
    assert_eq!(region, token(4, 3));
}

#[test]
fn the_empty_region_still_reads_its_instructions() {
    // The program index passes the empty table, and only a rule would look at it.
    for (instructions, answer) in [(&[][..], 3), (&[1, 9, 0, 0, 0], 0)] {
        let call = Call {
            instructions,
            ..quiet(1, 5)
        };
        assert_eq!(oracle().judge(&mut [], &call), answer);
    }
}

#[test]
fn numbers_are_little_endian() {
    let mut data = [0; 10];
    oracle().write_u64(&mut data, 1, 0x0102_0304_0506_0708);
    assert_eq!(data, [0, 8, 7, 6, 5, 4, 3, 2, 1, 0]);
    assert_eq!(oracle().read_u64(&data, 1), 0x0102_0304_0506_0708);
}
