//! Wherever a judged call compares two keys each of their bits decides: keys that
//! differ in one of the 256 end as keys that have nothing in common.

use compare::{
    bytes::change_bit,
    calls::Call,
    region::{lasting, Rule},
    subjects::{Archive, Published, Subject},
    table::{Layout, Record, SPL_TOKEN, TOKEN_2022},
    Key,
};
use oracle::Oracle;

const KEY: Key = [3; 32];
const VAULT: Key = [9; 32];
const MINT: Key = [7; 32];
const NOBODY: Key = [0; 32];

/// What two keys are compared for, one of them, the number where the other is
/// the same and where it is not, and a region and a call that have the other.
type Place = (&'static str, Key, u32, u32, fn(Key) -> (Vec<u8>, Call));

const PLACES: [Place; 13] = [
    ("the mints of two limits", MINT, 15, 0, |mint| {
        let limits = [MINT, mint].map(|mint| Rule::TokenLimit(mint, 1));
        (lasting(&limits), Call::quiet(VAULT, &[], &[]))
    }),
    ("a whitelist's program", KEY, 0, 4, |program| {
        (lasting(&[Rule::ProgramWhitelist(program)]), running())
    }),
    ("a blacklist's program", KEY, 5, 0, |program| {
        (lasting(&[Rule::ProgramBlacklist(program)]), running())
    }),
    ("a limit's mint", MINT, 10, 0, |mint| {
        (limit(mint), spending(SPL_TOKEN, VAULT))
    }),
    ("a mint beside another limit's", MINT, 9, 0, |mint| {
        let limits = [Rule::TokenLimit(MINT, 2), Rule::TokenMaxPerTx(mint, 1)];
        (lasting(&limits), spending(SPL_TOKEN, VAULT))
    }),
    ("an account's holder", VAULT, 10, 0, |holder| {
        (limit(MINT), spending(SPL_TOKEN, holder))
    }),
    ("SPL Token", SPL_TOKEN, 10, 0, |program| {
        (limit(MINT), spending(program, VAULT))
    }),
    ("Token-2022", TOKEN_2022, 10, 0, |program| {
        (limit(MINT), spending(program, VAULT))
    }),
    ("a frozen account's mint", MINT, 12, 0, |mint| {
        (limit(mint), leaving(&[]))
    }),
    ("a frozen account's key", KEY, 0, 12, |key| {
        (limit(MINT), leaving(&[Record { key, ..empty() }]))
    }),
    ("its owner", VAULT, 0, 12, |owner| {
        (limit(MINT), leaving(&[with_part(32, owner)]))
    }),
    ("its delegate", NOBODY, 0, 12, |delegate| {
        (limit(MINT), leaving(&[with_part(76, delegate)]))
    }),
    ("its close authority", NOBODY, 0, 12, |authority| {
        (limit(MINT), leaving(&[with_part(133, authority)]))
    }),
];

/// A region that leaves one of the mint's tokens.
fn limit(mint: Key) -> Vec<u8> {
    lasting(&[Rule::TokenLimit(mint, 1)])
}

/// A call that runs the program of the key.
fn running() -> Call {
    let programs = [Record {
        key: KEY,
        owner: NOBODY,
        data: vec![],
    }];
    Call {
        instructions: vec![1, 0, 0, 0, 0],
        ..Call::quiet(VAULT, &programs, &programs)
    }
}

/// A call that takes two tokens out of an account.
fn spending(program: Key, holder: Key) -> Call {
    let account = |amount| Layout::plain(program).record(KEY, &MINT, &holder, amount);
    Call::quiet(VAULT, &[account(2)], &[account(0)])
}

/// A call before which there is an empty account, and after which there is this.
fn leaving(after: &[Record]) -> Call {
    Call::quiet(VAULT, &[empty()], after)
}

/// An account of the vault with no tokens, no delegate and no close authority.
fn empty() -> Record {
    Layout::plain(SPL_TOKEN).record(KEY, &MINT, &VAULT, 0)
}

/// The empty account with a key at this place of its data.
fn with_part(at: usize, key: Key) -> Record {
    let mut account = empty();
    account.data[at..at + 32].copy_from_slice(&key);
    account
}

fn each_bit_decides(subject: &mut dyn Subject) {
    for (name, key, same, other, with) in PLACES {
        let mut number = |key| {
            let (mut region, call) = with(key);
            subject.judge(&mut region, &call)
        };
        assert_eq!(number(key), same, "{name}");
        assert_eq!(number([0x55; 32]), other, "{name}: another key");
        for bit in 0..256 {
            let mut near = key;
            change_bit(&mut near, bit);
            assert_eq!(number(near), other, "{name}: bit {bit}");
        }
    }
}

#[test]
fn in_the_archive() {
    each_bit_decides(&mut Archive);
}

#[test]
#[cfg_attr(not(oracle_sources), ignore)]
fn in_the_published_code() {
    let oracle = Oracle::find().expect("ignored where the sources were not found");
    each_bit_decides(&mut Published(oracle));
}
