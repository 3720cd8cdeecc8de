//! The rows of docs/DIFFERENCES.md that both sides can be run on, each on the
//! smallest input that shows it: what the published code does, beside the
//! archive. A region that is not in stored form the archive refuses with 15 and
//! leaves as it was.

use std::{
    panic::{catch_unwind, AssertUnwindSafe},
    slice,
};

use compare::{
    calls::Call,
    numbers::BAD_REGION,
    region::{lasting, Recurring, Rule},
    subjects::{Archive, Subject},
    table::{self, Layout, Record, SPL_TOKEN, TOKEN_2022},
    Key,
};
use oracle::{Instruction, Oracle, Part};

const VAULT: Key = [7; 32];
const MINT: Key = [9; 32];

fn oracle() -> Oracle {
    Oracle::find().expect("ignored where the sources were not found")
}

/// What it does, or what it says where it panics.
fn run<T>(published: impl FnOnce() -> T) -> Result<T, String> {
    catch_unwind(AssertUnwindSafe(published)).map_err(|said| match said.downcast::<String>() {
        Ok(said) => *said,
        Err(said) => said
            .downcast::<&str>()
            .expect("a panic says why")
            .to_string(),
    })
}

/// The published code's number and the region that it leaves, or what it says
/// where it panics. The archive's answer is 15.
fn judged(region: &[u8], call: &Call) -> Result<(u32, Vec<u8>), String> {
    assert_eq!(by_archive(region, call), (BAD_REGION, region.to_vec()));
    by_published(region, call)
}

fn by_archive(region: &[u8], call: &Call) -> (u32, Vec<u8>) {
    let mut left = region.to_vec();
    (Archive.judge(&mut left, call), left)
}

fn by_published(region: &[u8], call: &Call) -> Result<(u32, Vec<u8>), String> {
    let mut left = region.to_vec();
    let records = |bytes| table::decode(bytes).expect("a well-formed table");
    let (before, after) = (records(&call.before), records(&call.after));
    let call = oracle::Call {
        before: &before,
        after: &after,
        instructions: &call.instructions,
        vault: &call.vault,
        slot: call.slot,
        lamports_before: call.lamports_before,
        lamports_after: call.lamports_after,
        gross: call.gross,
    };
    let number = run(|| oracle().judge(&mut left, &call))?;
    Ok((number, left))
}

/// A record of the vault that holds so many of the mint's tokens.
fn holding(layout: Layout, amount: u64) -> Record {
    layout.record([1; 32], &MINT, &VAULT, amount)
}

/// A call without instructions on tables that hold so many of the mint's tokens.
fn call(slot: u64, lamports: u64, tokens: [u64; 2]) -> Call {
    let [before, after] = tokens.map(|amount| [holding(Layout::plain(SPL_TOKEN), amount)]);
    Call {
        slot,
        lamports_before: lamports,
        gross: lamports,
        ..Call::quiet(VAULT, &before, &after)
    }
}

/// A call at slot 0 that takes so much SOL.
fn taking(lamports: u64) -> Call {
    call(0, lamports, [0, 0])
}

/// An action that never expires, with any data.
fn action(kind: u8, data: &[u8]) -> Vec<u8> {
    let mut bytes = vec![kind, data.len() as u8, 0];
    bytes.extend([0; 8]);
    bytes.extend(data);
    bytes
}

fn panics<T: std::fmt::Debug>(outcome: Result<T, String>, why: &str) {
    let said = outcome.expect_err("it panics");
    assert!(said.contains(why), "{said}");
}

#[test]
#[cfg_attr(not(oracle_sources), ignore)]
fn regions_that_are_not_cut() {
    for region in [vec![1], lasting(&[Rule::ProgramWhitelist([1; 32]); 17])] {
        assert_eq!(judged(&region, &taking(0)), Ok((1, region)));
    }
}

#[test]
#[cfg_attr(not(oracle_sources), ignore)]
fn data_shorter_than_listed() {
    let empty = action(1, &[]);
    assert_eq!(judged(&empty, &taking(0)), Ok((0, empty.clone())));
    panics(judged(&empty, &taking(1)), "out of range");
    panics(judged(&action(4, &[]), &taking(0)), "out of range");

    // Before another action its header is taken for what is left, 3 + 8 * 256,
    // and lowered: the SolMaxPerTx is a SolRecurringLimit afterwards.
    let max = lasting(&[Rule::SolMaxPerTx(1)]);
    let mut lowered = max.clone();
    lowered[0] = 2;
    assert_eq!(
        judged(&[empty.clone(), max].concat(), &taking(1)),
        Ok((0, [empty, lowered].concat()))
    );
}

#[test]
#[cfg_attr(not(oracle_sources), ignore)]
fn data_longer_than_listed() {
    let limit = |left| action(1, &[left, 0, 0, 0, 0, 0, 0, 0, 5]);
    assert_eq!(judged(&limit(3), &taking(1)), Ok((0, limit(2))));
    assert_eq!(judged(&limit(3), &taking(4)), Ok((7, limit(3))));
}

#[test]
#[cfg_attr(not(oracle_sources), ignore)]
fn both_kinds_of_list() {
    let region = lasting(&[
        Rule::ProgramWhitelist([1; 32]),
        Rule::ProgramBlacklist([2; 32]),
    ]);
    assert_eq!(judged(&region, &taking(0)), Ok((0, region)));
}

#[test]
#[cfg_attr(not(oracle_sources), ignore)]
fn two_limits_where_one_may_stand() {
    let sol = |left| lasting(&[Rule::SolLimit(left); 2]);
    assert_eq!(judged(&sol(3), &taking(1)), Ok((0, sol(2))));
    let tokens = |left| lasting(&[Rule::TokenLimit(MINT, left); 2]);
    assert_eq!(judged(&tokens(3), &call(0, 0, [5, 4])), Ok((0, tokens(2))));
}

#[test]
#[cfg_attr(not(oracle_sources), ignore)]
fn a_window_of_0() {
    let window = |spent| {
        lasting(&[Rule::SolRecurringLimit(Recurring {
            limit: 1,
            spent,
            window: 0,
            last_reset: 0,
        })])
    };
    assert_eq!(judged(&window(0), &taking(1)), Ok((0, window(1))));
    panics(judged(&window(0), &call(1, 1, [0, 0])), "divide by zero");
}

/// Records that are no token accounts by the published layouts, each with what
/// the published code makes of it: it counts 1 token less, misses the account
/// that is gone, and finds an account that became it.
#[test]
#[cfg_attr(not(oracle_sources), ignore)]
fn records_that_only_the_published_code_takes_for_token_accounts() {
    let limit = |left| lasting(&[Rule::TokenLimit(MINT, left)]);
    let plain = holding(Layout::plain(SPL_TOKEN), 1);
    for layout in [
        Layout::new(SPL_TOKEN, 166, 2),
        Layout::new(TOKEN_2022, 166, 0),
        Layout::new(TOKEN_2022, 166, 1),
        Layout::new(TOKEN_2022, 166, 3),
        Layout::new(TOKEN_2022, 355, 2),
    ] {
        let [one, none] = [1, 0].map(|amount| holding(layout, amount));
        let ends = |before: &[Record], after: &[Record]| {
            let call = Call {
                before: table::encode(before),
                after: table::encode(after),
                ..taking(0)
            };
            let published = by_published(&limit(1), &call).expect("it does not panic");
            (published, by_archive(&limit(1), &call))
        };
        let taken = ends(slice::from_ref(&one), &[none]);
        assert_eq!(taken, ((0, limit(0)), (0, limit(1))));
        let gone = ends(slice::from_ref(&one), &[]);
        assert_eq!(gone, ((12, limit(1)), (0, limit(1))));
        let became = ends(slice::from_ref(&plain), &[one]);
        assert_eq!(became, ((0, limit(1)), (12, limit(1))));
    }
}

/// The port's writer, which answers 16, does not pass the C boundary: it is
/// compared through the program `vectors`.
#[test]
#[cfg_attr(not(oracle_sources), ignore)]
fn the_writer_takes_what_the_reader_refuses() {
    let entry = |accounts, data| Instruction {
        program: 0,
        accounts: Part {
            at: 0,
            len: accounts,
        },
        data: Part { at: 0, len: data },
    };
    let write = |source: &[u8], list: &[Instruction]| run(|| oracle().write(source, list));

    for count in [17, 255] {
        let many = write(&[], &vec![entry(0, 0); count]).unwrap();
        assert_eq!(oracle().read(&many), Err(3));
    }
    panics(write(&[], &[entry(0, 0); 256]), "instruction count");
    panics(write(&[7; 256], &[entry(256, 0)]), "account count");
    // 65,536 is cut to 16 bits: the data follows a length of 0.
    let long = write(&[7; 65_536], &[entry(0, 65_536)]).unwrap();
    assert_eq!(long.len(), 5 + 65_536);
    assert_eq!(long[..6], [1, 0, 0, 0, 0, 7]);
    assert_eq!(oracle().read(&long).map(|(_, consumed)| consumed), Ok(5));
}
