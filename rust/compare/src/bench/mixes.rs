//! The calls that are timed.

use oracle::Oracle;

use crate::{
    calls::{self, Call},
    chance::Chance,
    region::{lasting, Recurring, Rule},
    stream::{self, Entry, MAX_INSTRUCTIONS},
    subjects::{Published, Subject},
    table::{self, Record, AMOUNT, SPL_TOKEN, TOKEN_ACCOUNT},
    words::many,
    Key,
};

/// The function that the cases are drawn for.
const BENCH: &str = "bench";

/// So many calls of the comparison make a mix. Their tables lie in the cache,
/// as those of a call do that was just put together.
const DRAWN: usize = 128;

/// So many calls are made of each shape.
const MADE: u64 = 16;

/// A call as both sides take it: tables as bytes, and cut into records.
pub struct Timed {
    /// The region at first.
    pub region: Vec<u8>,
    /// The call.
    pub call: Call,
    /// The records of the table before.
    pub before: Vec<Record>,
    /// The records of the table after.
    pub after: Vec<Record>,
}

/// Calls of one sort.
pub struct Mix {
    /// What they have in common.
    pub name: String,
    /// The calls.
    pub calls: Vec<Timed>,
}

/// Calls of every sort.
pub fn mixes(oracle: &Oracle, seed: u64) -> Vec<Mix> {
    let drawn = |name: &str, wanted: fn(u32) -> bool| Mix {
        name: name.to_string(),
        calls: drawn(oracle, seed, wanted),
    };
    let made = |name: &str, shape: Shape| Mix {
        name: name.to_string(),
        calls: made(seed, shape),
    };
    vec![
        drawn("all answers, as drawn", |_| true),
        drawn("accepted, as drawn", |number| number == 0),
        made("64 records, 6 limits on 2 mints", Shape::limits(64, 6, 2)),
        made("64 records, 16 limits on 6 mints", Shape::limits(64, 16, 6)),
        made("4 records, 2 limits on 1 mint", Shape::limits(4, 2, 1)),
        made("4 records, 16 whitelists", Shape::lists(4, 16)),
    ]
}

/// Calls that show how the cost grows: with records and token limits, and with
/// mints where those are the same.
pub fn growth(seed: u64) -> Vec<Mix> {
    let sizes = [1, 8, 64].map(|records| [1, 8, 16].map(|limits| (records, limits, 6)));
    let mints = [4, 6, 12].map(|mints| (64, 12, mints));
    let mix = |(records, limits, mints): (usize, usize, usize)| {
        let mints = mints.min(limits);
        Mix {
            name: format!(
                "{}, {}, {}",
                many(records, "record"),
                many(limits, "limit"),
                many(mints, "mint"),
            ),
            calls: made(seed, Shape::limits(records, limits, mints)),
        }
    };
    sizes.concat().into_iter().chain(mints).map(mix).collect()
}

/// Calls of the comparison in the domain of the published code, with no record
/// that it alone takes for a token account, whose answers are wanted.
fn drawn(oracle: &Oracle, seed: u64, wanted: fn(u32) -> bool) -> Vec<Timed> {
    let mut published = Published(*oracle);
    let cases = (0..).map(|case| calls::draw(&mut Chance::of_case(seed, BENCH, case)));
    let timed = cases.filter_map(|(region, call)| {
        let number = published.judge(&mut region.clone(), &call);
        let agreed = call.only_published() == 0;
        let timed = timed(region, call)?;
        (agreed && wanted(number) && published.is_stored(&timed.region)).then_some(timed)
    });
    timed.take(DRAWN).collect()
}

/// Calls with no records and no rules, which read sixteen instructions and do no
/// more.
pub fn reading(seed: u64) -> Vec<Timed> {
    let none = table::encode(&[]);
    let list = |chance: &mut Chance| -> Vec<Entry> {
        let entry = |program| Entry::draw(chance, program);
        (0..MAX_INSTRUCTIONS as u8).map(entry).collect()
    };
    let call = |case| Call {
        before: none.clone(),
        after: none.clone(),
        instructions: stream::encode(&list(&mut Chance::of_case(seed, BENCH, case))),
        vault: Key::default(),
        slot: 1,
        lamports_before: 0,
        lamports_after: 0,
        gross: 0,
    };
    (0..DRAWN as u64)
        .map(|case| timed(Vec::new(), call(case)).expect("the tables were encoded"))
        .collect()
}

/// The call with its tables cut, if they are well-formed.
fn timed(region: Vec<u8>, call: Call) -> Option<Timed> {
    Some(Timed {
        before: table::decode(&call.before)?,
        after: table::decode(&call.after)?,
        region,
        call,
    })
}

/// What calls are made like. All of them are accepted.
#[derive(Clone, Copy)]
struct Shape {
    /// The records of both tables: token accounts of the vault, but for every
    /// fourth.
    records: usize,
    /// The token limits, at most three of a mint.
    limits: usize,
    /// The mints of the limits and of the accounts.
    mints: usize,
    /// The whitelists, the last of them of the program that is called.
    lists: usize,
}

impl Shape {
    fn limits(records: usize, limits: usize, mints: usize) -> Self {
        Self {
            records,
            limits,
            mints,
            lists: 0,
        }
    }

    fn lists(records: usize, lists: usize) -> Self {
        Self {
            records,
            limits: 0,
            mints: 1,
            lists,
        }
    }
}

fn made(seed: u64, shape: Shape) -> Vec<Timed> {
    let call = |case| {
        let (region, call) = accepted(&mut Chance::of_case(seed, BENCH, case), shape);
        timed(region, call).expect("the tables were encoded")
    };
    (0..MADE).map(call).collect()
}

/// A call of four instructions that takes a little of every token account.
fn accepted(chance: &mut Chance, shape: Shape) -> (Vec<u8>, Call) {
    let vault = chance.key();
    let mints: Vec<Key> = (0..shape.mints).map(|_| chance.key()).collect();
    let before: Vec<Record> = (0..shape.records)
        .map(|at| {
            let mut data = chance.bytes(TOKEN_ACCOUNT);
            data[..32].copy_from_slice(&mints[at % mints.len()]);
            data[32..AMOUNT].copy_from_slice(&vault);
            Record {
                key: chance.key(),
                owner: if at % 4 == 3 { vault } else { SPL_TOKEN },
                data,
            }
        })
        .collect();
    let with_amount = |amount: u64| {
        let mut records = before.clone();
        for record in &mut records {
            record.data[AMOUNT..AMOUNT + 8].copy_from_slice(&amount.to_le_bytes());
        }
        table::encode(&records)
    };
    let entry = Entry {
        program: 0,
        accounts: vec![0; 4],
        data: vec![0; 12],
    };
    let limits = (0..shape.limits).map(|at| limit(at / mints.len(), mints[at % mints.len()]));
    let others = (1..shape.lists).map(|_| Rule::ProgramWhitelist(chance.key()));
    let called = (shape.lists > 0).then(|| Rule::ProgramWhitelist(before[0].key));
    let rules: Vec<Rule> = limits.chain(others).chain(called).collect();
    let call = Call {
        before: with_amount(1000),
        after: with_amount(990),
        instructions: stream::encode(&vec![entry; 4]),
        vault,
        slot: 100,
        lamports_before: 1000,
        lamports_after: 990,
        gross: 10,
    };
    (lasting(&rules), call)
}

/// A limit of one of the three token types that the calls keep.
fn limit(kind: usize, mint: Key) -> Rule {
    let plenty = 1 << 40;
    match kind {
        0 => Rule::TokenLimit(mint, plenty),
        1 => Rule::TokenMaxPerTx(mint, plenty),
        _ => Rule::TokenRecurringLimit(
            mint,
            Recurring {
                limit: plenty,
                spent: 0,
                window: 10,
                last_reset: 90,
            },
        ),
    }
}

#[cfg(test)]
mod tests {
    use super::*;

    #[test]
    #[cfg_attr(not(oracle_sources), ignore)]
    fn calls_that_are_made_are_accepted() {
        let oracle = Oracle::find().expect("ignored where the sources were not found");
        let mixes = mixes(&oracle, 1).into_iter().skip(1).chain(growth(1));
        for mix in mixes {
            for timed in mix.calls {
                let mut region = timed.region;
                let number = Published(oracle).judge(&mut region, &timed.call);
                assert_eq!(number, 0, "{}", mix.name);
            }
        }
    }
}
