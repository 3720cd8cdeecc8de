//! Cases that are wanted by name, whatever chance draws: tables and entries at
//! their limits, and judged calls on token accounts.

use oracle::{Instruction, Part};

use crate::{
    calls::Call,
    region::{lasting, Rule},
    table::{self, Layout, Record, MAX_RECORDS, SPL_TOKEN, TOKEN_2022},
    Key,
};

const VAULT: Key = [9; 32];

pub const MINT: Key = [7; 32];

/// A program that is no token program.
const THIRD_PROGRAM: Key = [5; 32];

/// A table and an index into it: counts at their limits, and one record that is
/// cut at each field.
pub fn tables() -> Vec<(&'static str, Vec<u8>, u8)> {
    let one = table_of(1);
    let cut = |len: usize| one[..len].to_vec();
    let longer = [&one[..], &[0]].concat();
    let last = MAX_RECORDS as u8 - 1;
    vec![
        ("one record", one.clone(), 0),
        ("one record, the place after it", one.clone(), 1),
        ("no record", table_of(0), 0),
        ("64 records, the last", table_of(MAX_RECORDS), last),
        (
            "64 records, the place after",
            table_of(MAX_RECORDS),
            last + 1,
        ),
        ("65 records", table_of(MAX_RECORDS + 1), 0),
        ("no bytes", cut(0), 0),
        ("cut in the count", cut(1), 0),
        ("cut before the key", cut(2), 0),
        ("cut in the key", cut(2 + 31), 0),
        ("cut in the owning program", cut(2 + 32 + 31), 0),
        ("cut in the data's length", cut(2 + 64 + 3), 0),
        ("cut in the data", cut(one.len() - 1), 0),
        ("a byte after the last record", longer, 0),
    ]
}

/// A table of so many records, each with a key of its own and some data.
fn table_of(count: usize) -> Vec<u8> {
    let record = |at: usize| Record {
        key: [at as u8; 32],
        owner: THIRD_PROGRAM,
        data: vec![1; 3],
    };
    table::encode(&(0..count).map(record).collect::<Vec<_>>())
}

/// A table, an entry and its source: each table with its index, as the program's
/// and as an account's, and parts that end with the source, pass it, and pass
/// all numbers.
pub fn entries() -> Vec<(&'static str, Vec<u8>, Instruction, Vec<u8>)> {
    let entry = |program: u8, accounts: [usize; 2], data: [usize; 2]| {
        let part = |[at, len]: [usize; 2]| Part { at, len };
        Instruction {
            program,
            accounts: part(accounts),
            data: part(data),
        }
    };
    let at_index = tables().into_iter().map(|(name, table, index)| {
        let entry = entry(index, [0, 1], [1, 0]);
        (name, table, entry, vec![index])
    });
    let (inside, far, top) = ([1, 1], 1 << 32, usize::MAX);
    let parts = [
        ("all of the source", [0, 3], [0, 3]),
        ("nothing at its end", [3, 0], [3, 0]),
        ("accounts one longer", [0, 4], inside),
        ("data one longer", inside, [0, 4]),
        ("no accounts past the end", [4, 0], inside),
        ("no data past the end", inside, [4, 0]),
        ("accounts at 2^32", [far, 1], inside),
        ("data of 2^32 bytes", inside, [0, far]),
        ("accounts whose end passes 2^64", [top, 2], inside),
        ("data whose end passes 2^64", inside, [1, top]),
    ];
    let of_source = parts.map(|(name, accounts, data)| {
        let entry = entry(0, accounts, data);
        (name, table_of(1), entry, vec![0; 3])
    });
    let neither = entry(0, [top, 2], [1, top]);
    let no_table = ("no table, and no source", vec![], neither, vec![]);
    at_index.chain(of_source).chain([no_table]).collect()
}

/// A region and a judged call on it. The first action is a limit of the mint.
pub fn calls() -> Vec<(&'static str, Vec<u8>, Call)> {
    let moved = |layout, before, after| Account {
        layout,
        before,
        after,
    };
    let whole = |before, after| moved(Layout::plain(SPL_TOKEN), before, after);
    let of = |owner| moved(Layout::plain(owner), 5, 0);
    let long = |len| moved(Layout::new(SPL_TOKEN, len, 0), 5, 0);
    let two = [whole(60, 30), whole(50, 10)];
    let top = u64::MAX;
    let mut gone = call(&[whole(5, 5)]);
    gone.after = table_of(0);
    let limit = |remaining| lasting(&[Rule::TokenLimit(MINT, remaining)]);
    let both = [Rule::TokenLimit(MINT, 10), Rule::TokenMaxPerTx(MINT, 10)];
    vec![
        ("a balance over two accounts", limit(71), call(&two)),
        ("over two accounts, too much", limit(69), call(&two)),
        (
            "what one account loses another gains",
            limit(1),
            call(&[whole(60, 10), whole(0, 50)]),
        ),
        (
            "a sum before past 2^64",
            limit(11),
            call(&[whole(top, top - 10), whole(5, 0)]),
        ),
        (
            "both sums past 2^64",
            limit(1),
            call(&[whole(top, top), whole(5, 1)]),
        ),
        ("data of 164 bytes", limit(1), call(&[long(164)])),
        ("data of 165 bytes", limit(1), call(&[long(165)])),
        ("SPL Token", limit(6), call(&[of(SPL_TOKEN)])),
        ("Token-2022", limit(6), call(&[of(TOKEN_2022)])),
        ("a third program", limit(6), call(&[of(THIRD_PROGRAM)])),
        (
            "both token programs and a third",
            limit(16),
            call(&[SPL_TOKEN, TOKEN_2022, THIRD_PROGRAM].map(of)),
        ),
        (
            "TokenLimit and TokenMaxPerTx on one mint",
            lasting(&both),
            call(&[whole(60, 50)]),
        ),
        (
            "more than TokenMaxPerTx",
            lasting(&[Rule::TokenMaxPerTx(MINT, 10)]),
            call(&[whole(60, 49)]),
        ),
        ("an account gone after", limit(1), gone),
    ]
}

/// A token account of the mint and the vault: its layout, and its amount before
/// and after.
struct Account {
    layout: Layout,
    before: u64,
    after: u64,
}

/// A call without instructions that moves the accounts' amounts.
fn call(accounts: &[Account]) -> Call {
    let records = |amount: fn(&Account) -> u64| -> Vec<Record> {
        let keyed = (0..).zip(accounts);
        keyed
            .map(|(key, account)| held(&account.layout, key, amount(account)))
            .collect()
    };
    quiet(
        &records(|account| account.before),
        &records(|account| account.after),
    )
}

/// A record of the vault with so many of the mint's tokens: its key is of this byte.
pub fn held(layout: &Layout, key: u8, amount: u64) -> Record {
    layout.record([key; 32], &MINT, &VAULT, amount)
}

/// A quiet call of the vault.
pub fn quiet(before: &[Record], after: &[Record]) -> Call {
    Call::quiet(VAULT, before, after)
}

#[cfg(test)]
mod tests {
    use oracle::Oracle;

    use super::*;
    use crate::{
        bytes::Cursor,
        subjects::{Published, Subject},
        vectors::indexes,
    };

    #[test]
    #[cfg_attr(not(oracle_sources), ignore)]
    fn entries_resolve_as_they_are_named() {
        let oracle = Oracle::find().expect("ignored where the sources were not found");
        let numbers: Vec<_> = entries()
            .into_iter()
            .map(|(name, table, entry, source)| {
                let payload = indexes::encode_resolve(&table, &entry, &source);
                let (line, _) = indexes::resolve(&oracle, Cursor::new(&payload)).unwrap();
                (name, line)
            })
            .collect();
        let expected = [
            ("one record", 0),
            ("one record, the place after it", 3),
            ("no record", 3),
            ("64 records, the last", 0),
            ("64 records, the place after", 3),
            ("65 records", 13),
            ("no bytes", 13),
            ("cut in the count", 13),
            ("cut before the key", 13),
            ("cut in the key", 13),
            ("cut in the owning program", 13),
            ("cut in the data's length", 13),
            ("cut in the data", 13),
            ("a byte after the last record", 13),
            ("all of the source", 0),
            ("nothing at its end", 0),
            ("accounts one longer", 3),
            ("data one longer", 3),
            ("no accounts past the end", 3),
            ("no data past the end", 3),
            ("accounts at 2^32", 3),
            ("data of 2^32 bytes", 3),
            ("accounts whose end passes 2^64", 3),
            ("data whose end passes 2^64", 3),
            ("no table, and no source", 13),
        ];
        assert_eq!(numbers, expected.map(|(name, n)| (name, n.to_string())));
    }

    #[test]
    #[cfg_attr(not(oracle_sources), ignore)]
    fn calls_end_as_they_are_named() {
        let oracle = Oracle::find().expect("ignored where the sources were not found");
        let ends: Vec<_> = calls()
            .into_iter()
            .map(|(name, mut region, call)| {
                let number = Published(oracle).judge(&mut region, &call);
                // What remains of the first action's limit.
                let remaining = region[43..51].try_into().expect("eight bytes");
                (name, number, u64::from_le_bytes(remaining))
            })
            .collect();
        let expected = [
            ("a balance over two accounts", 0, 1),
            ("over two accounts, too much", 10, 69),
            ("what one account loses another gains", 0, 1),
            ("a sum before past 2^64", 0, 1),
            ("both sums past 2^64", 0, 1),
            ("data of 164 bytes", 0, 1),
            ("data of 165 bytes", 10, 1),
            ("SPL Token", 0, 1),
            ("Token-2022", 0, 1),
            ("a third program", 0, 6),
            ("both token programs and a third", 0, 6),
            ("TokenLimit and TokenMaxPerTx on one mint", 0, 0),
            ("more than TokenMaxPerTx", 9, 10),
            ("an account gone after", 12, 1),
        ];
        assert_eq!(ends, expected);
    }
}
