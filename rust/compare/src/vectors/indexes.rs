//! Indexes into an account table: resolving an entry's, and the key at one.

use oracle::{Instruction, Oracle, Part};

use super::{entries, named};
use crate::{
    bytes::{hex, Cursor},
    chance::Chance,
    damage::damage,
    numbers::{self, BAD_TABLE, INVALID_INSTRUCTIONS},
    table::{self, Record, MAX_RECORDS},
};

/// The line of a resolved entry, and its sort. A malformed table and a part that
/// passes the source's end are none to the published code: there document 01's
/// number is the answer.
pub fn resolve(oracle: &Oracle, mut payload: Cursor) -> Option<(String, &'static str)> {
    let len = payload.length()?;
    let table = payload.take(len)?;
    let entry = entries::parse(&mut payload)?;
    let source = payload.rest();
    let number = match table::decode(table) {
        None => BAD_TABLE,
        Some(_) if !entries::lies_in(&entry, source.len()) => INVALID_INSTRUCTIONS,
        Some(records) => oracle.resolve(&records, source, &entry),
    };
    Some((number.to_string(), numbers::name(number)))
}

/// The line of a key that is looked up, and its sort. The published code has no
/// such function: the line follows document 01.
pub fn lookup(mut payload: Cursor) -> Option<(String, &'static str)> {
    let index = usize::try_from(payload.u64()?);
    let records = table::decode(payload.rest()).unwrap_or_default();
    let found = index.ok().and_then(|index| records.get(index));
    Some(match found {
        Some(record) => (hex(&record.key), "a key"),
        None => (String::new(), "nothing"),
    })
}

/// The named entries, and after those by chance.
pub fn nth_resolve(chance: &mut Chance, number: u64) -> Vec<u8> {
    match named::entries().into_iter().nth(number as usize) {
        Some((_, table, entry, source)) => encode_resolve(&table, &entry, &source),
        None => draw_resolve(chance),
    }
}

/// The named tables, and after those by chance.
pub fn nth_lookup(chance: &mut Chance, number: u64) -> Vec<u8> {
    match named::tables().into_iter().nth(number as usize) {
        Some((_, table, index)) => encode_lookup(&table, index.into()),
        None => draw_lookup(chance),
    }
}

/// A table, and an entry that names its records, its last one and the place
/// after it, in a source that it ends with or passes.
fn draw_resolve(chance: &mut Chance) -> Vec<u8> {
    let (table, count) = draw_table(chance);
    let many = match chance.below(12) {
        0 => 255,
        few => few % 6,
    };
    // The program's index and those of the accounts.
    let mut indexes: Vec<u8> = (0..1 + many).map(|_| inside(chance, count) as u8).collect();
    if chance.one_in(3) {
        *chance.one_of(&mut indexes) = chance.pick(&[count as u8, 255]);
    }
    // What stands around the indexes is no index.
    let (front, back) = (chance.below(3), chance.below(3));
    let source = [&vec![255; front], &indexes[1..], &vec![255; back]].concat();
    let mut entry = Instruction {
        program: indexes[0],
        accounts: Part {
            at: front,
            len: many,
        },
        data: entries::draw_part(chance, source.len(), 300),
    };
    if chance.one_in(4) {
        entries::pass_the_end(chance, source.len(), &mut entry);
    }
    encode_resolve(&table, &entry, &source)
}

/// The payload of an entry to resolve.
pub fn encode_resolve(table: &[u8], entry: &Instruction, source: &[u8]) -> Vec<u8> {
    let len = (table.len() as u32).to_le_bytes();
    [&len[..], table, &entries::encode(entry), source].concat()
}

/// An index, in range more often than not, and a table.
fn draw_lookup(chance: &mut Chance) -> Vec<u8> {
    let (table, count) = draw_table(chance);
    let inside = inside(chance, count) as u64;
    let index = match chance.below(12) {
        0 => chance.edge(),
        1 => count as u64,
        2 => inside + chance.pick(&[1 << 8, 1 << 16, 1 << 32]),
        _ => inside,
    };
    encode_lookup(&table, index)
}

fn encode_lookup(table: &[u8], index: u64) -> Vec<u8> {
    [&index.to_le_bytes()[..], table].concat()
}

/// An index of a table of `count` records, if there are any.
fn inside(chance: &mut Chance, count: usize) -> usize {
    let any = chance.below(count.max(1));
    chance.pick(&[0, any, any, count.saturating_sub(1)])
}

/// A table, and how many records it was made of. One in six is damaged, which
/// it may survive.
fn draw_table(chance: &mut Chance) -> (Vec<u8>, usize) {
    let count = match chance.below(24) {
        0 => MAX_RECORDS + 1,
        1 => MAX_RECORDS,
        few => few % 9,
    };
    let records: Vec<Record> = (0..count)
        .map(|_| {
            let len = chance.below(6);
            Record {
                key: chance.key(),
                owner: chance.key(),
                data: chance.bytes(len),
            }
        })
        .collect();
    let mut bytes = table::encode(&records);
    if chance.one_in(6) {
        damage(chance, &mut bytes);
    }
    (bytes, count)
}

#[cfg(test)]
mod tests {
    use super::*;

    /// A table of two records.
    fn two() -> Vec<u8> {
        let record = |byte| Record {
            key: [byte; 32],
            owner: [9; 32],
            data: vec![8; 3],
        };
        table::encode(&[record(1), record(2)])
    }

    #[test]
    #[cfg_attr(not(oracle_sources), ignore)]
    fn indexes() {
        let oracle = Oracle::find().expect("ignored where the sources were not found");
        let says = |table: &[u8], program: u8, indexes: &[u8], expected: &str| {
            let entry = Instruction {
                program,
                accounts: Part {
                    at: 0,
                    len: indexes.len(),
                },
                data: Part { at: 0, len: 0 },
            };
            let payload = encode_resolve(table, &entry, indexes);
            let (line, _) = resolve(&oracle, Cursor::new(&payload)).unwrap();
            assert_eq!(line, expected);
        };
        let two = two();
        says(&two, 1, &[], "0");
        says(&two, 0, &[1, 0, 1], "0");
        says(&two, 2, &[], "3");
        says(&two, 0, &[1, 2], "3");
        says(&[0, 0], 0, &[], "3");
        says(&two[1..], 0, &[], "13");
        says(&[], 2, &[], "13");
        assert_eq!(resolve(&oracle, Cursor::new(&[0; 4 + 32])), None);
    }

    #[test]
    fn keys() {
        let says = |index: u64, table: &[u8], expected: &str| {
            let payload = encode_lookup(table, index);
            assert_eq!(lookup(Cursor::new(&payload)).unwrap().0, expected);
        };
        let two = two();
        says(0, &two, &"01".repeat(32));
        says(1, &two, &"02".repeat(32));
        says(2, &two, "");
        says(1 << 32, &two, "");
        says(u64::MAX, &two, "");
        says(0, &two[..two.len() - 1], "");
        says(0, &[], "");
        assert_eq!(lookup(Cursor::new(&[0; 7])), None);
    }
}
