//! Long records: now and then one or two of a call's tables, up to the longest
//! that an account of the chain can be.
//!
//! It is a step after the draw, so that what others draw stays as it is.

use crate::{
    calls::Call,
    chance::Chance,
    table::{self, Record, ACCOUNT_TYPE, LONGEST, TOKEN_2022, TOKEN_ACCOUNT},
    Key,
};

/// A record of so many bytes or more is long. Other draws make none.
pub const LONG: usize = 65_535;

const MIB: usize = 1 << 20;

/// Long lengths at an edge: of 16 bits, of 1 MiB, and of an account.
const EDGES: [usize; 7] = [LONG, LONG + 1, MIB - 1, MIB, MIB + 1, LONGEST - 1, LONGEST];

/// One call in so many gets long records: copying them takes longer than all
/// else of the call.
const ONE_IN: usize = 4_000;

/// Lengthens records of one call in some thousands.
pub fn sometimes(chance: &mut Chance, call: &mut Call) {
    if chance.one_in(ONE_IN) {
        lengthen(chance, call);
    }
}

/// Lengthens one record or two of a call, where both of its tables are
/// well-formed and one has records.
pub fn lengthen(chance: &mut Chance, call: &mut Call) {
    let tables = (table::decode(&call.before), table::decode(&call.after));
    let (Some(mut before), Some(mut after)) = tables else {
        return;
    };
    let keys: Vec<Key> = before.iter().chain(&after).map(|r| r.key).collect();
    if keys.is_empty() {
        return;
    }
    for _ in 0..1 + chance.below(2) {
        let key = chance.pick(&keys);
        let no_token_program = chance.near(&TOKEN_2022);
        let owner = chance.pick(&[TOKEN_2022, TOKEN_2022, no_token_program]);
        let sides = chance.pick(&[[true, true], [true, false], [false, true]]);
        for (records, is_long) in [&mut before, &mut after].into_iter().zip(sides) {
            if let Some(record) = records.iter_mut().find(|r| r.key == key) {
                record.owner = owner;
                if is_long {
                    fill(chance, record);
                }
                // Both rules count the record where its owner is Token-2022.
                if let Some(byte) = record.data.get_mut(TOKEN_ACCOUNT) {
                    *byte = ACCOUNT_TYPE;
                }
            }
        }
    }
    call.before = table::encode(&before);
    call.after = table::encode(&after);
}

/// Fills a record up to a long length, with a row of bytes over and over: one by
/// one from the generator they would take longer than the rest of the comparison.
fn fill(chance: &mut Chance, record: &mut Record) {
    let any = LONG + chance.below(LONGEST - LONG + 1);
    let len = match chance.one_in(4) {
        true => any,
        false => chance.pick(&EDGES),
    };
    let missing = len.saturating_sub(record.data.len());
    let row = chance.bytes(251);
    let rows = row.repeat(missing.div_ceil(row.len()));
    record.data.extend_from_slice(&rows[..missing]);
}
