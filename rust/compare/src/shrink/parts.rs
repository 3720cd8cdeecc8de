//! Smaller regions and calls, by what they are made of where that is known.

use std::{iter, rc::Rc};

use super::lists::{plainer, ranges, shorter, without};
use crate::{
    calls::Call,
    region,
    stream::{self, Entry},
    table::{self, Record, AMOUNT, TOKEN_ACCOUNT},
};

/// Regions of fewer actions.
pub fn regions(bytes: &[u8]) -> Box<dyn Iterator<Item = Vec<u8>> + '_> {
    let Some(actions) = region::cut(bytes) else {
        return Box::new(plainer(bytes));
    };
    let regions: Vec<_> = shorter(&actions).map(|a| region::encode(&a)).collect();
    Box::new(regions.into_iter())
}

/// Calls of fewer records or instructions, or with less in one of them.
pub fn calls(call: &Call) -> impl Iterator<Item = Call> + '_ {
    let before = tables(&call.before).map(|before| Call {
        before,
        ..call.clone()
    });
    let after = tables(&call.after).map(|after| Call {
        after,
        ..call.clone()
    });
    let instructions = streams(&call.instructions).map(|instructions| Call {
        instructions,
        ..call.clone()
    });
    together(call)
        .chain(before)
        .chain(after)
        .chain(instructions)
}

/// What has to change in both tables, or in a table and the instructions.
fn together(call: &Call) -> impl Iterator<Item = Call> + '_ {
    let accounts = table::cut(&call.before).map_or(0, |records| records.len());
    let fewer = (0..accounts).flat_map(|at| without_account(call, at));
    fewer.chain(iter::once_with(|| plainest(call)).flatten())
}

/// An account less, and the programs found at their new places: in the table
/// before alone, and in both.
fn without_account(call: &Call, at: usize) -> Vec<Call> {
    let tables = (table::decode(&call.before), table::decode(&call.after));
    let (Some(mut before), Some(mut after)) = tables else {
        return vec![];
    };
    let key = before.remove(at).key;
    let mut fewer = Call {
        before: table::encode(&before),
        ..call.clone()
    };
    if let Some(mut entries) = stream::decode(&call.instructions) {
        for entry in entries.iter_mut().filter(|e| usize::from(e.program) > at) {
            entry.program -= 1;
        }
        fewer.instructions = stream::encode(&entries);
    }
    after.retain(|record| record.key != key);
    let in_both = Call {
        after: table::encode(&after),
        ..fewer.clone()
    };
    vec![in_both, fewer]
}

/// Accounts without what lies behind their amounts, if there is something.
fn plainest(call: &Call) -> Option<Call> {
    let plain = |bytes: &[u8]| {
        let mut records = table::decode(bytes)?;
        for record in &mut records {
            record.data.truncate(TOKEN_ACCOUNT);
            if let Some(rest) = record.data.get_mut(AMOUNT + 8..) {
                rest.fill(0);
            }
        }
        Some(table::encode(&records))
    };
    let plainest = Call {
        before: plain(&call.before)?,
        after: plain(&call.after)?,
        ..call.clone()
    };
    (plainest != *call).then_some(plainest)
}

/// Tables of fewer records, or with one whose data is shorter. Each is made when
/// it is asked for: the records may be long.
fn tables(bytes: &[u8]) -> Box<dyn Iterator<Item = Vec<u8>> + '_> {
    let Some(records) = table::decode(bytes) else {
        return Box::new(plainer(bytes));
    };
    let mut places = Vec::new();
    for (at, record) in records.iter().enumerate() {
        let shorter = [0, TOKEN_ACCOUNT].into_iter();
        let shorter = shorter.filter(|len| *len < record.data.len());
        places.extend(shorter.map(|len| (at, len)));
    }
    let records = Rc::new(records);
    let all = Rc::clone(&records);
    let fewer = ranges(all.len()).map(move |range| table::encode(&without(&all, range)));
    let shorter = places
        .into_iter()
        .map(move |(at, len)| with_data_of(&records, at, len));
    Box::new(fewer.chain(shorter))
}

/// The table with so much of a record's data.
pub fn with_data_of(records: &[Record], at: usize, len: usize) -> Vec<u8> {
    let mut records = records.to_vec();
    records[at].data.truncate(len);
    table::encode(&records)
}

/// Streams of fewer instructions, or with one that has less.
fn streams(bytes: &[u8]) -> Box<dyn Iterator<Item = Vec<u8>> + '_> {
    let Some(entries) = stream::decode(bytes) else {
        return Box::new(plainer(bytes));
    };
    let mut lists: Vec<Vec<Entry>> = shorter(&entries).collect();
    // Bytes after the last instruction are left out.
    lists.insert(0, entries.clone());
    for at in 0..entries.len() {
        let mut with = |change: fn(&mut Entry)| {
            let mut entries = entries.clone();
            change(&mut entries[at]);
            lists.push(entries);
        };
        with(|entry| entry.accounts.clear());
        with(|entry| entry.data.clear());
        with(|entry| entry.program = 0);
        with(|entry| entry.program = entry.program.saturating_sub(1));
    }
    let streams = lists.into_iter().map(|list| stream::encode(&list));
    Box::new(streams.filter(move |stream| stream != bytes))
}
