//! The lines that the program has to print.

use std::fmt::Write;

use oracle::Oracle;

use super::{indexes, judging, writing, Case, Kind};
use crate::{
    bytes::{hex, Cursor},
    numbers::{self, READING},
    Key,
};

/// The most keys that a list keeps.
const MAX_KEYS: usize = 16;

/// An expected line, and the sort of answer that it is.
#[derive(Clone, Debug, PartialEq, Eq)]
pub struct Answer {
    /// The line without its end.
    pub line: String,
    /// One of the kind's domain.
    pub sort: &'static str,
}

/// The answer to a case, or nothing where the payload is too short for its kind.
///
/// The numbers, creation, reading, writing, resolving and judging are asked of
/// the published code. A place past the end makes it panic: there the port's
/// own rule gives the answer.
pub fn answer(oracle: &Oracle, case: &Case) -> Option<Answer> {
    let mut payload = Cursor::new(&case.payload);
    let (line, sort) = match case.kind {
        Kind::ReadU64 => {
            let place = payload.u64()?;
            let data = payload.rest();
            match in_range(place, data) {
                Some(place) => (oracle.read_u64(data, place).to_string(), "in range"),
                None => ("0".to_string(), "past the end"),
            }
        }
        Kind::WriteU64 => {
            let (place, value) = (payload.u64()?, payload.u64()?);
            let mut data = payload.rest().to_vec();
            match in_range(place, &data) {
                Some(place) => {
                    oracle.write_u64(&mut data, place, value);
                    (format!("1 {}", hex(&data)), "in range")
                }
                None => (format!("0 {}", hex(&data)), "past the end"),
            }
        }
        Kind::CappedSum => {
            let (a, b) = (payload.u64()?, payload.u64()?);
            let exact = a.checked_add(b).is_some();
            let sort = if exact { "exact" } else { "capped" };
            (a.saturating_add(b).to_string(), sort)
        }
        Kind::FlooredDifference => {
            let (a, b) = (payload.u64()?, payload.u64()?);
            let sort = if a >= b { "exact" } else { "floored" };
            (a.saturating_sub(b).to_string(), sort)
        }
        Kind::SameKey => {
            let len = payload.length()?;
            let first = payload.take(len)?;
            match first.len() == 32 && first == payload.rest() {
                true => ("1".to_string(), "same"),
                false => ("0".to_string(), "not the same"),
            }
        }
        Kind::KeyList => key_list(&case.payload),
        Kind::Create => {
            let number = oracle.create(&case.payload);
            (number.to_string(), numbers::name(number))
        }
        Kind::Read => read(oracle, &case.payload),
        Kind::Write => writing::answer(oracle, payload)?,
        Kind::Resolve => indexes::resolve(oracle, payload)?,
        Kind::Lookup => indexes::lookup(payload)?,
        Kind::Judge => judging::answer(oracle, payload)?,
    };
    Some(Answer { line, sort })
}

/// The place, if eight bytes lie there.
fn in_range(place: u64, data: &[u8]) -> Option<usize> {
    let end = place.checked_add(8)?;
    (end <= data.len() as u64).then_some(place as usize)
}

fn key_list(payload: &[u8]) -> (String, &'static str) {
    let keys = payload.chunks_exact(32);
    if !keys.remainder().is_empty() {
        return ("-".to_string(), "no keys");
    }
    let keys: Vec<Key> = keys.map(|key| std::array::from_fn(|at| key[at])).collect();
    let Some((sought, keys)) = keys.split_last() else {
        return ("-".to_string(), "no keys");
    };
    let mut list: Vec<Key> = Vec::new();
    for key in keys {
        if !list.contains(key) && list.len() < MAX_KEYS {
            list.push(*key);
        }
    }
    match list.contains(sought) {
        true => (format!("{} 1", list.len()), "found"),
        false => (format!("{} 0", list.len()), "not found"),
    }
}

fn read(oracle: &Oracle, bytes: &[u8]) -> (String, &'static str) {
    let (list, consumed) = match oracle.read(bytes) {
        Ok(read) => read,
        Err(number) => return (number.to_string(), numbers::name(number)),
    };
    let mut line = format!("0 {consumed} {}", list.len());
    for entry in list {
        let (accounts, data) = (entry.accounts, entry.data);
        write!(
            line,
            " {} {} {} {} {}",
            entry.program, accounts.at, accounts.len, data.at, data.len
        )
        .expect("a string takes every character");
    }
    (line, numbers::name(READING[0]))
}

#[cfg(test)]
mod tests {
    use super::*;

    fn line(kind: Kind, payload: &[&[u8]]) -> Option<String> {
        let oracle = Oracle::find().expect("ignored where the sources were not found");
        let payload = payload.concat();
        Some(answer(&oracle, &Case { kind, payload })?.line)
    }

    fn says(kind: Kind, payload: &[&[u8]], expected: &str) {
        assert_eq!(line(kind, payload).as_deref(), Some(expected));
    }

    #[test]
    #[cfg_attr(not(oracle_sources), ignore)]
    fn numbers() {
        let data = [1, 2, 3, 4, 5, 6, 7, 8, 9];
        let (one, two, top) = (1u64.to_le_bytes(), 2u64.to_le_bytes(), [255; 8]);
        says(Kind::ReadU64, &[&one, &data], "650777868590383874");
        says(Kind::ReadU64, &[&two, &data], "0");
        says(Kind::ReadU64, &[&top, &data], "0");
        says(Kind::WriteU64, &[&one, &two, &data], "1 010200000000000000");
        says(Kind::WriteU64, &[&two, &two, &data], "0 010203040506070809");
        says(Kind::CappedSum, &[&one, &two], "3");
        says(Kind::CappedSum, &[&top, &two], "18446744073709551615");
        says(Kind::FlooredDifference, &[&two, &one], "1");
        says(Kind::FlooredDifference, &[&one, &two], "0");
        assert_eq!(line(Kind::CappedSum, &[&one]), None);
    }

    #[test]
    #[cfg_attr(not(oracle_sources), ignore)]
    fn keys() {
        let len = |len: u32| len.to_le_bytes();
        let (a, b) = ([1; 32], [2; 32]);
        says(Kind::SameKey, &[&len(32), &a, &a], "1");
        says(Kind::SameKey, &[&len(32), &a, &b], "0");
        says(Kind::SameKey, &[&len(31), &a[1..], &a[1..]], "0");
        says(Kind::SameKey, &[&len(32), &a, &a, &a], "0");
        says(Kind::KeyList, &[&a, &b, &a, &b], "2 1");
        says(Kind::KeyList, &[&a, &a, &b], "1 0");
        says(Kind::KeyList, &[&a], "0 0");
        says(Kind::KeyList, &[], "-");
        says(Kind::KeyList, &[&a, &b[1..]], "-");
        let many: Vec<[u8; 32]> = (0..18).map(|byte| [byte; 32]).collect();
        says(Kind::KeyList, &[many.as_flattened(), &[15; 32]], "16 1");
        says(Kind::KeyList, &[many.as_flattened(), &[16; 32]], "16 0");
    }

    #[test]
    #[cfg_attr(not(oracle_sources), ignore)]
    fn regions_and_instructions() {
        says(Kind::Create, &[], "0");
        says(Kind::Create, &[&[1]], "1");
        says(
            Kind::Read,
            &[&[1, 2, 1, 5, 2, 0, 0xAA, 0xBB, 0xCC]],
            "0 8 1 2 3 1 6 2",
        );
        says(Kind::Read, &[&[0x11]], "3");
    }
}
