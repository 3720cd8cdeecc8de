//! The program `vectors`: its cases on standard input, its lines in return.
//!
//! A case is its kind (1 byte), the payload's length (4 bytes, little-endian)
//! and the payload. The program prints one line for each.

mod answers;
mod draw;
mod entries;
mod indexes;
mod judging;
mod named;
mod pairs;
mod program;
mod token_accounts;
mod writing;

pub use answers::{answer, Answer};
pub use draw::draw;
pub use program::{ask, compare};

use crate::{
    bytes::Cursor,
    numbers::{self, CREATION, JUDGING, READING, RESOLVING, WRITING},
    report::Domain,
};

/// What a case asks for.
#[derive(Clone, Copy, Debug, PartialEq, Eq)]
pub enum Kind {
    /// Place (8) and data: the number at the place, or 0 where it passes the end.
    ReadU64 = 1,
    /// Place (8), value (8) and data: whether it fits, and the data afterwards.
    WriteU64 = 2,
    /// Two numbers (8 each): their sum, capped at 2^64 - 1.
    CappedSum = 3,
    /// Two numbers (8 each): their difference, or 0 where it is negative.
    FlooredDifference = 4,
    /// The first key's length (4), the first key, and the second as the rest:
    /// whether both are keys and equal.
    SameKey = 5,
    /// Keys: all but the last are put into a list, then the last is looked for.
    KeyList = 6,
    /// A region: creation's number.
    Create = 10,
    /// Bytes: the compact instructions in them.
    Read = 20,
    /// A count (1), as many entries of program (1) and the start and length (8
    /// each) of its accounts and of its data, the output's length (4), and the
    /// source as the rest: the number, the bytes written and the output.
    Write = 21,
    /// The table's length (4), the table, an entry as above, and its source as
    /// the rest: resolving's number.
    Resolve = 30,
    /// An index (8) and a table: the key of the record there, or an empty line
    /// where there is none. The published code has no such function, so the
    /// expected line follows document 01.
    Lookup = 31,
    /// The region's length (2), the region, slot (8), lamports before (8) and
    /// after (8), gross outflow (8), the lengths (4 each) of the table before,
    /// the table after and the instructions, the vault's key (32), and the
    /// three: the number and the region afterwards.
    Judge = 40,
}

/// Every kind.
pub const KINDS: [Kind; 12] = [
    Kind::ReadU64,
    Kind::WriteU64,
    Kind::CappedSum,
    Kind::FlooredDifference,
    Kind::SameKey,
    Kind::KeyList,
    Kind::Create,
    Kind::Read,
    Kind::Write,
    Kind::Resolve,
    Kind::Lookup,
    Kind::Judge,
];

impl Kind {
    /// The name in a report.
    pub fn name(self) -> &'static str {
        match self {
            Self::ReadU64 => "read_u64",
            Self::WriteU64 => "write_u64",
            Self::CappedSum => "capped_sum",
            Self::FlooredDifference => "floored_difference",
            Self::SameKey => "same_key",
            Self::KeyList => "key_list",
            Self::Create => "create",
            Self::Read => "read",
            Self::Write => "write",
            Self::Resolve => "resolve",
            Self::Lookup => "lookup",
            Self::Judge => "judge",
        }
    }

    /// The sorts of answers that its cases have to reach.
    pub fn domain(self) -> Domain {
        let answers = match self {
            Self::ReadU64 | Self::WriteU64 => vec!["in range", "past the end"],
            Self::CappedSum => vec!["exact", "capped"],
            Self::FlooredDifference => vec!["exact", "floored"],
            Self::SameKey => vec!["same", "not the same"],
            Self::KeyList => vec!["found", "not found", "no keys"],
            Self::Create => numbers::names(&CREATION),
            Self::Read => numbers::names(&READING),
            Self::Write => numbers::names(&WRITING),
            Self::Resolve => numbers::names(&RESOLVING),
            Self::Lookup => vec!["a key", "nothing"],
            Self::Judge => numbers::names(&JUDGING),
        };
        Domain {
            function: self.name(),
            answers,
        }
    }
}

/// One case.
#[derive(Clone, Debug, PartialEq, Eq)]
pub struct Case {
    /// What it asks for.
    pub kind: Kind,
    /// What it is asked of.
    pub payload: Vec<u8>,
}

/// The bytes of a row of cases.
pub fn encode(cases: &[Case]) -> Vec<u8> {
    let mut bytes = Vec::new();
    for case in cases {
        bytes.push(case.kind as u8);
        bytes.extend((case.payload.len() as u32).to_le_bytes());
        bytes.extend(&case.payload);
    }
    bytes
}

/// The cases of a row of bytes, or nothing where they stop inside a case or
/// name an unknown kind.
pub fn decode(bytes: &[u8]) -> Option<Vec<Case>> {
    let mut cursor = Cursor::new(bytes);
    let mut cases = Vec::new();
    while !cursor.is_done() {
        let [code] = cursor.array()?;
        let kind = *KINDS.iter().find(|kind| **kind as u8 == code)?;
        let len = u32::from_le_bytes(cursor.array()?);
        let payload = cursor.take(len as usize)?.to_vec();
        cases.push(Case { kind, payload });
    }
    Some(cases)
}

#[cfg(test)]
mod tests {
    use super::*;

    #[test]
    fn cases_come_back() {
        let cases = KINDS.map(|kind| Case {
            kind,
            payload: vec![kind as u8; 3],
        });
        let bytes = encode(&cases);
        assert_eq!(bytes[..8], [1, 3, 0, 0, 0, 1, 1, 1]);
        assert_eq!(decode(&bytes).unwrap(), cases);
        assert_eq!(decode(&bytes[..bytes.len() - 1]), None);
        assert_eq!(decode(&[99, 0, 0, 0, 0]), None);
    }
}
