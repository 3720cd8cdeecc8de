//! Streams of compact instructions.

use crate::{bytes::Cursor, chance::Chance, damage::damage};

/// The most instructions that a stream may have.
pub const MAX_INSTRUCTIONS: usize = 16;

/// One compact instruction.
#[derive(Clone, Debug, PartialEq, Eq)]
pub struct Entry {
    /// The index of the program's record.
    pub program: u8,
    /// The indexes of the accounts' records.
    pub accounts: Vec<u8>,
    /// The instruction's data.
    pub data: Vec<u8>,
}

/// Each prefix of a stream of two entries, then the counts at and past the
/// limit, and after those by chance.
pub fn nth(chance: &mut Chance, number: u64) -> Vec<u8> {
    let entry = |accounts: Vec<u8>, data: Vec<u8>| Entry {
        program: 7,
        accounts,
        data,
    };
    let number = number as usize;
    let two = encode(&[
        entry(vec![1, 2, 3], vec![9; 20]),
        entry(vec![4; 5], vec![8; 11]),
    ]);
    if number <= two.len() {
        return two[..number].to_vec();
    }
    match number - two.len() {
        1 => encode(&vec![entry(vec![], vec![]); 15]),
        2 => encode(&vec![entry(vec![5], vec![6]); 16]),
        3 => encode(&vec![entry(vec![], vec![]); 17]),
        4 => encode(&vec![entry(vec![], vec![]); 255]),
        5 => encode(&[entry(vec![3; 255], vec![])]),
        6 => encode(&[entry(vec![], vec![2; 65_535])]),
        _ => draw(chance),
    }
}

impl Entry {
    /// An entry of the given program, the rest of it by chance.
    pub fn draw(chance: &mut Chance, program: u8) -> Self {
        let accounts = match chance.below(20) {
            0 => 255,
            few => few % 6,
        };
        let data = match chance.below(20) {
            0 => 200 + chance.below(200),
            few => few % 9,
        };
        Self {
            program,
            accounts: chance.bytes(accounts),
            data: chance.bytes(data),
        }
    }
}

/// The stream's bytes: its count, then program index, accounts and data of each
/// entry, the latter two behind their lengths.
pub fn encode(entries: &[Entry]) -> Vec<u8> {
    let mut bytes = vec![entries.len() as u8];
    for entry in entries {
        bytes.push(entry.program);
        bytes.push(entry.accounts.len() as u8);
        bytes.extend(&entry.accounts);
        bytes.extend((entry.data.len() as u16).to_le_bytes());
        bytes.extend(&entry.data);
    }
    bytes
}

/// The entries of a stream, for taking it apart: no expected answer comes from
/// it. Bytes after the last entry are left out.
pub fn decode(bytes: &[u8]) -> Option<Vec<Entry>> {
    let mut cursor = Cursor::new(bytes);
    let [count] = cursor.array()?;
    let entry = |_| {
        let [program, accounts] = cursor.array()?;
        let accounts = cursor.take(accounts.into())?.to_vec();
        let data = u16::from_le_bytes(cursor.array()?);
        let data = cursor.take(data.into())?.to_vec();
        Some(Entry {
            program,
            accounts,
            data,
        })
    };
    (0..count).map(entry).collect()
}

/// Bytes to read as a stream: sound ones, with or without bytes after them,
/// damaged ones, a count too high, and none at all.
pub fn draw(chance: &mut Chance) -> Vec<u8> {
    let count = match chance.below(20) {
        0 => MAX_INSTRUCTIONS,
        1 => MAX_INSTRUCTIONS + 1,
        few => few % 5,
    };
    let entries: Vec<Entry> = (0..count)
        .map(|_| {
            let program = chance.draw() as u8;
            Entry::draw(chance, program)
        })
        .collect();
    let mut bytes = encode(&entries);
    match chance.below(16) {
        0..=3 => damage(chance, &mut bytes),
        4 => bytes[0] = chance.draw() as u8,
        5 => {
            let more = chance.below(9);
            bytes.extend(chance.bytes(more));
        }
        6 => {
            // The last part ends with the stream, so a byte or two less cuts into it.
            let len = bytes.len().saturating_sub(1 + chance.below(2));
            bytes.truncate(len);
        }
        7 if chance.one_in(4) => bytes.clear(),
        _ => {}
    }
    bytes
}

#[cfg(test)]
mod tests {
    use super::*;

    #[test]
    fn a_stream_comes_back() {
        let entry = |program| Entry {
            program,
            accounts: vec![5],
            data: vec![0xAA, 0xBB],
        };
        let entries = vec![entry(2), entry(3)];
        let bytes = encode(&entries);
        assert_eq!(bytes[..8], [2, 2, 1, 5, 2, 0, 0xAA, 0xBB]);
        assert_eq!(decode(&[&bytes[..], &[0xCC]].concat()), Some(entries));
        assert_eq!(decode(&bytes[..bytes.len() - 1]), None);
        assert_eq!(decode(&[]), None);
    }
}
