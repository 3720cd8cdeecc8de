//! Writing a list of compact instructions to an output of a given length.

use oracle::{Instruction, Oracle, Part};

use super::entries;
use crate::{
    bytes::{hex, Cursor},
    chance::Chance,
    numbers::{self, NOT_ENCODABLE, NO_ROOM, WRITING},
    stream::MAX_INSTRUCTIONS,
};

/// What stands in the output before anything is written.
const UNWRITTEN: u8 = 0xee;

/// The most accounts of an entry.
const MAX_ACCOUNTS: usize = 255;

/// The most data of an entry.
const MAX_DATA: usize = 65_535;

/// A source that is long enough for more than the most data.
const LONG_SOURCE: usize = 65_600;

/// Numbers of cases come round after so many; two of them have a long source.
const ROUND: u64 = 64;

/// The line of a written list, and its sort.
///
/// Within document 01's limits the bytes are those of the published writer,
/// which knows neither the limits nor an output that ends.
pub fn answer(oracle: &Oracle, mut payload: Cursor) -> Option<(String, &'static str)> {
    let [count] = payload.array()?;
    let entries = (0..count).map(|_| entries::parse(&mut payload));
    let list = entries.collect::<Option<Vec<_>>>()?;
    let mut out = vec![UNWRITTEN; payload.length()?];
    let (number, written) = write(oracle, &list, payload.rest(), &mut out);
    let line = format!("{number} {written} {}", hex(&out));
    Some((line, numbers::name(number)))
}

/// The number and the bytes written.
fn write(oracle: &Oracle, list: &[Instruction], source: &[u8], out: &mut [u8]) -> (u32, usize) {
    let encodable = |entry: &Instruction| {
        let short = entry.accounts.len <= MAX_ACCOUNTS && entry.data.len <= MAX_DATA;
        short && entries::lies_in(entry, source.len())
    };
    if list.len() > MAX_INSTRUCTIONS || !list.iter().all(encodable) {
        return (NOT_ENCODABLE, 0);
    }
    let bytes = oracle.write(source, list);
    let Some(front) = out.get_mut(..bytes.len()) else {
        return (NO_ROOM, 0);
    };
    front.copy_from_slice(&bytes);
    (WRITING[0], bytes.len())
}

/// A list, the output's length and a source. Twice a round the source is long:
/// once for the most data of an entry, and once for one byte more.
pub fn draw(chance: &mut Chance, number: u64) -> Vec<u8> {
    let data = match number % ROUND {
        31 => Some(MAX_DATA),
        63 => Some(MAX_DATA + 1),
        _ => None,
    };
    let source = match data {
        Some(_) => LONG_SOURCE,
        None => chance.pick(&[0, 8, 300, 400]) + chance.below(8),
    };
    let count = match (data, chance.below(10)) {
        (Some(_), _) => 1 + chance.below(2),
        (None, 0) => MAX_INSTRUCTIONS + 1,
        (None, 1) => MAX_INSTRUCTIONS,
        (None, few) => few % 5 + chance.below(5),
    };
    let mut list: Vec<Instruction> = (0..count)
        .map(|_| Instruction {
            program: chance.draw() as u8,
            accounts: entries::draw_part(chance, source, MAX_ACCOUNTS),
            data: entries::draw_part(chance, source, 300),
        })
        .collect();
    if let Some(len) = data {
        let at = chance.pick(&[0, 1, source - len]);
        chance.one_of(&mut list).data = Part { at, len };
    }
    let size = size(&list);
    if data.is_none() && count > 0 && chance.one_in(4) {
        spoil(chance, source, &mut list);
    }
    let room = match chance.below(8) {
        0 => 0,
        1 => size - 1,
        2 => chance.below(size),
        3 | 4 => size + 1 + chance.below(20),
        _ => size,
    };
    let source = chance.bytes(source);
    encode(&list, room, &source)
}

/// Makes a part pass the source's end, or an entry's accounts too many.
fn spoil(chance: &mut Chance, source: usize, list: &mut [Instruction]) {
    let entry = chance.one_of(list);
    if chance.one_in(6) {
        entry.accounts = Part {
            at: source.saturating_sub(MAX_ACCOUNTS + 1),
            len: MAX_ACCOUNTS + 1,
        };
    } else {
        entries::pass_the_end(chance, source, entry);
    }
}

/// The length of the list's encoding.
fn size(list: &[Instruction]) -> usize {
    let entries = list.iter().map(|e| 4 + e.accounts.len + e.data.len);
    1 + entries.sum::<usize>()
}

fn encode(list: &[Instruction], room: usize, source: &[u8]) -> Vec<u8> {
    let mut bytes = vec![list.len() as u8];
    bytes.extend(list.iter().flat_map(entries::encode));
    bytes.extend((room as u32).to_le_bytes());
    bytes.extend(source);
    bytes
}

#[cfg(test)]
mod tests {
    use super::*;

    fn says(entries: &[[usize; 4]], room: usize, source: &[u8], expected: &str) {
        let oracle = Oracle::find().expect("ignored where the sources were not found");
        let list = entries.iter().map(|[accounts, many, data, len]| {
            let part = |at: &usize, len: &usize| Part { at: *at, len: *len };
            Instruction {
                program: 7,
                accounts: part(accounts, many),
                data: part(data, len),
            }
        });
        let payload = encode(&list.collect::<Vec<_>>(), room, source);
        let (line, _) = answer(&oracle, Cursor::new(&payload)).unwrap();
        assert_eq!(line, expected);
    }

    #[test]
    #[cfg_attr(not(oracle_sources), ignore)]
    fn lists() {
        let source = [1, 2, 3];
        says(&[], 2, &source, "0 1 00ee");
        says(&[], 0, &source, "14 0 ");
        says(&[[0, 1, 1, 2]], 8, &source, "0 8 0107010102000203");
        says(&[[0, 1, 1, 2]], 9, &source, "0 8 0107010102000203ee");
        says(&[[0, 1, 1, 2]], 7, &source, "14 0 eeeeeeeeeeeeee");
        says(&[[3, 0, 3, 0]], 5, &source, "0 5 0107000000");
    }

    #[test]
    #[cfg_attr(not(oracle_sources), ignore)]
    fn limits() {
        let (far, top) = (u32::MAX as usize, usize::MAX);
        for entry in [
            [0, 4, 0, 0],
            [0, 0, 2, 2],
            [4, 0, 0, 0],
            [far, far, 0, 0],
            [0, 0, top, 2],
        ] {
            says(&[entry], 1, &[1, 2, 3], "16 0 ee");
        }
        says(&[[0; 4]; 16], 0, &[], "14 0 ");
        says(&[[0; 4]; 17], 0, &[], "16 0 ");
        let long = [0; MAX_DATA + 1];
        says(&[[0, 255, 0, 65_535]], 1, &long, "14 0 ee");
        says(&[[0, 256, 0, 0]], 1, &long, "16 0 ee");
        says(&[[0, 0, 0, 65_536]], 1, &long, "16 0 ee");
    }
}
