//! Entries of compact instructions as the cases carry them.

use oracle::{Instruction, Part};

use crate::{bytes::Cursor, chance::Chance};

/// The next entry of a payload.
pub fn parse(payload: &mut Cursor) -> Option<Instruction> {
    let [program] = payload.array()?;
    let mut place = || usize::try_from(payload.u64()?).ok();
    let mut part = || {
        Some(Part {
            at: place()?,
            len: place()?,
        })
    };
    Some(Instruction {
        program,
        accounts: part()?,
        data: part()?,
    })
}

/// The entry's bytes: program (1), and the start and length (8 each) of its
/// accounts and of its data.
pub fn encode(entry: &Instruction) -> Vec<u8> {
    let mut bytes = vec![entry.program];
    for part in [entry.accounts, entry.data] {
        bytes.extend((part.at as u64).to_le_bytes());
        bytes.extend((part.len as u64).to_le_bytes());
    }
    bytes
}

/// Whether both of an entry's parts lie in a source of so many bytes.
pub fn lies_in(entry: &Instruction, source: usize) -> bool {
    let end = |part: Part| part.at.checked_add(part.len);
    let inside = |part| end(part).is_some_and(|end| end <= source);
    inside(entry.accounts) && inside(entry.data)
}

/// A part of the source, often at one of its ends.
pub fn draw_part(chance: &mut Chance, source: usize, most: usize) -> Part {
    let len = match chance.below(12) {
        0 => most,
        few => few % 7,
    };
    let len = len.min(source);
    let inside = chance.below(source - len + 1);
    let at = chance.pick(&[0, inside, inside, source - len]);
    Part { at, len }
}

/// Makes one of an entry's parts pass the source's end: by one, by far, or by
/// so much that its end passes 2^64.
pub fn pass_the_end(chance: &mut Chance, source: usize, entry: &mut Instruction) {
    let far = chance.pick(&[u32::MAX as usize, usize::MAX]);
    let part = match chance.one_in(2) {
        true => &mut entry.accounts,
        false => &mut entry.data,
    };
    match chance.below(5) {
        0 | 1 => part.at = source - part.len + 1,
        2 => part.len = source - part.at + 1,
        3 => part.at = chance.pick(&[far - part.len, far]),
        _ => part.len = far,
    }
}

#[cfg(test)]
mod tests {
    use super::*;

    fn entry(accounts: [usize; 2], data: [usize; 2]) -> Instruction {
        let part = |[at, len]: [usize; 2]| Part { at, len };
        Instruction {
            program: 7,
            accounts: part(accounts),
            data: part(data),
        }
    }

    #[test]
    fn an_entry_comes_back() {
        let entry = entry([1, 2], [3, usize::MAX]);
        let bytes = encode(&entry);
        assert_eq!(bytes.len(), 33);
        assert_eq!(parse(&mut Cursor::new(&bytes)), Some(entry));
        for len in 0..bytes.len() {
            assert_eq!(parse(&mut Cursor::new(&bytes[..len])), None);
        }
    }

    #[test]
    fn parts_lie_in_a_source_up_to_its_end() {
        assert!(lies_in(&entry([0, 3], [3, 0]), 3));
        for part in [[0, 4], [4, 0], [2, 2], [usize::MAX, 2], [1, usize::MAX]] {
            assert!(!lies_in(&entry(part, [0, 0]), 3));
            assert!(!lies_in(&entry([0, 0], part), 3));
        }
    }

    #[test]
    fn a_part_passes_the_end_by_one_and_by_more_than_fits() {
        let (mut by_one, mut wraps) = (0, 0);
        for seed in 0..1000 {
            let mut chance = Chance::new(seed);
            let source = chance.below(9);
            let mut entry = entry([0, 0], [0, 0]);
            entry.accounts = draw_part(&mut chance, source, 9);
            entry.data = draw_part(&mut chance, source, 9);
            pass_the_end(&mut chance, source, &mut entry);
            assert!(!lies_in(&entry, source));
            for part in [entry.accounts, entry.data] {
                match part.at.checked_add(part.len) {
                    Some(end) if end == source + 1 => by_one += 1,
                    None => wraps += 1,
                    _ => {}
                }
            }
        }
        assert!(by_one > 20 && wraps > 20);
    }
}
