//! Two rows of bytes for `same_key`: keys, and rows that are none.

use crate::{bytes::change_bit, chance::Chance};

/// The rows by name have up to twice a key's length.
const LONGEST: usize = 64;

/// The named pairs, and after those by chance.
pub fn nth(chance: &mut Chance, number: u64) -> Vec<u8> {
    let (first, second) = match named().into_iter().nth(number as usize) {
        Some(pair) => pair,
        None => draw(chance, number),
    };
    [&(first.len() as u32).to_le_bytes()[..], &first, &second].concat()
}

/// Two keys that differ in one bit, each of the 256 in its turn; a row of each
/// length and itself; a key, and on either side a row of another length that
/// begins as the key does, as far as it goes.
fn named() -> Vec<(Vec<u8>, Vec<u8>)> {
    let rows: Vec<Vec<u8>> = (0..=LONGEST).map(|len| (1..).take(len).collect()).collect();
    let key = &rows[32];
    let one_bit = (0..256).map(|bit| {
        let mut other = key.clone();
        change_bit(&mut other, bit);
        (key.clone(), other)
    });
    let with_themselves = rows.iter().map(|row| (row.clone(), row.clone()));
    let others = rows.iter().filter(|row| row.len() != 32);
    let beside_a_key =
        others.flat_map(|row| [(key.clone(), row.clone()), (row.clone(), key.clone())]);
    one_bit.chain(with_themselves).chain(beside_a_key).collect()
}

/// By turns two keys that differ in one byte, at each place in turn, and two
/// that are equal or of other lengths.
fn draw(chance: &mut Chance, number: u64) -> (Vec<u8>, Vec<u8>) {
    let key = chance.key();
    let place = (number / 2 % 32) as usize;
    match (number % 2, chance.below(4)) {
        (0, _) => (key.to_vec(), chance.differing_at(&key, place).to_vec()),
        (_, 0 | 1) => (key.to_vec(), key.to_vec()),
        (_, 2) => {
            // Equal, and yet no keys.
            let len = chance.pick(&[0, 8, 31, 33, 64]);
            let bytes = chance.bytes(len);
            (bytes.clone(), bytes)
        }
        _ => {
            let mut other = key.to_vec();
            other.resize(chance.pick(&[0, 31, 33, 64]), 0);
            match chance.one_in(2) {
                true => (key.to_vec(), other),
                false => (other, key.to_vec()),
            }
        }
    }
}

#[cfg(test)]
mod tests {
    use super::*;

    #[test]
    fn each_bit_of_a_key_is_changed_alone() {
        for (bit, (key, other)) in named().into_iter().take(256).enumerate() {
            let differs = |at: &usize| (key[at / 8] ^ other[at / 8]) >> (at % 8) & 1 == 1;
            assert_eq!((key.len(), other.len()), (32, 32));
            assert_eq!((0..256).filter(differs).collect::<Vec<_>>(), [bit]);
        }
    }

    /// Each other length is compared with itself, and with a key on either side.
    #[test]
    fn each_other_length_is_there() {
        for len in (0..=LONGEST).filter(|len| *len != 32) {
            let pairs = named().into_iter();
            let lens: Vec<_> = pairs
                .map(|(first, second)| (first.len(), second.len()))
                .filter(|(first, second)| *first == len || *second == len)
                .collect();
            assert_eq!(lens, [(len, len), (32, len), (len, 32)]);
        }
    }
}
