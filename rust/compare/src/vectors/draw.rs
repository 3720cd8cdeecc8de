//! Payloads by chance.

use super::{indexes, judging, pairs, writing, Case, Kind};
use crate::{chance::Chance, creation, stream, Key};

/// A case of a kind. Its number spreads what is to be met in every long enough
/// run, such as each place of a key.
pub fn draw(chance: &mut Chance, kind: Kind, number: u64) -> Case {
    let payload = match kind {
        Kind::ReadU64 => {
            let (place, data) = place(chance);
            [&place.to_le_bytes()[..], &data].concat()
        }
        Kind::WriteU64 => {
            let (place, data) = place(chance);
            let value = chance.edge_or_any();
            [&place.to_le_bytes()[..], &value.to_le_bytes(), &data].concat()
        }
        Kind::CappedSum | Kind::FlooredDifference => pair(chance).map(u64::to_le_bytes).concat(),
        Kind::SameKey => pairs::nth(chance, number),
        Kind::KeyList => key_list(chance, number),
        Kind::Create => creation::nth(chance, number),
        Kind::Read => stream::nth(chance, number),
        Kind::Write => writing::draw(chance, number),
        Kind::Resolve => indexes::nth_resolve(chance, number),
        Kind::Lookup => indexes::nth_lookup(chance, number),
        Kind::Judge => judging::nth(chance, number),
    };
    Case { kind, payload }
}

/// Data and a place in it, at its end, or far behind it.
fn place(chance: &mut Chance) -> (u64, Vec<u8>) {
    let len = chance.below(40);
    let last = (len as u64).saturating_sub(8);
    let inside = chance.below(len + 1) as u64;
    // Eight more than these pass 2^64.
    let top = u64::MAX - chance.below(9) as u64;
    let place = match chance.below(8) {
        0 => chance.edge(),
        1 => top,
        2..=4 => chance.around(last),
        _ => inside,
    };
    (place, chance.bytes(len))
}

/// Two numbers whose sum is near 2^64, or which are near each other.
fn pair(chance: &mut Chance) -> [u64; 2] {
    let a = chance.edge_or_any();
    let b = match chance.below(4) {
        0 | 1 => chance.edge_or_any(),
        2 => chance.around(u64::MAX - a),
        _ => chance.around(a),
    };
    [a, b]
}

/// A row of keys with repeats, and the last one: of the row or near one of it.
/// By turns the row is too long for the list, or no row of keys.
fn key_list(chance: &mut Chance, number: u64) -> Vec<u8> {
    let turn = number % 8;
    let count = match turn {
        0 | 1 => 17 + chance.below(3),
        2 => 16,
        _ => chance.below(6),
    };
    let mut keys: Vec<Key> = (0..count).map(|_| chance.key()).collect();
    let sought = match (turn, keys.last()) {
        // The last key is dropped in turn 0 and kept in turn 2.
        (0 | 2, Some(last)) => *last,
        (_, Some(_)) => {
            let any = chance.pick(&keys);
            let near = chance.near(&any);
            chance.pick(&[any, any, near])
        }
        (_, None) => chance.key(),
    };
    if count > 0 {
        for _ in 0..chance.below(6) {
            let at = 1 + chance.below(keys.len());
            keys.insert(at, chance.pick(&keys[..at]));
        }
    }
    keys.push(sought);
    let mut bytes = keys.concat();
    if turn == 3 {
        let len = chance.below(bytes.len());
        bytes.truncate(chance.pick(&[0, 31, len]));
    }
    bytes
}
