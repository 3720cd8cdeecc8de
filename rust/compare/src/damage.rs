//! Damage to a row of bytes.

use crate::chance::Chance;

/// Damages the bytes in one way: a byte changed, cut short, extended, a part
/// repeated or a part left out. The result may still be sound.
pub fn damage(chance: &mut Chance, bytes: &mut Vec<u8>) {
    let len = bytes.len();
    if len == 0 || chance.one_in(5) {
        let more = 1 + chance.below(12);
        bytes.extend(chance.bytes(more));
        return;
    }
    let at = chance.below(len);
    let end = at + 1 + chance.below(len - at);
    match chance.below(4) {
        0 => bytes[at] ^= 1 + chance.below(255) as u8,
        1 => bytes.truncate(at),
        2 => {
            let part = bytes[at..end].to_vec();
            bytes.splice(end..end, part);
        }
        _ => {
            bytes.drain(at..end);
        }
    }
}

#[cfg(test)]
mod tests {
    use super::damage;
    use crate::chance::Chance;

    #[test]
    fn every_kind_of_damage_is_done() {
        let sound: Vec<u8> = (0..20).collect();
        let (mut changed, mut cut, mut extended, mut inside) = (0, 0, 0, 0);
        for seed in 0..200 {
            let mut bytes = sound.clone();
            damage(&mut Chance::new(seed), &mut bytes);
            assert_ne!(bytes, sound);
            match bytes.len() {
                20 => changed += 1,
                _ if sound.starts_with(&bytes) => cut += 1,
                _ if bytes.starts_with(&sound) => extended += 1,
                _ => inside += 1,
            }
        }
        assert!([changed, cut, extended, inside].iter().all(|&n| n > 10));
    }
}
