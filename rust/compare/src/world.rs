//! The accounts around a judged call: small pools of keys and mints, so that
//! matches, repeats and near misses happen.

use crate::{
    chance::Chance,
    table::{
        self, Record, ACCOUNT_TYPE, AMOUNT, MAX_RECORDS, SPL_TOKEN, TOKEN_2022, TOKEN_ACCOUNT,
    },
    Key,
};

/// The places at the ends of a token account's fields: mint, vault key, amount,
/// and the frozen 32..64, 72..108 and 129..165.
const FIELD_ENDS: [usize; 14] = [0, 31, 32, 63, 64, 71, 72, 107, 108, 128, 129, 164, 165, 166];

/// The keys that one call's tables are made of.
pub struct World {
    /// The vault's key.
    pub vault: Key,
    /// The mints, two of them alike but for one byte.
    pub mints: [Key; 3],
    keys: Vec<Key>,
    /// Whether records are drawn that only the published code takes for token
    /// accounts.
    strays: bool,
}

impl World {
    /// New pools.
    pub fn draw(chance: &mut Chance) -> Self {
        let mint = chance.key();
        let mut keys: Vec<Key> = (0..6).map(|_| chance.key()).collect();
        keys.extend([chance.near(&keys[0]), chance.near(&keys[1])]);
        Self {
            vault: chance.key(),
            mints: [mint, chance.near(&mint), chance.key()],
            keys,
            strays: chance.one_in(6),
        }
    }

    /// A table before: token accounts mostly.
    pub fn before(&self, chance: &mut Chance) -> Vec<Record> {
        let count = match chance.below(50) {
            0 => 0,
            1 => MAX_RECORDS,
            few => 1 + few % 8,
        };
        let mut keys = self.keys.clone();
        chance.shuffle(&mut keys);
        let repeats = chance.one_in(8);
        let mut records: Vec<Record> = Vec::new();
        for at in 0..count {
            if repeats && at > 0 && chance.one_in(3) {
                // The same account named twice, as a transaction may.
                records.push(chance.pick(&records));
                continue;
            }
            let key = match keys.get(at) {
                _ if repeats => chance.pick(&keys),
                Some(key) => *key,
                None => chance.key(),
            };
            records.push(self.record(chance, key));
        }
        records
    }

    fn record(&self, chance: &mut Chance, key: Key) -> Record {
        let owner = match chance.below(16) {
            0 => chance.key(),
            1 => chance.near(&SPL_TOKEN),
            2 => chance.near(&TOKEN_2022),
            3..=9 => SPL_TOKEN,
            _ => TOKEN_2022,
        };
        let len = match chance.below(16) {
            0 => 0,
            1 => chance.below(400),
            2..=5 => chance.pick(&[164, 166, 354, 355, 356]),
            _ => TOKEN_ACCOUNT,
        };
        let mint = match chance.below(10) {
            0 => chance.near(&self.mints[0]),
            1..=6 => self.mints[0],
            _ => chance.pick(&self.mints),
        };
        let holder = match chance.below(12) {
            0 => chance.near(&self.vault),
            _ => self.vault,
        };
        let mut data = chance.bytes(len.max(AMOUNT + 8));
        data[..32].copy_from_slice(&mint);
        data[32..AMOUNT].copy_from_slice(&holder);
        data[AMOUNT..AMOUNT + 8].copy_from_slice(&amount(chance).to_le_bytes());
        data.truncate(len);
        let mut record = Record { key, owner, data };
        mark(chance, &mut record);
        if !self.strays && table::is_only_published(&record.owner, &record.data) {
            record.data.truncate(TOKEN_ACCOUNT);
        }
        record
    }

    /// A table after: other amounts, now and then another order, and once in
    /// four tables a change that the freeze has to look at.
    pub fn after(&self, chance: &mut Chance, before: &[Record]) -> Vec<Record> {
        let mut after = before.to_vec();
        for record in &mut after {
            if chance.one_in(2) {
                move_amount(chance, record);
            }
        }
        if chance.one_in(3) {
            chance.shuffle(&mut after);
        }
        if !after.is_empty() && chance.one_in(4) {
            self.twist(chance, &mut after);
        }
        after
    }

    fn twist(&self, chance: &mut Chance, after: &mut Vec<Record>) {
        let at = chance.below(after.len());
        if chance.one_in(10) {
            after.remove(at);
            return;
        }
        if after.len() < MAX_RECORDS && chance.one_in(4) {
            // A second record of the key, before the first or behind it: the first one counts.
            let mut second = after[at].clone();
            match chance.below(3) {
                0 => second = self.record(chance, second.key),
                1 => move_amount(chance, &mut second),
                _ => {}
            }
            after.insert(chance.below(after.len() + 1), second);
            return;
        }
        let record = &mut after[at];
        match chance.below(12) {
            0 => record.key = chance.near(&record.key),
            1 => record.owner = chance.near(&record.owner),
            2 => record.owner = chance.pick(&[SPL_TOKEN, TOKEN_2022]),
            3 => {
                let len = chance.pick(&[0, TOKEN_ACCOUNT - 1, TOKEN_ACCOUNT]);
                record.data.truncate(len);
            }
            4 => {
                let more = 1 + chance.below(200);
                record.data.extend(chance.bytes(more));
                mark(chance, record);
            }
            _ => {
                let any = chance.below(TOKEN_ACCOUNT);
                let end = chance.pick(&FIELD_ENDS);
                if let Some(byte) = record.data.get_mut(chance.pick(&[any, end])) {
                    *byte ^= 1 << chance.below(8);
                }
            }
        }
    }
}

/// Has a record that is longer than a token account say that it is one, or not.
fn mark(chance: &mut Chance, record: &mut Record) {
    if let Some(byte) = record.data.get_mut(TOKEN_ACCOUNT) {
        *byte = match chance.below(8) {
            stray @ (0 | 1 | 3) => stray as u8,
            _ => ACCOUNT_TYPE,
        };
    }
}

/// An amount of tokens: small ones mostly, so that sums are seldom capped.
fn amount(chance: &mut Chance) -> u64 {
    if chance.one_in(10) {
        chance.edge()
    } else {
        chance.below(1000) as u64
    }
}

/// Changes a record's amount, downwards more often than not.
fn move_amount(chance: &mut Chance, record: &mut Record) {
    let Some(field) = record.data.get_mut(AMOUNT..AMOUNT + 8) else {
        return;
    };
    let old = u64::from_le_bytes(std::array::from_fn(|at| field[at]));
    let new = match chance.below(8) {
        0 => 0,
        1 => chance.around(old),
        2 => amount(chance),
        _ => old - chance.draw().checked_rem(old).unwrap_or(0),
    };
    field.copy_from_slice(&new.to_le_bytes());
}
