//! Account tables: typed records and document 01's bytes of them.

pub use oracle::Record;

use crate::{bytes::Cursor, Key};

/// The most records that a table may have.
pub const MAX_RECORDS: usize = 64;

/// The data of a token account. Token-2022 may put more behind it.
pub const TOKEN_ACCOUNT: usize = 165;

/// What stands at [`TOKEN_ACCOUNT`] in a longer account of Token-2022.
pub const ACCOUNT_TYPE: u8 = 2;

/// The data of a multisignature record.
pub const MULTISIG: usize = 355;

/// The place of a token account's amount in its data.
pub const AMOUNT: usize = 64;

/// The SPL Token program.
pub const SPL_TOKEN: Key = [
    6, 221, 246, 225, 215, 101, 161, 147, 217, 203, 225, 70, 206, 235, 121, 172, 28, 180, 133, 237,
    95, 91, 55, 145, 58, 140, 245, 133, 126, 255, 0, 169,
];

/// The Token-2022 program.
pub const TOKEN_2022: Key = [
    6, 221, 246, 225, 238, 117, 143, 222, 170, 164, 12, 4, 223, 116, 174, 240, 70, 137, 163, 89,
    77, 149, 128, 12, 61, 73, 196, 253, 210, 164, 82, 159,
];

/// The longest data of an account of the chain: 10 MiB.
pub const LONGEST: usize = 10 << 20;

/// A record where it lies in its table's bytes.
#[derive(Clone, Copy, Debug)]
pub struct Lent<'a> {
    /// The account's key.
    pub key: Key,
    /// The key of the owning program.
    pub owner: Key,
    /// The account's data.
    pub data: &'a [u8],
}

/// The table's bytes: its count, then key, owning program, data length and data
/// of each record.
pub fn encode(records: &[Record]) -> Vec<u8> {
    let lengths = records.iter().map(|record| 68 + record.data.len());
    let mut bytes = Vec::with_capacity(2 + lengths.sum::<usize>());
    bytes.extend((records.len() as u16).to_le_bytes());
    for record in records {
        bytes.extend(record.key);
        bytes.extend(record.owner);
        bytes.extend((record.data.len() as u32).to_le_bytes());
        bytes.extend(&record.data);
    }
    bytes
}

/// The records of a well-formed table, where they lie.
pub fn cut(bytes: &[u8]) -> Option<Vec<Lent<'_>>> {
    records(bytes, |lent| lent)
}

/// The records of a well-formed table.
pub fn decode(bytes: &[u8]) -> Option<Vec<Record>> {
    records(bytes, |Lent { key, owner, data }| Record {
        key,
        owner,
        data: data.to_vec(),
    })
}

/// What is made of each record of a well-formed table.
fn records<'a, T>(bytes: &'a [u8], make: impl Fn(Lent<'a>) -> T) -> Option<Vec<T>> {
    let mut cursor = Cursor::new(bytes);
    let count = usize::from(u16::from_le_bytes(cursor.array()?));
    if count > MAX_RECORDS {
        return None;
    }
    let mut record = || {
        Some(make(Lent {
            key: cursor.array()?,
            owner: cursor.array()?,
            data: {
                let len = cursor.length()?;
                cursor.take(len)?
            },
        }))
    };
    let records = (0..count).map(|_| record()).collect::<Option<_>>()?;
    cursor.is_done().then_some(records)
}

/// What makes a record a token account, or not.
#[derive(Clone, Copy, Debug, PartialEq, Eq)]
pub struct Layout {
    /// The owning program.
    pub owner: Key,
    /// The length of the data.
    pub len: usize,
    /// The byte at [`TOKEN_ACCOUNT`], where there is one.
    pub mark: u8,
}

impl Layout {
    /// A layout of its three parts.
    pub const fn new(owner: Key, len: usize, mark: u8) -> Self {
        Self { owner, len, mark }
    }

    /// An account as either program makes it, with nothing behind it.
    pub const fn plain(owner: Key) -> Self {
        Self::new(owner, TOKEN_ACCOUNT, 0)
    }

    /// A record of this layout that holds so many tokens of a mint for its holder.
    pub fn record(&self, key: Key, mint: &Key, holder: &Key, amount: u64) -> Record {
        let mut data = [&mint[..], holder, &amount.to_le_bytes()].concat();
        data.resize(self.len, 0);
        if let Some(byte) = data.get_mut(TOKEN_ACCOUNT) {
            *byte = self.mark;
        }
        Record {
            key,
            owner: self.owner,
            data,
        }
    }
}

/// Whether a record of this owner and data is a token account by document 02's
/// W-204.
pub fn is_token_account(owner: &Key, data: &[u8]) -> bool {
    let len = data.len();
    let says_so = || data.get(TOKEN_ACCOUNT) == Some(&ACCOUNT_TYPE);
    match *owner {
        SPL_TOKEN => len == TOKEN_ACCOUNT,
        TOKEN_2022 => len == TOKEN_ACCOUNT || len != MULTISIG && says_so(),
        _ => false,
    }
}

/// Whether only the published code takes a record of this owner and data for a
/// token account: it asks for one of the two programs and 165 bytes or more. No
/// record is one by W-204 alone.
pub fn is_only_published(owner: &Key, data: &[u8]) -> bool {
    let token_program = [SPL_TOKEN, TOKEN_2022].contains(owner);
    token_program && data.len() >= TOKEN_ACCOUNT && !is_token_account(owner, data)
}

/// The mint and the amount of a counted token account.
///
/// The generator aims with it and the runner's tests are made with it. No
/// expected answer comes from it.
pub fn counted(record: &Record, vault: &Key) -> Option<(Key, u64)> {
    if !is_token_account(&record.owner, &record.data) {
        return None;
    }
    let mut cursor = Cursor::new(&record.data);
    let mint = cursor.array()?;
    let holder: Key = cursor.array()?;
    (holder == *vault).then_some((mint, u64::from_le_bytes(cursor.array()?)))
}

/// A mint's balance, for aiming as [`counted`] is.
pub fn balance(records: &[Record], vault: &Key, mint: &Key) -> u64 {
    let amounts = records.iter().filter_map(|record| counted(record, vault));
    amounts
        .filter(|(of, _)| of == mint)
        .fold(0, |sum, (_, amount)| sum.saturating_add(amount))
}

#[cfg(test)]
mod tests {
    use super::*;

    fn record(owner: Key, len: usize) -> Record {
        Record {
            key: [1; 32],
            owner,
            data: vec![2; len],
        }
    }

    #[test]
    fn a_table_comes_back() {
        let records = [record(SPL_TOKEN, 0), record([3; 32], 200)];
        let bytes = encode(&records);
        assert_eq!(bytes.len(), 2 + 2 * 68 + 200);
        assert_eq!(decode(&bytes).unwrap(), records);
        assert_eq!(decode(&[0, 0]).unwrap(), []);
    }

    #[test]
    fn malformed_tables_are_none() {
        let bytes = encode(&[record(SPL_TOKEN, 3)]);
        for len in 0..bytes.len() {
            assert_eq!(decode(&bytes[..len]), None);
        }
        assert_eq!(decode(&[&bytes[..], &[0]].concat()), None);
        let full = vec![record(SPL_TOKEN, 1); MAX_RECORDS];
        assert!(decode(&encode(&full)).is_some());
        let over = vec![record(SPL_TOKEN, 1); MAX_RECORDS + 1];
        assert_eq!(decode(&encode(&over)), None);
    }

    #[test]
    fn a_balance_is_the_capped_sum() {
        // Mint and vault are both the key of twos, and so is the amount.
        let (mint, vault) = ([2; 32], [2; 32]);
        let amount = u64::from_le_bytes([2; 8]);
        let two = [record(SPL_TOKEN, 165), record(TOKEN_2022, 356)];
        assert_eq!(balance(&two, &vault, &mint), 2 * amount);
        let none = [record([3; 32], 165), record(SPL_TOKEN, 164)];
        assert_eq!(balance(&none, &vault, &mint), 0);
        let many = vec![record(SPL_TOKEN, 165); 128];
        assert_eq!(balance(&many, &vault, &mint), u64::MAX);
    }
}
