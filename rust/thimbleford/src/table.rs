//! The account table: the records that a call's instructions name by index.

use alloc::vec::Vec;
use core::fmt;

use crate::{bytes::Cursor, Key, Malformed, Refusal};

/// The most records that a table may have.
pub const MAX_RECORDS: usize = 64;

/// An account as the co-signer sees it before or after execution, with all of its
/// data: whether it is a token account is read from that.
///
/// Under SPL Token a token account has exactly 165 bytes. Under Token-2022 it has
/// 165, or more where byte 165 is 2 and the length is not 355. What an order takes
/// from any other record no token rule sees.
#[derive(Clone, Copy, Debug, PartialEq, Eq)]
pub struct Record<'a> {
    /// The account's key.
    pub key: Key,
    /// The key of the owning program.
    pub owner: Key,
    /// The account's data.
    pub data: &'a [u8],
}

/// The bytes of an account table.
///
/// ```
/// use thimbleford::table::{self, Record, TableError, TableFault};
/// use thimbleford::Key;
///
/// let system = Record { key: Key([0; 32]), owner: Key([1; 32]), data: b"system_program" };
/// let before = table::build(&[system])?;
/// assert_eq!(before.len(), 2 + 32 + 32 + 4 + 14);
///
/// let error = table::build(&[system; 65]).unwrap_err();
/// assert_eq!(error.fault, TableFault::TooManyRecords { count: 65 });
/// # Ok::<(), TableError>(())
/// ```
///
/// # Errors
/// Where there are too many records, or too much data in one.
pub fn build(records: &[Record<'_>]) -> Result<Vec<u8>, TableError> {
    laid(records).map_err(bad_table)
}

/// The records of an account table.
///
/// ```
/// use thimbleford::table::{self, TableError, TableFault};
///
/// assert_eq!(table::read(&[0, 0])?, []);
///
/// let error = table::read(&[1, 0, 7]).unwrap_err();
/// assert_eq!(error.fault, TableFault::ShortRecord { record: 0 });
/// # Ok::<(), TableError>(())
/// ```
///
/// # Errors
/// Where the bytes are no table: [`judge`](crate::judge) answers
/// [`Refusal::BadTable`] to them.
pub fn read(table: &[u8]) -> Result<Vec<Record<'_>>, TableError> {
    cut(table).map_err(bad_table)
}

fn bad_table(fault: TableFault) -> TableError {
    TableError::new(fault, Refusal::BadTable)
}

/// The bytes of records within the table's limits.
fn laid(records: &[Record<'_>]) -> Result<Vec<u8>, TableFault> {
    let count = records.len();
    if count > MAX_RECORDS {
        return Err(TableFault::TooManyRecords { count });
    }
    let mut bytes = (count as u16).to_le_bytes().to_vec();
    for (at, record) in records.iter().enumerate() {
        let len = data_len(at, record.data.len())?;
        bytes.extend(record.key.0);
        bytes.extend(record.owner.0);
        bytes.extend(len.to_le_bytes());
        bytes.extend(record.data);
    }
    Ok(bytes)
}

/// The data length of a record, which has four bytes in the table.
fn data_len(record: usize, length: usize) -> Result<u32, TableFault> {
    u32::try_from(length).map_err(|_| TableFault::DataTooLong { record, length })
}

/// The records of a table that ends with its last one.
fn cut(table: &[u8]) -> Result<Vec<Record<'_>>, TableFault> {
    let mut cursor = Cursor::new(table);
    let count = usize::from(cursor.u16().ok_or(TableFault::ShortCount)?);
    if count > MAX_RECORDS {
        return Err(TableFault::TooManyRecords { count });
    }
    let records = (0..count)
        .map(|record| {
            let header = header(&mut cursor).ok_or(TableFault::ShortRecord { record })?;
            let (key, owner, len) = header;
            let data = cursor.take(len as usize);
            let data = data.ok_or(TableFault::DataPastEnd { record })?;
            Ok(Record { key, owner, data })
        })
        .collect::<Result<_, _>>()?;
    match cursor.len() {
        0 => Ok(records),
        bytes => Err(TableFault::BytesBehind { bytes }),
    }
}

/// Key, owning program and data length.
fn header(cursor: &mut Cursor<'_>) -> Option<(Key, Key, u32)> {
    Some((cursor.key()?, cursor.key()?, cursor.u32()?))
}

/// Why records make no table, or bytes are none.
pub type TableError = Malformed<TableFault>;

/// What is wrong with records, or with a table's bytes. A record is named by its
/// place, from 0.
#[derive(Clone, Copy, Debug, PartialEq, Eq)]
#[non_exhaustive]
pub enum TableFault {
    /// Fewer bytes than the count of records has.
    ShortCount,
    /// More than [`MAX_RECORDS`] records.
    TooManyRecords {
        /// How many there are.
        count: usize,
    },
    /// Data whose length does not fit four bytes.
    DataTooLong {
        /// The record.
        record: usize,
        /// Its data's length.
        length: usize,
    },
    /// Fewer bytes are left than a record has before its data.
    ShortRecord {
        /// The record that would begin there.
        record: usize,
    },
    /// A record's data passes the table's end.
    DataPastEnd {
        /// The record.
        record: usize,
    },
    /// Bytes behind the last record.
    BytesBehind {
        /// How many there are.
        bytes: usize,
    },
}

impl fmt::Display for TableFault {
    fn fmt(&self, f: &mut fmt::Formatter<'_>) -> fmt::Result {
        match self {
            Self::ShortCount => write!(f, "the table ends within its count"),
            Self::TooManyRecords { count } => {
                write!(f, "{count} records, and at most {MAX_RECORDS} may be there")
            }
            Self::DataTooLong { record, length } => {
                write!(
                    f,
                    "record {record} has {length} bytes of data, and at most {} may be there",
                    u32::MAX
                )
            }
            Self::ShortRecord { record } => {
                write!(f, "record {record} ends before its data")
            }
            Self::DataPastEnd { record } => write!(f, "record {record} ends within its data"),
            Self::BytesBehind { bytes } => {
                write!(f, "{bytes} bytes follow the last record")
            }
        }
    }
}

#[cfg(test)]
mod tests {
    use alloc::string::ToString;

    use super::*;

    #[test]
    fn a_data_length_has_four_bytes() {
        assert_eq!(data_len(3, 0xFFFF_FFFF), Ok(u32::MAX));
        let error = data_len(3, 0x1_0000_0000).unwrap_err();
        let (record, length) = (3, 0x1_0000_0000);
        assert_eq!(error, TableFault::DataTooLong { record, length });
        assert_eq!(
            error.to_string(),
            "record 3 has 4294967296 bytes of data, and at most 4294967295 may be there"
        );
    }
}
