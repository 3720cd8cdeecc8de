//! Stands in for the platform's account: a plain record.

use crate::pubkey::Pubkey;

/// An account as a record of document 01's account table has it.
#[derive(Clone, Debug, PartialEq, Eq)]
pub struct AccountInfo {
    /// The account's key.
    pub key: Pubkey,
    /// The key of the owning program.
    pub owner: Pubkey,
    /// The account's data.
    pub data: Vec<u8>,
}

// The three accessors that the published code calls, by its names.
impl AccountInfo {
    /// The account's key.
    pub fn key(&self) -> &Pubkey {
        &self.key
    }

    /// The key of the owning program.
    pub fn owner(&self) -> &Pubkey {
        &self.owner
    }

    /// The account's data. Nothing is unchecked here: the record is a plain value.
    pub fn borrow_data_unchecked(&self) -> &[u8] {
        &self.data
    }
}
