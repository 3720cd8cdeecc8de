//! Stands in for the platform's key.

/// A key of 32 bytes.
pub type Pubkey = [u8; 32];
