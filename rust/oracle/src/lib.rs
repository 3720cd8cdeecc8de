//! The oracle: the judging part of lazor-kit/program-v2, compiled unchanged
//! where its sources lie and reached through safe functions that answer with
//! document 01's numbers.
//!
//! The sources are no part of this repository. `build.rs` says where they are
//! looked for, and stops where they are not those of [`COMMIT`]; where they are
//! missing the crate still builds, and [`Oracle::find`] says so.
//!
//! The modules named after the platform's crate stand in for it: the published
//! code asks for `pinocchio`, and this crate answers to that name.

extern crate self as pinocchio;

pub mod account_info;
pub mod program_error;
pub mod pubkey;
pub mod session;

#[cfg(oracle_sources)]
include!(concat!(env!("OUT_DIR"), "/sources.rs"));

#[cfg(not(oracle_sources))]
mod absent;
#[cfg(all(test, oracle_sources))]
mod named_values;
#[cfg(oracle_sources)]
mod numbers;
#[cfg(oracle_sources)]
mod published;

pub use account_info::AccountInfo as Record;

/// The commit of lazor-kit/program-v2 whose files are compiled, told by their digests.
pub const COMMIT: &str = env!("LAZORKIT_COMMIT");

/// Whether the published sources were found when this crate was built.
pub const AVAILABLE: bool = cfg!(oracle_sources);

/// The published code. There is one only where its sources were found, so no
/// caller can forget to ask.
#[derive(Clone, Copy, Debug)]
pub struct Oracle(Sources);

#[cfg(oracle_sources)]
#[derive(Clone, Copy, Debug)]
struct Sources;

#[cfg(not(oracle_sources))]
#[derive(Clone, Copy, Debug)]
enum Sources {}

/// A part of a lent source: where it starts and how long it is.
#[derive(Clone, Copy, Debug, PartialEq, Eq)]
pub struct Part {
    /// The place of its first byte.
    pub at: usize,
    /// Its length.
    pub len: usize,
}

/// One compact instruction, its accounts and data as parts of its source.
#[derive(Clone, Copy, Debug, PartialEq, Eq)]
pub struct Instruction {
    /// The index of the program's record.
    pub program: u8,
    /// The indexes of the accounts' records.
    pub accounts: Part,
    /// The instruction's data.
    pub data: Part,
}

/// What a judged call is given besides the region.
#[derive(Clone, Copy, Debug)]
pub struct Call<'a> {
    /// The account table before the instructions ran.
    pub before: &'a [Record],
    /// The account table after.
    pub after: &'a [Record],
    /// The compact instructions.
    pub instructions: &'a [u8],
    /// The vault's key.
    pub vault: &'a [u8; 32],
    /// The slot.
    pub slot: u64,
    /// The vault's lamports before.
    pub lamports_before: u64,
    /// The vault's lamports after.
    pub lamports_after: u64,
    /// The gross outflow.
    pub gross: u64,
}
