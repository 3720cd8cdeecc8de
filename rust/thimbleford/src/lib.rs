//! Judges what a school's tablet may spend, for the co-signer of its vault.
//!
//! A session's policy is an *action region*: bytes that the co-signer stores, as a
//! [`Policy`]. For each transaction one call with the accounts before and after says
//! whether it may be signed, and settles it: an accepted call lowers what is left in
//! the policy, which is then stored again. [`Policy::dry_run`] answers the same and
//! settles nothing.
//!
//! [`create`], [`judge`] and [`dry_run`] do so on plain bytes. They call proved
//! functions across a C boundary: what each answers and each byte it leaves is
//! determined by a definition, for any bytes at all. On the way there is no
//! allocation and no panic, and nothing is kept, so calls on different regions may be
//! made at once. On one policy they must not: reading, judging and storing it is one
//! step at a time, which is the co-signer's to see to.
//!
//! The parts are built and read by
//! - [`region`]: an action region from typed actions, and what is left in one,
//! - [`table`]: an account table from records,
//! - [`instructions`]: compact instructions from lists.
//!
//! ```
//! use thimbleford::{instructions, table, Call, Policy, Refusal};
//! use thimbleford::region::{Action, Rule, NEVER};
//!
//! let limit = Rule::SolLimit { remaining: 100 };
//! let mut policy = Policy::create(&[Action { expires_at: NEVER, rule: limit }])?;
//!
//! let accounts = table::build(&[])?;
//! let nothing = instructions::build(&[], 0)?;
//! let call = Call {
//!     before: &accounts,
//!     after: &accounts,
//!     instructions: &nothing,
//!     vault: &[7; 32],
//!     slot: 1,
//!     lamports_before: 500,
//!     lamports_after: 460,
//!     gross: 40,
//! };
//! policy.dry_run(&call)?;
//! assert_eq!(policy.actions()[0].remaining(1), Some(100));
//! policy.judge(&call)?;
//! assert_eq!(policy.actions()[0].remaining(1), Some(60));
//!
//! let dearer = Call { lamports_after: 439, gross: 61, ..call };
//! assert_eq!(policy.judge(&dearer), Err(Refusal::ActionSolLimitExceeded));
//! # Ok::<(), Box<dyn std::error::Error>>(())
//! ```
#![no_std]

extern crate alloc;

mod action;
mod boundary;
mod bytes;
pub mod instructions;
mod key;
mod malformed;
mod policy;
mod refusal;
pub mod region;
pub mod table;

pub use boundary::{archive_version, BOUNDARY_VERSION};
pub use key::{Key, KeyError, SPL_TOKEN, TOKEN_2022};
pub use malformed::Malformed;
pub use policy::Policy;
pub use refusal::Refusal;

/// The README's example is run with those of the crate.
#[cfg(doctest)]
#[doc = include_str!("../../../README.md")]
struct Readme;

/// What a judged call is about: the accounts before and after, what is to be
/// run, whose vault it is, and the lamports that move.
///
/// The parts are lent as bytes, since they are judged as they came: a table that
/// is malformed or a key of another length is refused, not impossible.
#[derive(Clone, Copy, Debug)]
pub struct Call<'a> {
    /// The account table before execution.
    pub before: &'a [u8],
    /// The account table after execution.
    pub after: &'a [u8],
    /// The compact instructions.
    pub instructions: &'a [u8],
    /// The vault's key, 32 bytes.
    pub vault: &'a [u8],
    /// The current slot.
    pub slot: u64,
    /// The vault's lamports before execution.
    pub lamports_before: u64,
    /// The vault's lamports after execution.
    pub lamports_after: u64,
    /// The lamports that left the vault, whatever came back.
    pub gross: u64,
}

/// Whether a region may be created.
///
/// ```
/// use thimbleford::{create, Refusal};
///
/// // No actions, no limits.
/// assert_eq!(create(&[]), Ok(()));
/// // A type without the rest of its header.
/// assert_eq!(create(&[1]), Err(Refusal::ActionBufferInvalid));
/// ```
///
/// # Errors
/// The refusal.
pub fn create(region: &[u8]) -> Result<(), Refusal> {
    boundary::create(region)
}

/// Judges a call on a stored region, and settles it: an accepted one lowers what is
/// left in the region, so it is judged once; a refused one changes nothing.
///
/// ```
/// use thimbleford::{judge, Call, Refusal};
///
/// let table = [0, 0];
/// let call = Call {
///     before: &table,
///     after: &table,
///     instructions: &[0],
///     vault: &[7; 32],
///     slot: 1,
///     lamports_before: 5,
///     lamports_after: 0,
///     gross: 5,
/// };
/// // The empty region limits nothing.
/// assert_eq!(judge(&mut [], &call), Ok(()));
/// let short = Call { vault: &[7; 31], ..call };
/// assert_eq!(judge(&mut [], &short), Err(Refusal::BadTable));
/// ```
///
/// The region is lent for writing, so no part of a call can lie in it:
///
/// ```compile_fail,E0502
/// # use thimbleford::{judge, Call};
/// # let call = Call {
/// #     before: &[],
/// #     after: &[],
/// #     instructions: &[],
/// #     vault: &[],
/// #     slot: 0,
/// #     lamports_before: 0,
/// #     lamports_after: 0,
/// #     gross: 0,
/// # };
/// let mut region = [0; 19];
/// let within = Call { before: &region[..2], ..call };
/// judge(&mut region, &within);
/// ```
///
/// # Errors
/// The refusal.
pub fn judge(region: &mut [u8], call: &Call<'_>) -> Result<(), Refusal> {
    boundary::judge(region, call)
}

/// What [`judge`] would answer, on a region that stays as it is: nothing is settled.
///
/// That a call would be accepted is no leave to sign it: another one may be judged
/// in between.
///
/// ```
/// use thimbleford::region::{self, Action, Rule, NEVER};
/// use thimbleford::{dry_run, Call, Refusal};
///
/// let limit = Rule::SolLimit { remaining: 5 };
/// let region = region::build(&[Action { expires_at: NEVER, rule: limit }])?;
/// let call = Call {
///     before: &[0, 0],
///     after: &[0, 0],
///     instructions: &[0],
///     vault: &[7; 32],
///     slot: 1,
///     lamports_before: 5,
///     lamports_after: 0,
///     gross: 5,
/// };
/// assert_eq!(dry_run(&region, &call), Ok(()));
/// assert_eq!(dry_run(&region, &call), Ok(()));
/// let dearer = Call { lamports_before: 6, ..call };
/// assert_eq!(dry_run(&region, &dearer), Err(Refusal::ActionSolLimitExceeded));
/// # Ok::<(), region::RegionError>(())
/// ```
///
/// # Errors
/// The refusal.
pub fn dry_run(region: &[u8], call: &Call<'_>) -> Result<(), Refusal> {
    // A copy is judged. Of a region that is too long for the stored form one byte too many is
    // enough: it is proved that all of those are answered alike.
    let mut copy = [0; region::MAX_BYTES + 1];
    let len = region.len().min(copy.len());
    copy[..len].copy_from_slice(&region[..len]);
    judge(&mut copy[..len], call)
}
