//! The C functions of `libthimbleford.a`, as crates/thimbleford_c declares them:
//! a slice is an address and a length. The test `declaration` holds the two
//! declarations together, and where the archive has another boundary than this
//! one, nothing of it is called but the function that says so.
//!
//! This is all of the crate's `unsafe`. It rests on what is proved of the functions
//! for any bytes: they end, they touch nothing but the slices they are lent, and of
//! those they write the region alone.
#![allow(unsafe_code)]

use crate::{Call, Refusal};

/// The version of the boundary that this crate is made for.
pub const BOUNDARY_VERSION: u32 = 1;

/// A length of the boundary has 64 bits.
const _: () = assert!(usize::BITS == 64);

extern "C" {
    fn thimbleford_version() -> u32;
    fn thimbleford_create(region: *const u8, region_len: usize) -> u32;
    fn thimbleford_judge(
        region: *mut u8,
        region_len: usize,
        before: *const u8,
        before_len: usize,
        after: *const u8,
        after_len: usize,
        instructions: *const u8,
        instructions_len: usize,
        vault: *const u8,
        vault_len: usize,
        slot: u64,
        lamports_before: u64,
        lamports_after: u64,
        gross: u64,
    ) -> u32;
}

/// The version of the linked archive's boundary. This crate judges only where it
/// is [`BOUNDARY_VERSION`].
#[must_use]
pub fn archive_version() -> u32 {
    // SAFETY: the function takes nothing and answers a number, in every version.
    unsafe { thimbleford_version() }
}

/// Refuses an archive of another version, whose functions may take or answer
/// something else.
fn check_archive() -> Result<(), Refusal> {
    match archive_version() {
        BOUNDARY_VERSION => Ok(()),
        version => Err(Refusal::OtherArchive { version }),
    }
}

/// What creation answers to a region.
pub(crate) fn create(region: &[u8]) -> Result<(), Refusal> {
    check_archive()?;
    // SAFETY: the archive is of this version. Address and length are of one lent
    // slice; the function reads within it and keeps nothing of it.
    let number = unsafe { thimbleford_create(region.as_ptr(), region.len()) };
    Refusal::check(number)
}

/// What a judged call answers; only an accepted one writes the region.
pub(crate) fn judge(region: &mut [u8], call: &Call<'_>) -> Result<(), Refusal> {
    check_archive()?;
    // SAFETY: the archive is of this version. Each address and length are of one
    // lent slice; the function writes within the region, reads within the others
    // and keeps nothing of any. The region is borrowed alone, so none overlaps it.
    let number = unsafe {
        thimbleford_judge(
            region.as_mut_ptr(),
            region.len(),
            call.before.as_ptr(),
            call.before.len(),
            call.after.as_ptr(),
            call.after.len(),
            call.instructions.as_ptr(),
            call.instructions.len(),
            call.vault.as_ptr(),
            call.vault.len(),
            call.slot,
            call.lamports_before,
            call.lamports_after,
            call.gross,
        )
    };
    Refusal::check(number)
}
