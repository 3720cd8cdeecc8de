//! The differential runner: the port held beside the published Rust.
//!
//! Creation, judged calls and runs of calls on one region are compared in this
//! process, through the archive of the C functions ([`runner`], [`subjects`]);
//! what is not behind that boundary through the program `vectors`, which answers
//! cases from its standard input ([`vectors`]); what the program `replay` prints
//! in [`replay`]. The cases are drawn from a seed. A difference is cut down to
//! the smallest case that shows it ([`shrink`]). [`mod@bench`] times both sides.
//!
//! Where the published sources were not found the crate builds, and tests what
//! it can; [`NOTHING_COMPARED`] is said before the reason.

pub mod aim;
pub mod bench;
pub mod breach;
pub mod bytes;
pub mod calls;
pub mod chance;
pub mod creation;
pub mod damage;
pub mod fields;
pub mod lines;
pub mod long_records;
pub mod numbers;
pub mod program;
pub mod progress;
pub mod record;
pub mod region;
pub mod replay;
pub mod report;
pub mod runner;
pub mod runs;
pub mod shrink;
pub mod stream;
pub mod subjects;
pub mod table;
pub mod vectors;
pub mod words;
pub mod world;

/// A key of 32 bytes.
pub type Key = [u8; 32];

/// Said where there is nothing to compare with, before where it was looked for.
pub const NOTHING_COMPARED: &str = "compare: nothing was compared:";
