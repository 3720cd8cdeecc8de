//! Runs: a region and the calls on it.

mod draw;
mod summary;
mod text;

use crate::calls::Call;

pub use draw::{draw, MAX_CALLS};

/// A region and calls that are judged on it in turn. Without calls it stands
/// for the region's creation.
#[derive(Clone, Debug, PartialEq, Eq)]
pub struct Run {
    /// The region at first.
    pub region: Vec<u8>,
    /// The calls in order.
    pub calls: Vec<Call>,
}

impl Run {
    /// How many records of its calls only the published code takes for token
    /// accounts.
    pub fn only_published(&self) -> usize {
        self.calls.iter().map(Call::only_published).sum()
    }
}
