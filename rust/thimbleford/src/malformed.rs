//! The error of what is built and read.

use core::{error::Error, fmt};

use crate::Refusal;

/// Why something was not built, or not read.
#[derive(Clone, Copy, Debug, PartialEq, Eq)]
#[non_exhaustive]
pub struct Malformed<Fault> {
    /// What is wrong, and where.
    pub fault: Fault,
    refusal: Refusal,
}

impl<Fault> Malformed<Fault> {
    pub(crate) const fn new(fault: Fault, refusal: Refusal) -> Self {
        Self { fault, refusal }
    }

    /// What the table of numbers has for it: the answer of the proved function
    /// that is handed such a thing.
    #[must_use]
    pub const fn refusal(&self) -> Refusal {
        self.refusal
    }
}

impl<Fault: fmt::Display> fmt::Display for Malformed<Fault> {
    fn fmt(&self, f: &mut fmt::Formatter<'_>) -> fmt::Result {
        self.fault.fmt(f)
    }
}

impl<Fault: fmt::Debug + fmt::Display> Error for Malformed<Fault> {}
