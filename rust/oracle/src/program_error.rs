//! Stands in for the platform's errors: the two that the published code gives.

/// A refusal of the published code.
#[derive(Clone, Copy, Debug, PartialEq, Eq)]
pub enum ProgramError {
    /// The codec refuses its bytes, or an index passes the account list.
    InvalidInstructionData,
    /// One of the published `AuthError` codes.
    Custom(u32),
}
