//! The one table from the published errors to document 01's numbers.

use crate::{error::AuthError, program_error::ProgramError};

const fn custom(error: AuthError) -> ProgramError {
    ProgramError::Custom(error as u32)
}

/// Each refusal of the published code and its number.
const NUMBERS: [(ProgramError, u32); 12] = [
    (custom(AuthError::ActionBufferInvalid), 1),
    (custom(AuthError::ActionWhitelistBlacklistConflict), 2),
    (ProgramError::InvalidInstructionData, 3),
    (custom(AuthError::ActionProgramNotWhitelisted), 4),
    (custom(AuthError::ActionProgramBlacklisted), 5),
    (custom(AuthError::ActionSolMaxPerTxExceeded), 6),
    (custom(AuthError::ActionSolLimitExceeded), 7),
    (custom(AuthError::ActionSolRecurringLimitExceeded), 8),
    (custom(AuthError::ActionTokenMaxPerTxExceeded), 9),
    (custom(AuthError::ActionTokenLimitExceeded), 10),
    (custom(AuthError::ActionTokenRecurringLimitExceeded), 11),
    (custom(AuthError::SessionTokenAuthorityChanged), 12),
];

/// The number of a refusal. An error without one means that the sources are
/// not those that document 01 describes.
pub fn number(error: ProgramError) -> u32 {
    let entry = NUMBERS.iter().find(|(known, _)| *known == error);
    entry
        .unwrap_or_else(|| panic!("document 01 has no number for {error:?}"))
        .1
}

/// The number of an answer: 0 where it accepts.
pub fn answer<T>(result: Result<T, ProgramError>) -> u32 {
    result.map_or_else(number, |_| 0)
}
