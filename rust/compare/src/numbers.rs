//! Document 01's numbers by name.

/// Bytes that are no compact instructions, or an index that passes the table.
pub const INVALID_INSTRUCTIONS: u32 = 3;

/// A malformed account table.
pub const BAD_TABLE: u32 = 13;

/// An output shorter than what is to be written.
pub const NO_ROOM: u32 = 14;

/// A region not in stored form.
pub const BAD_REGION: u32 = 15;

/// A list of instructions that has no encoding.
pub const NOT_ENCODABLE: u32 = 16;

/// The numbers of creation.
pub const CREATION: [u32; 3] = [0, 1, 2];

/// The numbers of reading instructions.
pub const READING: [u32; 2] = [0, INVALID_INSTRUCTIONS];

/// The numbers of writing instructions.
pub const WRITING: [u32; 3] = [0, NO_ROOM, NOT_ENCODABLE];

/// The numbers of resolving indexes.
pub const RESOLVING: [u32; 3] = [0, INVALID_INSTRUCTIONS, BAD_TABLE];

/// The numbers of a judged call. The published code gives all but the last two.
pub const JUDGING: [u32; 13] = [0, 3, 4, 5, 6, 7, 8, 9, 10, 11, 12, BAD_TABLE, BAD_REGION];

/// The numbers of the calls of a run: its region and its tables are sound.
pub const RUNNING: [u32; 11] = [0, 3, 4, 5, 6, 7, 8, 9, 10, 11, 12];

/// The numbers of the calls that `replay` runs: their region is sound, their
/// tables may be anything.
pub const REPLAYING: [u32; 12] = [0, 3, 4, 5, 6, 7, 8, 9, 10, 11, 12, BAD_TABLE];

const NAMELESS: &str = "a number without a name";

/// Each number and its name.
const NAMES: [(u32, &str); 17] = [
    (0, "0 accepted"),
    (1, "1 ActionBufferInvalid"),
    (2, "2 ActionWhitelistBlacklistConflict"),
    (INVALID_INSTRUCTIONS, "3 InvalidInstructionData"),
    (4, "4 ActionProgramNotWhitelisted"),
    (5, "5 ActionProgramBlacklisted"),
    (6, "6 ActionSolMaxPerTxExceeded"),
    (7, "7 ActionSolLimitExceeded"),
    (8, "8 ActionSolRecurringLimitExceeded"),
    (9, "9 ActionTokenMaxPerTxExceeded"),
    (10, "10 ActionTokenLimitExceeded"),
    (11, "11 ActionTokenRecurringLimitExceeded"),
    (12, "12 SessionTokenAuthorityChanged"),
    (BAD_TABLE, "13 bad table"),
    (NO_ROOM, "14 no room"),
    (BAD_REGION, "15 bad region"),
    (NOT_ENCODABLE, "16 not encodable"),
];

/// A number with its name.
pub fn name(number: u32) -> &'static str {
    let known = NAMES.iter().find(|(known, _)| *known == number);
    known.map_or(NAMELESS, |(_, name)| name)
}

/// A number with its name, or with the word that it has none.
pub fn named(number: u32) -> String {
    match name(number) {
        NAMELESS => format!("{number}, {NAMELESS}"),
        name => name.to_string(),
    }
}

/// Numbers with their names.
pub fn names(numbers: &[u32]) -> Vec<&'static str> {
    numbers.iter().copied().map(name).collect()
}
