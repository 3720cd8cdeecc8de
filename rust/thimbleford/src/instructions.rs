//! Compact instructions: what a call is to run, accounts named by their index in
//! the account table.

use alloc::{vec, vec::Vec};
use core::{fmt, iter};

use crate::{bytes::Cursor, Malformed, Refusal};

/// The most instructions that a call may have.
pub const MAX_INSTRUCTIONS: usize = 16;

/// The most accounts of one instruction: their number has one byte.
pub const MAX_ACCOUNTS: usize = u8::MAX as usize;

/// The most data of one instruction: its length has two bytes.
pub const MAX_DATA: usize = u16::MAX as usize;

/// One instruction.
#[derive(Clone, Copy, Debug, PartialEq, Eq)]
pub struct CompactInstruction<'a> {
    /// The index of the program's record.
    pub program_id_index: u8,
    /// The indexes of the accounts' records.
    pub accounts: &'a [u8],
    /// What the program is given.
    pub data: &'a [u8],
}

/// The bytes of a list of instructions on a table of `records` records.
///
/// ```
/// use thimbleford::instructions::{self, CompactInstruction, InstructionsError, InstructionsFault};
/// use thimbleford::Refusal;
///
/// let pay = CompactInstruction { program_id_index: 2, accounts: &[0, 1], data: &[9] };
/// assert_eq!(instructions::build(&[pay], 3)?, [1, 2, 2, 0, 1, 1, 0, 9]);
///
/// // Two records have the indexes 0 and 1.
/// let error = instructions::build(&[pay], 2).unwrap_err();
/// assert_eq!(error.fault, InstructionsFault::IndexPastTable { instruction: 0, index: 2 });
/// assert_eq!(error.refusal(), Refusal::InvalidInstructionData);
/// # Ok::<(), InstructionsError>(())
/// ```
///
/// # Errors
/// Where the list breaks a limit of writing, which is [`Refusal::NotEncodable`],
/// or an index does not resolve, which is [`Refusal::InvalidInstructionData`].
pub fn build(
    list: &[CompactInstruction<'_>],
    records: usize,
) -> Result<Vec<u8>, InstructionsError> {
    let bytes = written(list).map_err(|fault| Malformed::new(fault, Refusal::NotEncodable))?;
    for (at, instruction) in list.iter().enumerate() {
        instruction.check_indexes(at, records).map_err(garbled)?;
    }
    Ok(bytes)
}

/// What was read.
#[derive(Clone, Debug, PartialEq, Eq)]
#[non_exhaustive]
pub struct Read<'a> {
    /// The instructions.
    pub list: Vec<CompactInstruction<'a>>,
    /// How many bytes they have; those behind are not looked at.
    pub consumed: usize,
}

/// The instructions that bytes begin with.
///
/// ```
/// use thimbleford::instructions::{self, CompactInstruction, InstructionsError, InstructionsFault};
///
/// let read = instructions::read(&[1, 2, 1, 5, 2, 0, 0xAA, 0xBB, 0xCC])?;
/// let pay = CompactInstruction { program_id_index: 2, accounts: &[5], data: &[0xAA, 0xBB] };
/// assert_eq!((read.list, read.consumed), (vec![pay], 8));
///
/// let error = instructions::read(&[1, 2, 1]).unwrap_err();
/// assert_eq!(error.fault, InstructionsFault::CutShort { instruction: 0 });
/// # Ok::<(), InstructionsError>(())
/// ```
///
/// # Errors
/// Where the bytes begin with no list: [`judge`](crate::judge) answers
/// [`Refusal::InvalidInstructionData`] to them.
pub fn read(bytes: &[u8]) -> Result<Read<'_>, InstructionsError> {
    let mut cursor = Cursor::new(bytes);
    let list = taken(&mut cursor).map_err(garbled)?;
    let consumed = bytes.len() - cursor.len();
    Ok(Read { list, consumed })
}

fn garbled(fault: InstructionsFault) -> InstructionsError {
    Malformed::new(fault, Refusal::InvalidInstructionData)
}

/// The bytes of a list within the writer's limits.
fn written(list: &[CompactInstruction<'_>]) -> Result<Vec<u8>, InstructionsFault> {
    let count = list.len();
    if count > MAX_INSTRUCTIONS {
        return Err(InstructionsFault::TooManyInstructions { count });
    }
    let mut bytes = vec![count as u8];
    for (at, instruction) in list.iter().enumerate() {
        instruction.write(at, &mut bytes)?;
    }
    Ok(bytes)
}

/// The list that the cursor begins with.
fn taken<'a>(cursor: &mut Cursor<'a>) -> Result<Vec<CompactInstruction<'a>>, InstructionsFault> {
    let count = usize::from(cursor.u8().ok_or(InstructionsFault::NoCount)?);
    if count > MAX_INSTRUCTIONS {
        return Err(InstructionsFault::TooManyInstructions { count });
    }
    let take = |instruction| {
        CompactInstruction::take(cursor).ok_or(InstructionsFault::CutShort { instruction })
    };
    (0..count).map(take).collect()
}

impl<'a> CompactInstruction<'a> {
    /// The instruction that the cursor begins with.
    fn take(cursor: &mut Cursor<'a>) -> Option<Self> {
        let program_id_index = cursor.u8()?;
        let accounts = cursor.u8()?.into();
        let accounts = cursor.take(accounts)?;
        let data = cursor.u16()?.into();
        Some(Self {
            program_id_index,
            accounts,
            data: cursor.take(data)?,
        })
    }

    /// Adds the instruction's bytes, within the writer's limits.
    fn write(&self, instruction: usize, bytes: &mut Vec<u8>) -> Result<(), InstructionsFault> {
        let (count, length) = (self.accounts.len(), self.data.len());
        let accounts = u8::try_from(count)
            .map_err(|_| InstructionsFault::TooManyAccounts { instruction, count })?;
        let data_len = u16::try_from(length).map_err(|_| InstructionsFault::DataTooLong {
            instruction,
            length,
        })?;
        bytes.extend([self.program_id_index, accounts]);
        bytes.extend(self.accounts);
        bytes.extend(data_len.to_le_bytes());
        bytes.extend(self.data);
        Ok(())
    }

    /// Each index names a record. A judged call looks at the program's alone, and
    /// the chain at all of them.
    fn check_indexes(&self, instruction: usize, records: usize) -> Result<(), InstructionsFault> {
        let mut indexes = iter::once(&self.program_id_index).chain(self.accounts);
        match indexes.find(|index| usize::from(**index) >= records) {
            Some(&index) => Err(InstructionsFault::IndexPastTable { instruction, index }),
            None => Ok(()),
        }
    }
}

/// Why a list has no bytes, or bytes have no list.
pub type InstructionsError = Malformed<InstructionsFault>;

/// What is wrong with a list, or with its bytes. An instruction is named by its
/// place, from 0.
#[derive(Clone, Copy, Debug, PartialEq, Eq)]
#[non_exhaustive]
pub enum InstructionsFault {
    /// No byte, where the count of instructions has one.
    NoCount,
    /// More than [`MAX_INSTRUCTIONS`] instructions.
    TooManyInstructions {
        /// How many there are.
        count: usize,
    },
    /// More than [`MAX_ACCOUNTS`] accounts in one instruction.
    TooManyAccounts {
        /// The instruction.
        instruction: usize,
        /// How many there are.
        count: usize,
    },
    /// More than [`MAX_DATA`] bytes of data in one instruction.
    DataTooLong {
        /// The instruction.
        instruction: usize,
        /// Its data's length.
        length: usize,
    },
    /// An index of a program or an account that the table does not have.
    IndexPastTable {
        /// The instruction.
        instruction: usize,
        /// The index.
        index: u8,
    },
    /// A part of an instruction passes the end.
    CutShort {
        /// The instruction.
        instruction: usize,
    },
}

impl fmt::Display for InstructionsFault {
    fn fmt(&self, f: &mut fmt::Formatter<'_>) -> fmt::Result {
        match self {
            Self::NoCount => write!(f, "there is no byte, and the count has one"),
            Self::TooManyInstructions { count } => {
                write!(f, "{count} instructions, and at most {MAX_INSTRUCTIONS} may be there")
            }
            Self::TooManyAccounts { instruction, count } => write!(
                f,
                "instruction {instruction} has {count} accounts, and at most {MAX_ACCOUNTS} may be there"
            ),
            Self::DataTooLong {
                instruction,
                length,
            } => write!(
                f,
                "instruction {instruction} has {length} bytes of data, and at most {MAX_DATA} may be there"
            ),
            Self::IndexPastTable { instruction, index } => {
                write!(f, "instruction {instruction} names record {index}, which the table does not have")
            }
            Self::CutShort { instruction } => {
                write!(f, "instruction {instruction} passes the end of the bytes")
            }
        }
    }
}
