//! The published functions behind the oracle's.

use crate::{
    compact::{
        parse_compact_instructions_ref_with_len, CompactInstruction, CompactInstructionRef,
        CompactInstructions,
    },
    numbers::{answer, number},
    processor::execute_actions::{
        evaluate_post_actions, evaluate_pre_actions, snapshot_token_authorities,
        snapshot_token_balances, verify_token_authorities_unchanged,
    },
    program_error::ProgramError,
    state::action,
    Call, Instruction, Oracle, Part, Record, Sources,
};

impl Oracle {
    /// The oracle, where the published sources were found, else where they were
    /// looked for.
    pub fn find() -> Result<Self, &'static str> {
        Ok(Self(Sources))
    }

    /// Creation: the number for a region.
    pub fn create(&self, region: &[u8]) -> u32 {
        answer(action::validate_actions_buffer(region))
    }

    /// Reads compact instructions: the list and the bytes consumed, or the number.
    pub fn read(&self, bytes: &[u8]) -> Result<(Vec<Instruction>, usize), u32> {
        let (list, consumed) = parse_compact_instructions_ref_with_len(bytes).map_err(number)?;
        // The published list borrows from the bytes, so a part's place is told by its address.
        let part = |of: &[u8]| Part {
            at: of.as_ptr() as usize - bytes.as_ptr() as usize,
            len: of.len(),
        };
        let list = list.iter().map(|entry| Instruction {
            program: entry.program_id_index,
            accounts: part(entry.accounts),
            data: part(entry.data),
        });
        Ok((list.collect(), consumed))
    }

    /// Writes a list whose parts lie in `source`.
    ///
    /// # Panics
    /// Where a part passes the source's end, and where the published writer
    /// does: over 255 accounts or entries.
    pub fn write(&self, source: &[u8], list: &[Instruction]) -> Vec<u8> {
        let entry = |entry: &Instruction| CompactInstruction {
            program_id_index: entry.program,
            accounts: bytes(source, entry.accounts).to_vec(),
            data: bytes(source, entry.data).to_vec(),
        };
        CompactInstructions {
            inner_instructions: list.iter().map(entry).collect(),
        }
        .into_bytes()
    }

    /// Resolves one entry, whose parts lie in `source`, against an account table.
    ///
    /// # Panics
    /// Where a part passes the source's end.
    pub fn resolve(&self, accounts: &[Record], source: &[u8], entry: &Instruction) -> u32 {
        let entry = CompactInstructionRef {
            program_id_index: entry.program,
            accounts: bytes(source, entry.accounts),
            data: bytes(source, entry.data),
        };
        answer(entry.decompress(accounts))
    }

    /// A judged call. The region afterwards is what the published code left,
    /// after a refusal too.
    ///
    /// # Panics
    /// Where the region is not in stored form and the published code panics.
    pub fn judge(&self, region: &mut [u8], call: &Call) -> u32 {
        answer(judge(region, call))
    }

    /// The little-endian number of eight bytes.
    ///
    /// # Panics
    /// Where they pass the end, as the published code does.
    pub fn read_u64(&self, data: &[u8], place: usize) -> u64 {
        action::read_u64(data, place)
    }

    /// Writes a number to eight bytes, little-endian.
    ///
    /// # Panics
    /// Where they pass the end, as the published code does.
    pub fn write_u64(&self, data: &mut [u8], place: usize, value: u64) {
        action::write_u64(data, place, value)
    }
}

/// The published functions in document 01's order: the freeze before the limits.
fn judge(region: &mut [u8], call: &Call) -> Result<(), ProgramError> {
    let (instructions, _) = parse_compact_instructions_ref_with_len(call.instructions)?;
    evaluate_pre_actions(region, &instructions, call.before, call.slot)?;
    let balances = snapshot_token_balances(region, call.before, call.vault)?;
    let authorities = snapshot_token_authorities(region, call.before, call.vault)?;
    verify_token_authorities_unchanged(&authorities, call.after)?;
    evaluate_post_actions(
        region,
        call.after,
        call.vault,
        call.lamports_before,
        call.lamports_after,
        call.gross,
        &balances,
        call.slot,
    )
}

fn bytes(source: &[u8], part: Part) -> &[u8] {
    &source[part.at..][..part.len]
}
