//! Who can be asked to create and to judge.
//!
//! A subject is all that the runner needs to compare an implementation with the
//! published code: a region as bytes, in place where it is judged, and tables as
//! bytes.

use oracle::Oracle;
use thimbleford::Refusal;

use crate::{
    calls::Call,
    numbers::{BAD_REGION, BAD_TABLE, INVALID_INSTRUCTIONS},
    region, table, Key,
};

/// Something that creates and judges.
pub trait Subject {
    /// Creation: the number for a region.
    fn create(&mut self, region: &[u8]) -> u32;

    /// A judged call: the number, and the region as it is left.
    fn judge(&mut self, region: &mut [u8], call: &Call) -> u32;
}

/// The published code. Outside its domain it has no answer to give, and
/// document 01's steps 1 to 3 give theirs: 13, 3 and 15.
#[derive(Clone, Copy)]
pub struct Published(pub Oracle);

impl Published {
    /// Whether a region is in stored form: as new but for what was spent and
    /// reset, creation accepts it.
    pub fn is_stored(&self, region: &[u8]) -> bool {
        let Some(mut actions) = region::cut(region) else {
            return false;
        };
        for fields in actions.iter_mut().filter_map(|a| a.rule.recurring_mut()) {
            fields.spent = 0;
            fields.last_reset = 0;
        }
        self.0.create(&region::encode(&actions)) == 0
    }
}

impl Subject for Published {
    fn create(&mut self, region: &[u8]) -> u32 {
        self.0.create(region)
    }

    fn judge(&mut self, region: &mut [u8], call: &Call) -> u32 {
        let tables = (table::decode(&call.before), table::decode(&call.after));
        let (Some(before), Some(after)) = tables else {
            return BAD_TABLE;
        };
        if self.0.read(&call.instructions).is_err() {
            return INVALID_INSTRUCTIONS;
        }
        if !self.is_stored(region) {
            return BAD_REGION;
        }
        let call = oracle::Call {
            before: &before,
            after: &after,
            instructions: &call.instructions,
            vault: &call.vault,
            slot: call.slot,
            lamports_before: call.lamports_before,
            lamports_after: call.lamports_after,
            gross: call.gross,
        };
        self.0.judge(region, &call)
    }
}

/// The published code with document 02's token accounts (W-204): a record that
/// it alone takes for one is handed over under an owner that is no token program.
/// Where there is none, it is the published code.
#[derive(Clone, Copy)]
pub struct Amended(pub Published);

impl Subject for Amended {
    fn create(&mut self, region: &[u8]) -> u32 {
        self.0.create(region)
    }

    fn judge(&mut self, region: &mut [u8], call: &Call) -> u32 {
        let mut call = call.clone();
        for bytes in [&mut call.before, &mut call.after] {
            let Some(mut records) = table::decode(bytes) else {
                continue;
            };
            for record in &mut records {
                if table::is_only_published(&record.owner, &record.data) {
                    record.owner = NO_TOKEN_PROGRAM;
                }
            }
            *bytes = table::encode(&records);
        }
        self.0.judge(region, &call)
    }
}

/// An owner that is no token program.
const NO_TOKEN_PROGRAM: Key = [0; 32];

/// The port behind its C boundary, linked into this process.
#[derive(Clone, Copy)]
pub struct Archive;

impl Subject for Archive {
    fn create(&mut self, region: &[u8]) -> u32 {
        number(thimbleford::create(region))
    }

    fn judge(&mut self, region: &mut [u8], call: &Call) -> u32 {
        number(thimbleford::judge(region, &call.lent()))
    }
}

fn number(answer: Result<(), Refusal>) -> u32 {
    answer.map_or_else(|refusal| refusal.number(), |()| 0)
}
