//! The oracle without its sources: nobody can have one, so no function of it
//! can be called.

use crate::{Call, Instruction, Oracle, Record};

#[allow(missing_docs)]
impl Oracle {
    /// The oracle, where the published sources were found, else where they were
    /// looked for. They were not found.
    pub fn find() -> Result<Self, &'static str> {
        Err(env!("LAZORKIT_ABSENT"))
    }

    pub fn create(&self, _region: &[u8]) -> u32 {
        match self.0 {}
    }

    pub fn read(&self, _bytes: &[u8]) -> Result<(Vec<Instruction>, usize), u32> {
        match self.0 {}
    }

    pub fn write(&self, _source: &[u8], _list: &[Instruction]) -> Vec<u8> {
        match self.0 {}
    }

    pub fn resolve(&self, _accounts: &[Record], _source: &[u8], _entry: &Instruction) -> u32 {
        match self.0 {}
    }

    pub fn judge(&self, _region: &mut [u8], _call: &Call) -> u32 {
        match self.0 {}
    }

    pub fn read_u64(&self, _data: &[u8], _place: usize) -> u64 {
        match self.0 {}
    }

    pub fn write_u64(&self, _data: &mut [u8], _place: usize, _value: u64) {
        match self.0 {}
    }
}
