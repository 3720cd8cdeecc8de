//! The bytes of a replay's input: the region that it opens with, and each call
//! as its head and its parts.

use crate::{bytes::Cursor, calls::Call, runs::Run, Key};

/// The most bytes that the parts of a call may have together: both tables and
/// the instructions.
pub const MAX_PARTS: usize = 60_000;

/// A region after its length.
pub fn opening(region: &[u8]) -> Vec<u8> {
    [&(region.len() as u16).to_le_bytes()[..], region].concat()
}

/// The region of an opening, or nothing where the input stops inside.
pub fn read_opening(input: &mut Cursor) -> Option<Vec<u8>> {
    let len = u16::from_le_bytes(input.array()?);
    Some(input.take(len.into())?.to_vec())
}

/// What stands before a call's parts. The lengths are what it says of them.
#[derive(Clone, Copy, Debug, PartialEq, Eq)]
pub struct Head {
    /// The slot, the lamports before and after, and the gross outflow.
    pub numbers: [u64; 4],
    /// The lengths of the table before, the table after and the instructions.
    pub lengths: [usize; 3],
    /// The vault's key.
    pub vault: Key,
}

impl Head {
    /// The head that a call has.
    pub fn of(call: &Call) -> Self {
        Self {
            numbers: [
                call.slot,
                call.lamports_before,
                call.lamports_after,
                call.gross,
            ],
            lengths: call.parts().map(<[u8]>::len),
            vault: call.vault,
        }
    }

    /// The bytes of the head.
    pub fn encode(&self) -> Vec<u8> {
        let numbers = self.numbers.map(u64::to_le_bytes).concat();
        let lengths = self.lengths.map(|len| (len as u32).to_le_bytes()).concat();
        [&numbers[..], &lengths, &self.vault].concat()
    }

    /// The head that comes next, or nothing where the input stops inside.
    pub fn read(input: &mut Cursor) -> Option<Self> {
        Some(Self {
            numbers: [input.u64()?, input.u64()?, input.u64()?, input.u64()?],
            lengths: [input.length()?, input.length()?, input.length()?],
            vault: input.array()?,
        })
    }

    /// The call whose parts come next, or nothing where the input stops inside.
    pub fn read_parts(self, input: &mut Cursor) -> Option<Call> {
        let mut part = |len| Some(input.take(len)?.to_vec());
        let [before, after, instructions] = self.lengths;
        let [slot, lamports_before, lamports_after, gross] = self.numbers;
        Some(Call {
            before: part(before)?,
            after: part(after)?,
            instructions: part(instructions)?,
            vault: self.vault,
            slot,
            lamports_before,
            lamports_after,
            gross,
        })
    }
}

impl Call {
    fn parts(&self) -> [&[u8]; 3] {
        [&self.before, &self.after, &self.instructions]
    }

    /// How many bytes the parts have together.
    pub fn parts_len(&self) -> usize {
        self.parts().map(<[u8]>::len).iter().sum()
    }

    /// The bytes of the call.
    pub fn encode(&self) -> Vec<u8> {
        [Head::of(self).encode(), self.parts().concat()].concat()
    }

    /// The call's fields in order, and how many bytes each has.
    pub fn layout(&self) -> [(&'static str, usize); 11] {
        let [before, after, instructions] = self.parts().map(<[u8]>::len);
        [
            ("slot", 8),
            ("before", 8),
            ("after", 8),
            ("gross", 8),
            ("table-before-length", 4),
            ("table-after-length", 4),
            ("instructions-length", 4),
            ("vault-key", 32),
            ("table-before", before),
            ("table-after", after),
            ("instructions", instructions),
        ]
    }
}

impl Run {
    /// The bytes of the run.
    pub fn encode(&self) -> Vec<u8> {
        let calls = self.calls.iter().flat_map(Call::encode);
        opening(&self.region).into_iter().chain(calls).collect()
    }
}

#[cfg(test)]
mod tests {
    use super::*;

    #[test]
    fn a_call_lies_as_the_document_has_it() {
        let call = Call {
            before: vec![9; 2],
            after: vec![8; 3],
            instructions: vec![7],
            vault: [6; 32],
            slot: 1,
            lamports_before: 2,
            lamports_after: 3,
            gross: 4,
        };
        let bytes = call.encode();
        let numbers = [1u64, 2, 3, 4].map(u64::to_le_bytes).concat();
        let lengths = [2u32, 3, 1].map(u32::to_le_bytes).concat();
        let parts = [9, 9, 8, 8, 8, 7];
        assert_eq!(bytes, [&numbers[..], &lengths, &[6; 32], &parts].concat());
        let fields: usize = call.layout().iter().map(|(_, len)| len).sum();
        assert_eq!((fields, bytes.len()), (bytes.len(), 76 + call.parts_len()));
        let read = |input: &[u8]| {
            let mut input = Cursor::new(input);
            Head::read(&mut input)?.read_parts(&mut input)
        };
        for len in 0..bytes.len() {
            assert_eq!(read(&bytes[..len]), None);
        }
        assert_eq!(read(&bytes), Some(call));
    }
}
