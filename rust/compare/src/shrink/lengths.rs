//! Shorter data of records that are longer than a token account.

use super::parts::with_data_of;
use crate::{
    calls::Call,
    table::{self, TOKEN_ACCOUNT},
};

/// The call with less data of one record, the largest steps first.
pub fn shortened(call: &Call) -> impl Iterator<Item = Call> + '_ {
    let before = tables(&call.before).map(|before| Call {
        before,
        ..call.clone()
    });
    let after = tables(&call.after).map(|after| Call {
        after,
        ..call.clone()
    });
    before.chain(after)
}

fn tables(bytes: &[u8]) -> impl Iterator<Item = Vec<u8>> {
    let records = table::decode(bytes).unwrap_or_default();
    let mut places = Vec::new();
    for (at, record) in records.iter().enumerate() {
        places.extend(lengths(record.data.len()).map(|len| (at, len)));
    }
    let places = places.into_iter();
    places.map(move |(at, len)| with_data_of(&records, at, len))
}

/// A length without all that a longer account of Token-2022 can do without, half
/// of that, and so on down to one byte.
fn lengths(len: usize) -> impl Iterator<Item = usize> {
    let most = len.saturating_sub(TOKEN_ACCOUNT + 1);
    let steps = (0..usize::BITS).map(move |halvings| most >> halvings);
    let steps = steps.take_while(|step| *step > 0);
    steps.map(move |step| len - step)
}

#[cfg(test)]
mod tests {
    use super::*;
    use crate::{runs::Run, shrink::smallest, table::Record, table::LONGEST};

    /// Two accounts of the longest data, in both tables.
    fn longest() -> Run {
        let record = |key| Record {
            key: [key; 32],
            owner: [3; 32],
            data: vec![4; LONGEST],
        };
        let records = [record(1), record(2)];
        Run {
            region: vec![],
            calls: vec![Call::quiet([5; 32], &records, &records)],
        }
    }

    /// What is wrong with records of so many bytes or more is shown on one of just
    /// so many.
    #[test]
    fn a_long_record_is_as_short_as_it_can_be() {
        for least in [200, 65_536, LONGEST] {
            let run = smallest(longest(), &mut |run| {
                let records = table::cut(&run.calls[0].before).unwrap();
                records.iter().any(|record| record.data.len() >= least)
            });
            let lengths = [&run.calls[0].before, &run.calls[0].after].map(|bytes| bytes.len());
            assert_eq!(lengths, [2 + 68 + least, 2]);
        }
    }
}
