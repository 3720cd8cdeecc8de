//! Judged calls as the program reads them: a replay's input of one call.

use oracle::Oracle;

use super::{named, token_accounts, Case, Kind};
use crate::{
    bytes::{hex, Cursor},
    calls::{self, Call},
    chance::Chance,
    numbers,
    replay::frame::{opening, read_opening, Head, MAX_PARTS},
    subjects::{Amended, Published, Subject},
};

/// The line of a judged call, and its sort.
pub fn answer(oracle: &Oracle, payload: Cursor) -> Option<(String, &'static str)> {
    let (mut region, call) = decode(payload)?;
    let number = Amended(Published(*oracle)).judge(&mut region, &call);
    let line = format!("{number} {}", hex(&region));
    Some((line, numbers::name(number)))
}

/// The named calls, and after those by chance.
pub fn nth(chance: &mut Chance, number: u64) -> Vec<u8> {
    match named().get(number as usize) {
        Some((region, call)) => encode(region, call),
        None => draw(chance),
    }
}

fn named() -> Vec<(Vec<u8>, Call)> {
    let calls = named::calls()
        .into_iter()
        .map(|(_, region, call)| (region, call));
    let on_accounts = token_accounts::calls().into_iter();
    calls
        .chain(on_accounts.map(|(_, region, call)| (region, call)))
        .collect()
}

/// How many records a drawn case is left out for: those that only the published
/// code takes for token accounts.
pub fn left_out(number: u64, case: &Case) -> usize {
    if case.kind != Kind::Judge || number < named().len() as u64 {
        return 0;
    }
    decode(Cursor::new(&case.payload)).map_or(0, |(_, call)| call.only_published())
}

/// A region and a call that the program reads.
fn draw(chance: &mut Chance) -> Vec<u8> {
    loop {
        let (region, call) = calls::draw(chance);
        if call.parts_len() <= MAX_PARTS {
            return encode(&region, &call);
        }
    }
}

fn encode(region: &[u8], call: &Call) -> Vec<u8> {
    [opening(region), call.encode()].concat()
}

fn decode(mut payload: Cursor) -> Option<(Vec<u8>, Call)> {
    let region = read_opening(&mut payload)?;
    let call = Head::read(&mut payload)?.read_parts(&mut payload)?;
    Some((region, call))
}

#[cfg(test)]
mod tests {
    use super::*;
    use crate::region::{lasting, Rule};

    /// A region of one limit on SOL, and a call that takes 7 of it.
    fn limited(remaining: u64) -> (Vec<u8>, Call) {
        let call = Call {
            before: vec![0, 0],
            after: vec![0, 0],
            instructions: vec![0],
            vault: [1; 32],
            slot: 2,
            lamports_before: 10,
            lamports_after: 3,
            gross: 7,
        };
        (lasting(&[Rule::SolLimit(remaining)]), call)
    }

    #[test]
    fn a_call_comes_back() {
        let (region, call) = limited(9);
        let bytes = encode(&region, &call);
        assert_eq!(bytes.len(), 2 + 19 + 76 + 5);
        let (again, call_again) = decode(Cursor::new(&bytes)).unwrap();
        assert_eq!(encode(&again, &call_again), bytes);
        assert_eq!(again, region);
        for len in 0..bytes.len() {
            assert!(decode(Cursor::new(&bytes[..len])).is_none());
        }
    }

    #[test]
    #[cfg_attr(not(oracle_sources), ignore)]
    fn calls() {
        let oracle = Oracle::find().expect("ignored where the sources were not found");
        let says = |(region, call): (Vec<u8>, Call), expected: &str| {
            let payload = encode(&region, &call);
            let (line, _) = answer(&oracle, Cursor::new(&payload)).unwrap();
            assert_eq!(line, expected);
        };
        let region = "0108000000000000000000";
        says(limited(9), &format!("0 {region}0200000000000000"));
        says(limited(6), &format!("7 {region}0600000000000000"));
        let (_, call) = limited(9);
        says((vec![], call.clone()), "0 ");
        says((vec![1], call.clone()), "15 01");
        let table = Call {
            after: vec![0],
            ..call
        };
        says((vec![], table), "13 ");
    }
}
