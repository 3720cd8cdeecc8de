//! The archive on damaged inputs and on every record, where the published code
//! has no answer to compare with or another: the answer is one of the table, a
//! refusal changed no byte, and both are what a second reading of the documents
//! says.

mod reading;

use std::collections::BTreeMap;

use compare::{
    bytes::{change_bit, hex, Cursor},
    calls,
    chance::Chance,
    creation,
    damage::damage,
    numbers::{CREATION, JUDGING, WRITING},
    region::{self, Rule},
    table::{self, Layout, SPL_TOKEN, TOKEN_2022},
    vectors::{self, Kind},
};
use oracle::Oracle;
use reading::{Entry, Inputs};

/// So many cases are drawn.
const CASES: u64 = 20_000;

/// Each of these is met so often.
const OFTEN: u64 = 20;

/// Judges through the archive and holds the answer beside the second reading.
fn judged(region: &[u8], inputs: &Inputs) -> u32 {
    let call = thimbleford::Call {
        before: &inputs.before,
        after: &inputs.after,
        instructions: &inputs.instructions,
        vault: &inputs.vault,
        slot: inputs.slot,
        lamports_before: inputs.lamports_before,
        lamports_after: inputs.lamports_after,
        gross: inputs.gross,
    };
    let mut after = region.to_vec();
    let answer = thimbleford::judge(&mut after, &call);
    let number = answer.map_or_else(|refusal| refusal.number(), |()| 0);
    assert!(JUDGING.contains(&number), "{number} is no answer to a call");
    if number != 0 {
        assert_eq!(after, region, "{number} wrote to {}", hex(region));
    }
    let expected = reading::judge(region, inputs);
    assert_eq!((number, after), expected, "on {}", hex(region));
    number
}

/// A drawn call as the second reading takes it.
fn inputs(call: calls::Call) -> Inputs {
    Inputs {
        before: call.before,
        after: call.after,
        instructions: call.instructions,
        vault: call.vault.to_vec(),
        slot: call.slot,
        lamports_before: call.lamports_before,
        lamports_after: call.lamports_after,
        gross: call.gross,
    }
}

/// A region and a call of which up to two parts are damaged, so that which of
/// them decides is seen.
fn damaged(chance: &mut Chance) -> (Vec<u8>, Inputs) {
    let (mut region, call) = calls::draw(chance);
    let mut inputs = inputs(call);
    for _ in 0..chance.below(3) {
        match chance.below(6) {
            0 => damage(chance, &mut region),
            1 => damage(chance, &mut inputs.before),
            2 => damage(chance, &mut inputs.after),
            3 => damage(chance, &mut inputs.instructions),
            4 => damage(chance, &mut inputs.vault),
            // The header of the first action, or the count of a table.
            _ => {
                let part = [&mut region, &mut inputs.before, &mut inputs.after];
                let part = part.into_iter().nth(chance.below(3)).unwrap();
                let end = part.len().min(11);
                if end > 0 {
                    part[chance.below(end)] = chance.draw() as u8;
                }
            }
        }
    }
    (region, inputs)
}

#[test]
fn damaged_calls() {
    let mut met = BTreeMap::new();
    for case in 0..CASES {
        let (region, inputs) = damaged(&mut Chance::of_case(1, "damaged", case));
        *met.entry(judged(&region, &inputs)).or_insert(0) += 1;
    }
    for number in JUDGING {
        assert!(met.get(&number) >= Some(&OFTEN), "{number}: {met:?}");
    }
}

/// Records of every length under both token programs and a third, with each
/// byte 165 near those that say something: in a sum, and on both sides of the
/// freeze.
#[test]
fn records_of_every_length() {
    let (vault, mint) = ([9; 32], [7; 32]);
    let record = |owner, len, mark, amount| {
        let layout = Layout::new(owner, len, mark);
        table::encode(&[layout.record([1; 32], &mint, &vault, amount)])
    };
    let region = region::lasting(&[Rule::TokenLimit(mint, 5)]);
    let mut met = BTreeMap::new();
    let mut end = |before: Vec<u8>, after: Vec<u8>| {
        let call = Inputs {
            before,
            after,
            instructions: vec![0],
            vault: vault.to_vec(),
            slot: 1,
            lamports_before: 0,
            lamports_after: 0,
            gross: 0,
        };
        *met.entry(judged(&region, &call)).or_insert(0) += 1;
    };
    let plain = record(SPL_TOKEN, 165, 0, 6);
    for owner in [SPL_TOKEN, TOKEN_2022, [5; 32]] {
        for len in 0..=800 {
            for mark in 0..=4 {
                let is = |amount| record(owner, len, mark, amount);
                end(is(6), is(0));
                end(is(6), table::encode(&[]));
                end(plain.clone(), is(6));
            }
        }
    }
    for number in [0, 10, 12] {
        assert!(met.get(&number) >= Some(&OFTEN), "{number}: {met:?}");
    }
}

#[test]
fn vault_keys_of_other_lengths() {
    let (actions, call) = calls::sound(&mut Chance::new(1));
    let region = region::encode(&actions);
    for len in (0..200).filter(|len| *len != 32) {
        let vault = call.vault.iter().copied().cycle().take(len).collect();
        let inputs = Inputs {
            vault,
            ..inputs(call.clone())
        };
        assert_eq!(judged(&region, &inputs), 13);
    }
}

/// A call that is accepted, with several actions, records and instructions, and
/// an account that is frozen.
fn accepted() -> (Vec<u8>, Inputs) {
    let drawn = (0..).map(|case| calls::sound(&mut Chance::of_case(1, "accepted", case)));
    let wanted = drawn.filter(|(actions, call)| {
        actions.len() > 4 && call.instructions[0] > 1 && (800..3000).contains(&call.before.len())
    });
    let mut cases = wanted.map(|(actions, call)| (region::encode(&actions), inputs(call)));
    let freezes = |region: &[u8], inputs: &Inputs| {
        let after = table::encode(&[]);
        let gone = Inputs {
            after,
            ..inputs.clone()
        };
        reading::judge(region, &gone).0 == 12
    };
    cases
        .find(|(region, inputs)| reading::judge(region, inputs).0 == 0 && freezes(region, inputs))
        .unwrap()
}

/// One part of a region and a call.
type Part = for<'a> fn(&'a mut Vec<u8>, &'a mut Inputs) -> &'a mut Vec<u8>;

/// All of them in turn.
const PARTS: [Part; 5] = [
    |region, _| region,
    |_, inputs| &mut inputs.before,
    |_, inputs| &mut inputs.after,
    |_, inputs| &mut inputs.instructions,
    |_, inputs| &mut inputs.vault,
];

/// An accepted call with one part cut short or longer, at every length.
#[test]
fn every_length_of_every_part() {
    let (region, inputs) = accepted();
    for part in PARTS {
        let len = part(&mut region.clone(), &mut inputs.clone()).len();
        let mut refused = 0;
        for other in 0..len + 12 {
            let (mut region, mut inputs) = (region.clone(), inputs.clone());
            part(&mut region, &mut inputs).resize(other, 0);
            refused += usize::from(judged(&region, &inputs) != 0);
        }
        // A region may end after each of its actions, instructions before other bytes.
        assert!(refused + 17 >= len, "{refused} of {len}");
    }
}

/// An accepted call with one bit of a part changed, at every place.
#[test]
fn every_bit_of_every_part() {
    let (region, inputs) = accepted();
    let mut met = BTreeMap::new();
    for part in PARTS {
        let len = part(&mut region.clone(), &mut inputs.clone()).len();
        for bit in 0..8 * len {
            let (mut region, mut inputs) = (region.clone(), inputs.clone());
            change_bit(part(&mut region, &mut inputs), bit);
            *met.entry(judged(&region, &inputs)).or_insert(0) += 1;
        }
    }
    for number in [0, 3, 12, 13, 15] {
        assert!(met.get(&number) >= Some(&OFTEN), "{number}: {met:?}");
    }
}

#[test]
fn damaged_regions_are_created_as_read() {
    let mut met = BTreeMap::new();
    for case in 0..CASES {
        let mut chance = Chance::of_case(1, "damaged region", case);
        let mut region = creation::draw(&mut chance);
        if chance.one_in(2) {
            damage(&mut chance, &mut region);
        }
        let number = thimbleford::create(&region).map_or_else(|r| r.number(), |()| 0);
        assert_eq!(number, reading::create(&region), "on {}", hex(&region));
        *met.entry(number).or_insert(0) += 1;
    }
    for number in CREATION {
        assert!(met.get(&number) >= Some(&OFTEN), "{number}: {met:?}");
    }
}

/// Writing is not behind the boundary. The lines that the program `vectors` is
/// held to are those of the second reading.
#[test]
#[cfg_attr(not(oracle_sources), ignore)]
fn lists_are_written_as_read() {
    let oracle = Oracle::find().expect("ignored where the sources were not found");
    let mut met = BTreeMap::new();
    for number in 0..2000 {
        let mut chance = Chance::of_case(1, Kind::Write.name(), number);
        let case = vectors::draw(&mut chance, Kind::Write, number);
        let (entries, room, source) = list(&case.payload).unwrap();
        let mut out = vec![0xee; room];
        let (number, written) = match reading::write(&entries, source, room) {
            Ok(bytes) => {
                out[..bytes.len()].copy_from_slice(&bytes);
                (0, bytes.len())
            }
            Err(number) => (number, 0),
        };
        let line = format!("{number} {written} {}", hex(&out));
        assert_eq!(vectors::answer(&oracle, &case).unwrap().line, line);
        *met.entry(number).or_insert(0) += 1;
    }
    for number in WRITING {
        assert!(met.get(&number) >= Some(&OFTEN), "{number}: {met:?}");
    }
}

/// The entries, the output's length and the source of a case of writing.
fn list(payload: &[u8]) -> Option<(Vec<Entry>, usize, &[u8])> {
    let mut payload = Cursor::new(payload);
    let [count] = payload.array()?;
    let entries = (0..count).map(|_| {
        let [program] = payload.array()?;
        let mut place = || usize::try_from(payload.u64()?).ok();
        Some(Entry {
            program,
            accounts: (place()?, place()?),
            data: (place()?, place()?),
        })
    });
    let entries = entries.collect::<Option<_>>()?;
    Some((entries, payload.length()?, payload.rest()))
}
