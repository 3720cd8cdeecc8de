//! Instructions: the published code reads what is built as the same list, and
//! resolves it where the builder lets its indexes pass. What it reads is read, and
//! nothing else.

use compare::{chance::Chance, damage::damage, stream::Entry, Key};
use oracle::{Instruction, Part, Record};
use thimbleford::{
    instructions::{build, read, CompactInstruction, InstructionsFault},
    Refusal,
};

use crate::{published, CASES};

/// Entries on a table of so many records, with an index past it now and then.
fn draw(chance: &mut Chance, records: usize) -> Vec<Entry> {
    let count = match chance.below(10) {
        0 => 16,
        1 => 17,
        few => few % 4,
    };
    let stray = chance.one_in(4);
    let mut entries: Vec<Entry> = (0..count).map(|_| Entry::draw(chance, 0)).collect();
    let indexes = entries
        .iter_mut()
        .flat_map(|entry| entry.accounts.iter_mut().chain([&mut entry.program]));
    for index in indexes {
        *index = match stray && chance.one_in(20) {
            true => (records + chance.below(2)) as u8,
            false => chance.below(records.max(1)) as u8,
        };
    }
    entries
}

fn lent(entry: &Entry) -> CompactInstruction<'_> {
    CompactInstruction {
        program_id_index: entry.program,
        accounts: &entry.accounts,
        data: &entry.data,
    }
}

#[test]
#[cfg_attr(not(oracle_sources), ignore)]
fn a_list_is_read_and_resolved_as_it_was_built() {
    let oracle = published().0;
    let key: Key = [1; 32];
    let record = Record {
        key,
        owner: key,
        data: vec![],
    };
    let (mut built, mut past, mut over) = (0, 0, 0);
    for case in 0..CASES {
        let chance = &mut Chance::of_case(3, "instructions", case);
        let records = chance.pick(&[0, 1, 3, 20, 64]);
        let entries = draw(chance, records);
        let list: Vec<_> = entries.iter().map(lent).collect();
        let table = vec![record.clone(); records];
        match build(&list, records) {
            Ok(bytes) => {
                let (read, consumed) = oracle.read(&bytes).expect("what is built is read");
                assert_eq!(consumed, bytes.len(), "case {case}");
                let read_back: Vec<_> = read.iter().map(|entry| named(&bytes, entry)).collect();
                assert_eq!(read_back, list, "case {case}");
                assert!(read.iter().all(|e| oracle.resolve(&table, &bytes, e) == 0));
                built += 1;
            }
            Err(error) => match error.fault {
                InstructionsFault::TooManyInstructions { count } => {
                    let bytes = compare::stream::encode(&entries);
                    assert_eq!((count, oracle.read(&bytes)), (17, Err(3)));
                    assert_eq!(error.refusal(), Refusal::NotEncodable);
                    over += 1;
                }
                InstructionsFault::IndexPastTable { instruction, .. } => {
                    // The entries before it resolve, and it does not.
                    let bytes = compare::stream::encode(&entries);
                    let (read, _) = oracle.read(&bytes).expect("it is a list all the same");
                    let mut numbers = read.iter().map(|e| oracle.resolve(&table, &bytes, e));
                    assert_eq!(numbers.position(|number| number == 3), Some(instruction));
                    assert_eq!(error.refusal(), Refusal::InvalidInstructionData);
                    past += 1;
                }
                _ => panic!("case {case}: {error}"),
            },
        }
    }
    assert!(
        built > 1000 && past > 100 && over > 100,
        "{built}, {past}, {over}"
    );
}

#[test]
#[cfg_attr(not(oracle_sources), ignore)]
fn a_list_is_read_as_the_published_code_reads_it() {
    let oracle = published().0;
    let (mut sound, mut others) = (0, 0);
    for case in 0..CASES {
        let chance = &mut Chance::of_case(3, "instructions read", case);
        let mut bytes = compare::stream::encode(&draw(chance, 8));
        if chance.one_in(2) {
            damage(chance, &mut bytes);
        }
        match oracle.read(&bytes) {
            Ok((list, consumed)) => {
                let read = read(&bytes).expect("what the published code reads is read");
                let list: Vec<_> = list.iter().map(|entry| named(&bytes, entry)).collect();
                assert_eq!((read.list, read.consumed), (list, consumed), "case {case}");
                sound += 1;
            }
            Err(number) => {
                let error = read(&bytes).expect_err("what it refuses is not read");
                assert_eq!(error.refusal().number(), number, "case {case}");
                others += 1;
            }
        }
    }
    assert!(sound > 1000 && others > 500, "{sound}, {others}");
}

/// The instruction that an entry names in its source.
fn named<'a>(source: &'a [u8], entry: &Instruction) -> CompactInstruction<'a> {
    let bytes = |part: Part| &source[part.at..][..part.len];
    CompactInstruction {
        program_id_index: entry.program,
        accounts: bytes(entry.accounts),
        data: bytes(entry.data),
    }
}
