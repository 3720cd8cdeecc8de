//! Account tables: what is built is cut into the same records, and read as them.

use compare::{
    chance::Chance,
    damage::damage,
    table::{self, MAX_RECORDS},
    world::World,
};
use thimbleford::{
    judge,
    table::{build, read, Record, TableFault},
    Call, Key, Refusal,
};

use crate::CASES;

/// A record as the co-signer's crate has it.
fn lent(record: &table::Record) -> Record<'_> {
    Record {
        key: Key(record.key),
        owner: Key(record.owner),
        data: &record.data,
    }
}

#[test]
fn a_table_comes_back_as_its_records() {
    let (mut built, mut full, mut over) = (0, 0, 0);
    for case in 0..CASES {
        let chance = &mut Chance::of_case(3, "table", case);
        let mut records = World::draw(chance).before(chance);
        if records.len() == MAX_RECORDS && chance.one_in(2) {
            records.push(records[0].clone());
        }
        let lent: Vec<_> = records.iter().map(lent).collect();
        match build(&lent) {
            Ok(bytes) => {
                built += 1;
                full += u32::from(lent.len() == MAX_RECORDS);
                assert_eq!(table::decode(&bytes), Some(records), "case {case}");
            }
            Err(error) => {
                let count = MAX_RECORDS + 1;
                assert_eq!(error.fault, TableFault::TooManyRecords { count });
                assert_eq!(table::decode(&table::encode(&records)), None);
                over += 1;
            }
        }
    }
    assert!(
        built > 1000 && full > 5 && over > 5,
        "{built}, {full}, {over}"
    );
}

#[test]
fn a_table_is_read_where_the_judge_takes_it() {
    let (mut sound, mut others) = (0, 0);
    for case in 0..CASES {
        let chance = &mut Chance::of_case(3, "table read", case);
        let mut bytes = table::encode(&World::draw(chance).before(chance));
        if chance.one_in(2) {
            damage(chance, &mut bytes);
        }
        let judged = judge(
            &mut [],
            &Call {
                before: &bytes,
                after: &[0, 0],
                instructions: &[0],
                vault: &[7; 32],
                slot: 0,
                lamports_before: 0,
                lamports_after: 0,
                gross: 0,
            },
        );
        let records = table::decode(&bytes).unwrap_or_default();
        match read(&bytes) {
            Ok(read) => {
                assert_eq!(judged, Ok(()), "case {case}");
                let records: Vec<_> = records.iter().map(lent).collect();
                assert_eq!(read, records, "case {case}");
                sound += 1;
            }
            Err(error) => {
                assert_eq!(judged, Err(Refusal::BadTable), "case {case}: {error}");
                assert_eq!(error.refusal(), Refusal::BadTable);
                others += 1;
            }
        }
    }
    assert!(sound > 1000 && others > 1000, "{sound}, {others}");
}
