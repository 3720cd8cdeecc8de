//! A dry run answers as the judge does, and settles nothing.

use std::collections::BTreeMap;

use compare::{calls, chance::Chance};
use thimbleford::{dry_run, judge, region::MAX_BYTES, Refusal};

use crate::CASES;

#[test]
fn a_dry_run_answers_as_the_judge() {
    let mut answered = BTreeMap::new();
    for case in 0..CASES {
        let chance = &mut Chance::of_case(3, "dry run", case);
        let (mut region, call) = calls::draw(chance);
        if chance.one_in(10) {
            // Longer than a stored region, by one byte or by more, cut anywhere.
            let len = MAX_BYTES + chance.pick(&[0, 1, 2, 800]);
            region = region
                .iter()
                .copied()
                .chain([0])
                .cycle()
                .take(len)
                .collect();
        }
        let answer = dry_run(&region, &call.lent());
        assert_eq!(answer, judge(&mut region, &call.lent()), "case {case}");
        *answered
            .entry(answer.map_or_else(Refusal::number, |()| 0))
            .or_insert(0) += 1;
    }
    let numbers: Vec<u32> = answered.into_keys().collect();
    assert_eq!(numbers, [0, 3, 4, 5, 6, 7, 8, 9, 10, 11, 12, 13, 15]);
}
