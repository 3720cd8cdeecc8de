//! Regions: what is built is created, what is stored is read.

use std::collections::BTreeMap;

use compare::{calls, chance::Chance, creation, region, runs, subjects::Subject};
use thimbleford::{region as cosigner, Refusal};

use crate::{published, typed, CASES};

/// Builds the actions of drawn regions: where creation accepts the same bytes
/// come out, and else the error is creation's refusal.
fn builds_as_created(mut create: impl FnMut(&[u8]) -> u32) {
    let mut answered = BTreeMap::new();
    for case in 0..CASES {
        let bytes = creation::draw(&mut Chance::of_case(3, "build", case));
        let Some(actions) = region::cut(&bytes) else {
            continue;
        };
        let number = create(&bytes);
        let built = cosigner::build(&typed(&actions));
        let expected = if number == 0 { Ok(bytes) } else { Err(number) };
        let built = built.map_err(|error| error.refusal().number());
        assert_eq!(built, expected, "case {case}: {actions:?}");
        *answered.entry(number).or_insert(0) += 1;
    }
    let often = |number| {
        answered
            .get(&number)
            .is_some_and(|times| *times > CASES / 20)
    };
    assert!([0, 1, 2].into_iter().all(often), "{answered:?}");
}

#[test]
fn what_is_built_is_created() {
    builds_as_created(|region| thimbleford::create(region).map_or_else(Refusal::number, |()| 0));
}

#[test]
#[cfg_attr(not(oracle_sources), ignore)]
fn what_is_built_is_created_by_the_published_code() {
    builds_as_created(|region| published().create(region));
}

/// Reads drawn regions, sound and damaged: those in stored form are read as what
/// they hold, and no others.
fn reads_what_is_stored(mut is_stored: impl FnMut(&[u8]) -> bool) {
    let (mut stored, mut others) = (0, 0);
    for case in 0..CASES {
        let chance = &mut Chance::of_case(3, "read", case);
        for region in [creation::draw(chance), calls::draw(chance).0] {
            let read = cosigner::read(&region);
            assert_eq!(read.is_ok(), is_stored(&region), "case {case}: {read:?}");
            match read {
                Ok(actions) => {
                    let cut = region::cut(&region).expect("what is stored is cut");
                    assert_eq!(actions, typed(&cut), "case {case}");
                    stored += 1;
                }
                Err(_) => others += 1,
            }
        }
    }
    assert!(
        stored > CASES / 2 && others > CASES / 5,
        "{stored} and {others}"
    );
}

/// A call that nothing refuses on a stored region: it spends nothing and runs
/// nothing.
const QUIET: thimbleford::Call<'static> = thimbleford::Call {
    before: &[0, 0],
    after: &[0, 0],
    instructions: &[0],
    vault: &[0; 32],
    slot: 0,
    lamports_before: 0,
    lamports_after: 0,
    gross: 0,
};

#[test]
fn what_is_read_is_judged() {
    reads_what_is_stored(|region| {
        let answer = thimbleford::judge(&mut region.to_vec(), &QUIET);
        assert!(matches!(answer, Ok(()) | Err(Refusal::BadRegion)));
        answer.is_ok()
    });
}

#[test]
#[cfg_attr(not(oracle_sources), ignore)]
fn what_is_read_is_stored_by_the_published_rules() {
    reads_what_is_stored(|region| published().is_stored(region));
}

#[test]
fn what_is_stored_is_built_again_once_it_is_fresh() {
    let (mut used, mut raised) = (0, 0);
    for case in 0..CASES {
        let chance = &mut Chance::of_case(3, "renewed", case);
        let Ok(stored) = cosigner::read(&calls::draw(chance).0) else {
            continue;
        };
        let fresh: Vec<_> = stored.iter().map(|action| action.fresh()).collect();
        used += u64::from(fresh != stored);
        let renewed = cosigner::build(&fresh).expect("what is fresh is built");
        assert_eq!(thimbleford::create(&renewed), Ok(()), "case {case}");

        let by = 1 + chance.below(100) as u64;
        for (action, fresh) in stored.iter().zip(&fresh) {
            // At a slot where nothing is expired and, where it recurs, no window has begun.
            let allowed = |action: &cosigner::Action| action.remaining(0);
            let more = allowed(fresh).and_then(|amount| amount.checked_add(by));
            let more = more.filter(|amount| *amount < u64::MAX);
            assert_eq!(
                fresh.raised(by).and_then(|a| allowed(&a)),
                more,
                "{action:?}"
            );
            raised += u64::from(more.is_some());
        }
    }
    assert!(used > CASES / 10 && raised > CASES, "{used}, {raised}");
}

#[test]
#[cfg_attr(not(oracle_sources), ignore)]
fn after_each_call_of_a_run_the_amounts_are_those_that_the_published_code_left() {
    let mut right = published();
    let (mut accepted, mut refused) = (0, 0);
    let drawn = (0..60).map(|case| (case, runs::draw(&mut Chance::of_case(3, "run", case))));
    for (case, run) in drawn.filter(|(_, run)| run.only_published() == 0) {
        let (mut region, mut expected) = (run.region.clone(), run.region);
        for call in &run.calls {
            let answer = thimbleford::judge(&mut region, &call.lent());
            let number = right.judge(&mut expected, call);
            assert_eq!(answer.map_or_else(Refusal::number, |()| 0), number);
            let left = region::cut(&expected).expect("what is stored is cut");
            assert_eq!(cosigner::read(&region), Ok(typed(&left)), "case {case}");
            *(if number == 0 {
                &mut accepted
            } else {
                &mut refused
            }) += 1;
        }
    }
    assert!(accepted > 100 && refused > 100, "{accepted} and {refused}");
}
