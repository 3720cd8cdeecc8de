//! What the drawn cases reach.

use std::ops::RangeInclusive;

use compare::{
    breach::{Breach, BREACHES},
    calls::{self, Call},
    chance::Chance,
    creation,
    long_records::{self, LONG},
    numbers::{self, CREATION, JUDGING, RUNNING},
    region,
    report::{LeftOut, Outcome},
    runner::{self, CREATE, JUDGE, RUN},
    runs::Run,
    stream,
    subjects::{Archive, Published, Subject},
    table::{self, Record, LONGEST, TOKEN_ACCOUNT},
    vectors::{answer, draw, Kind, KINDS},
};
use oracle::Oracle;

const CASES: u64 = 3000;

fn published() -> Published {
    Published(Oracle::find().expect("ignored where the sources were not found"))
}

/// Written past the test harness, which keeps what a passing test prints.
#[test]
#[cfg(not(oracle_sources))]
fn says_that_the_comparison_is_not_run() {
    use std::io::{self, Write};
    let absent = Oracle::find().expect_err("the sources were not found");
    writeln!(io::stderr(), "{} {absent}", compare::NOTHING_COMPARED).unwrap();
}

#[test]
#[cfg_attr(not(oracle_sources), ignore)]
fn every_number_is_answered_often() {
    let mut right = published();
    let report = runner::compare(&mut right.clone(), &mut right, 1, 2 * CASES);
    for (function, numbers) in [(CREATE, &CREATION[..]), (JUDGE, &JUDGING), (RUN, &RUNNING)] {
        // The calls of a run have much in common.
        let often = CASES / if function == RUN { 300 } else { 100 };
        for number in numbers {
            let times = report.answered(function, numbers::name(*number));
            assert!(times > often, "{report}");
        }
    }
}

/// The token rules agree on most calls that are drawn, among them calls with
/// longer accounts of Token-2022, and part on some.
#[test]
fn longer_accounts_are_compared_and_some_calls_are_left_out() {
    let (mut compared, mut longer) = (0, 0);
    for case in 0..CASES {
        let (_, call) = calls::draw(&mut Chance::of_case(1, JUDGE, case));
        if call.only_published() > 0 {
            continue;
        }
        compared += 1;
        let tables = [&call.before, &call.after].map(|bytes| table::decode(bytes));
        let mut records = tables.into_iter().flatten().flatten();
        let is_longer =
            |r: Record| table::is_token_account(&r.owner, &r.data) && r.data.len() > TOKEN_ACCOUNT;
        longer += u64::from(records.any(is_longer));
    }
    assert!(
        (CASES * 3 / 4..CASES * 19 / 20).contains(&compared),
        "{compared}"
    );
    assert!(longer > CASES / 10, "{longer}");
}

#[test]
#[cfg_attr(not(oracle_sources), ignore)]
fn what_is_left_out_is_counted() {
    let mut right = published();
    let report = runner::compare(&mut right.clone(), &mut right, 1, CASES);
    for function in [JUDGE, RUN] {
        let LeftOut { calls, records } = report.left_out(function);
        assert!(calls > 0 && records > 0, "{report}");
        let line = format!("{calls:>10}  left out: the token rules part on {records} records");
        assert!(report.to_string().contains(&line), "{report}");
    }
    assert_eq!(report.left_out(CREATE), LeftOut::default());
}

/// The runner lengthens records of one call in some thousands.
#[test]
fn calls_with_long_records_are_drawn() {
    for function in [JUDGE, RUN] {
        let is_long = |run: &Run| run.calls.iter().any(|call| call.long_record().is_some());
        let mut drawn = (0..20_000).map(|case| runner::draw(function, 1, case));
        assert!(drawn.any(|run| is_long(&run)), "{function}");
    }
}

/// Of every length and in both tables, as token accounts and as records that
/// belong to no token program.
#[test]
#[cfg_attr(not(oracle_sources), ignore)]
fn both_sides_agree_on_long_records() {
    let mut right = published();
    let (mut numbers, mut long) = (Vec::new(), Vec::new());
    for case in 0..80 {
        let mut chance = Chance::of_case(1, JUDGE, case);
        let (region, mut call) = calls::draw(&mut chance);
        long_records::lengthen(&mut chance, &mut call);
        if call.only_published() > 0 || call.long_record().is_none() {
            continue;
        }
        for (table, bytes) in [("before", &call.before), ("after", &call.after)] {
            let records = table::cut(bytes).unwrap().into_iter();
            for record in records.filter(|record| record.data.len() >= LONG) {
                let is_account = table::is_token_account(&record.owner, record.data);
                long.push((table, is_account, record.data.len()));
            }
        }
        let run = Run {
            region,
            calls: vec![call],
        };
        let mut count = |number| numbers.push(number);
        let parting = runner::parting(&mut right, &mut Archive, &run, &mut count);
        assert!(parting.is_none(), "case {case}");
    }
    let accepted = numbers.iter().filter(|number| **number == 0).count();
    assert!(accepted > 10 && numbers.contains(&12), "{numbers:?}");
    for table in ["before", "after"] {
        let there = |is_account, lengths: RangeInclusive<usize>| {
            let record = |r: &(&str, bool, usize)| {
                (r.0, r.1) == (table, is_account) && lengths.contains(&r.2)
            };
            assert!(long.iter().any(record), "{table} {lengths:?}: {long:?}");
        };
        there(true, LONGEST..=LONGEST);
        for is_account in [false, true] {
            there(is_account, LONG..=LONG + 1);
            there(is_account, (1 << 20) + 2..=LONGEST);
        }
    }
}

#[test]
fn a_number_that_is_never_reached_is_no_difference() {
    /// Agrees with itself, and reaches next to nothing.
    struct Refuses;
    impl Subject for Refuses {
        fn create(&mut self, _: &[u8]) -> u32 {
            1
        }
        fn judge(&mut self, _: &mut [u8], _: &Call) -> u32 {
            3
        }
    }
    let report = runner::compare(&mut Refuses, &mut Refuses, 1, 50);
    assert_eq!(report.outcome(), Outcome::TooFew);
    let missing = report.missing();
    assert_eq!(missing.len(), 2 + 12 + 10);
    assert!(missing.contains(&(CREATE, "0 accepted")));
    let text = report.to_string();
    assert!(text.contains("never reached: judge, 7 Action"), "{text}");
    let last = "no difference, and too few cases: 24 answers were never reached\n";
    assert!(text.ends_with(last), "{text}");
}

#[test]
#[cfg_attr(not(oracle_sources), ignore)]
fn each_breach_has_its_number_alone_and_beside_another() {
    let mut right = published();
    // The first broken rule decides, and only (c) has the number 2.
    let number = |breaches: &[Breach]| {
        let conflict = BREACHES.iter().position(|b| *b == Breach::BothLists);
        let broken = breaches
            .iter()
            .map(|b| BREACHES.iter().position(|o| o == b));
        match broken.min() {
            None => 0,
            Some(first) if first == conflict => 2,
            Some(_) => 1,
        }
    };
    let pairs = BREACHES.iter().flat_map(|a| BREACHES.map(|b| vec![*a, b]));
    for breaches in pairs.chain(BREACHES.map(|b| vec![b])).chain([vec![]]) {
        for seed in 0..40 {
            let region = creation::region(&mut Chance::new(seed), &breaches);
            let expected = number(&breaches);
            assert_eq!(right.create(&region), expected, "{breaches:?}, seed {seed}");
        }
    }
}

#[test]
#[cfg_attr(not(oracle_sources), ignore)]
fn every_kind_of_vector_reaches_its_answers() {
    let Published(oracle) = published();
    for kind in KINDS {
        let cases = match kind {
            // It has the most answers, and most of its cases are accepted.
            Kind::Judge => CASES,
            // Hundreds are wanted by name, one of them the same.
            Kind::SameKey => 700,
            _ => 200,
        };
        let mut sorts = Vec::new();
        for number in 0..cases {
            let case = draw(&mut Chance::new(number), kind, number);
            sorts.push(answer(&oracle, &case).unwrap().sort);
        }
        for sort in kind.domain().answers {
            let times = sorts.iter().filter(|s| **s == sort).count();
            assert!(times >= 10, "{}: {sort} {times} times", kind.name());
        }
    }
}

#[test]
#[cfg_attr(not(oracle_sources), ignore)]
fn what_was_read_is_written_again() {
    let Published(oracle) = published();
    for seed in 0..CASES {
        let bytes = stream::draw(&mut Chance::new(seed));
        if let Ok((list, consumed)) = oracle.read(&bytes) {
            assert_eq!(
                oracle.write(&bytes, &list),
                bytes[..consumed],
                "seed {seed}"
            );
        }
    }
}

#[test]
#[cfg_attr(not(oracle_sources), ignore)]
fn a_refusal_leaves_the_region_as_it_was() {
    let mut right = published();
    for case in 0..CASES {
        let (region, call) = calls::draw(&mut Chance::of_case(1, JUDGE, case));
        let mut left = region.clone();
        if right.judge(&mut left, &call) != 0 {
            assert_eq!(left, region, "case {case}");
        }
    }
}

#[test]
#[cfg_attr(not(oracle_sources), ignore)]
fn a_region_that_creation_accepts_is_stored_and_cut() {
    let mut right = published();
    for case in 0..CASES {
        let region = creation::draw(&mut Chance::of_case(1, CREATE, case));
        if right.create(&region) == 0 {
            assert!(right.is_stored(&region), "case {case}");
        }
        if let Some(actions) = region::cut(&region) {
            assert_eq!(region::encode(&actions), region, "case {case}");
        }
    }
}
