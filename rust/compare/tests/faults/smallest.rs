//! The smallest case of a fault: it has little but what shows the fault, and
//! shows it again when it is read back.

use compare::{
    calls::Call,
    chance::Chance,
    region::{self, Action, Rule},
    runner::{parting, RUN},
    runs::{self, Run},
    stream,
    subjects::{Published, Subject},
    table::{self, TOKEN_ACCOUNT},
};

use super::{published, report, Faulty, Judge};

/// The smallest case that the runner finds of a fault, written and read again.
fn smallest(judge: Judge) -> Run {
    let report = report(judge);
    let run = report.smallest().expect("the fault is found");
    let again: Run = run.to_string().parse().unwrap();
    let right = published();
    let differs = parting(
        &mut right.clone(),
        &mut Faulty(right, judge),
        &again,
        &mut |_| {},
    );
    assert!(differs.is_some(), "{again}");
    again
}

/// The published code, but a number is taken for acceptance.
fn taken_for_0(right: &mut Published, region: &mut [u8], call: &Call, number: u32) -> u32 {
    let answer = right.judge(region, call);
    if answer == number {
        0
    } else {
        answer
    }
}

/// Its actions, its one call, and the records of that call's tables.
fn parts(run: &Run) -> (Vec<Action>, &Call, [usize; 2]) {
    let actions = region::cut(&run.region).expect("the fault is in a stored region");
    let [call] = &run.calls[..] else {
        panic!("one call shows the fault: {run}");
    };
    let records = [&call.before, &call.after].map(|bytes| table::decode(bytes).unwrap().len());
    (actions, call, records)
}

/// A limit of nothing, and a lamport.
#[test]
#[cfg_attr(not(oracle_sources), ignore)]
fn of_a_limit_that_is_not_asked() {
    let run = smallest(|right, region, call| taken_for_0(right, region, call, 7));
    let (actions, call, records) = parts(&run);
    let limit = Action {
        expires_at: 0,
        rule: Rule::SolLimit(0),
    };
    assert_eq!((actions, records), (vec![limit], [0, 0]));
    assert_eq!(call.instructions, [0]);
    assert_eq!((call.slot, call.gross), (0, 0));
    assert_eq!((call.lamports_before, call.lamports_after), (1, 0));
}

/// One action at one slot, with a decrease that its window does not allow.
#[test]
#[cfg_attr(not(oracle_sources), ignore)]
fn of_a_reset_at_the_window_itself() {
    let run = smallest(super::reset_at_the_window);
    let (actions, call, _) = parts(&run);
    let [action] = actions[..] else {
        panic!("one action shows the fault: {run}");
    };
    let mut rule = action.rule;
    let fields = rule.recurring_mut().expect("the fault is in a window");
    assert_eq!(call.slot - fields.last_reset, fields.window);
    assert!(fields.window <= 2 && call.slot <= 4, "{run}");
}

/// A frozen byte needs one account, before and after, and a listed mint.
#[test]
#[cfg_attr(not(oracle_sources), ignore)]
fn of_a_freeze_that_is_not_asked() {
    let run = smallest(|right, region, call| taken_for_0(right, region, call, 12));
    let (actions, call, [before, after]) = parts(&run);
    assert_eq!((actions.len(), before), (1, 1));
    assert!(after <= 1, "{run}");
    assert!(call.before.len() <= 2 + 68 + TOKEN_ACCOUNT);
}

/// A program that is not listed needs one list entry and one instruction.
#[test]
#[cfg_attr(not(oracle_sources), ignore)]
fn of_a_list_that_is_not_asked() {
    let run = smallest(|right, region, call| taken_for_0(right, region, call, 4));
    let (actions, call, records) = parts(&run);
    assert_eq!((actions.len(), records), (1, [1, 0]));
    assert_eq!(stream::decode(&call.instructions).unwrap().len(), 1);
    assert_eq!(call.instructions.len(), 5);
}

/// What is not made of actions or records is cut byte by byte.
#[test]
#[cfg_attr(not(oracle_sources), ignore)]
fn of_damage_that_is_not_seen() {
    let run = smallest(|right, region, call| taken_for_0(right, region, call, 15));
    assert_eq!(run.region, [0]);
    let run = smallest(|right, region, call| taken_for_0(right, region, call, 13));
    let tables = [&run.calls[0].before, &run.calls[0].after];
    assert!(tables.iter().any(|table| table.is_empty()), "{run}");
    assert!(tables.iter().all(|table| table.len() <= 2), "{run}");
    assert_eq!(run.region, []);
}

/// A run is cut to the call at which the fault shows.
#[test]
#[cfg_attr(not(oracle_sources), ignore)]
fn of_a_run() {
    let judge: Judge = |right, region, call| taken_for_0(right, region, call, 7);
    let right = published();
    let run = (0..)
        .map(|case| runs::draw(&mut Chance::of_case(1, RUN, case)))
        .find(|run| {
            let fault = &mut Faulty(right, judge);
            let found = parting(&mut right.clone(), fault, run, &mut |_| {});
            // Other calls were settled before.
            found.is_some_and(|found| found.at.region != run.region)
        })
        .unwrap();
    let fault = &mut Faulty(right, judge);
    let found = parting(&mut right.clone(), fault, &run, &mut |_| {}).unwrap();
    let again = parting(&mut right.clone(), fault, &found.at, &mut |_| {});
    assert_eq!(found.at.calls.len(), 1);
    assert_eq!(again, Some(found));
}
