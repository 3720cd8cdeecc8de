//! A call is lent data and nothing else: it may be sent and shared, and calls on
//! different regions may be judged at once.

use std::thread;

use thimbleford::{
    instructions::{CompactInstruction, InstructionsError},
    judge,
    region::{self, Action, RegionError, Rule, NEVER},
    table::{Record, TableError},
    Call, Key, KeyError, Policy, Refusal,
};

const fn sent_and_shared<T: Send + Sync>() {}

// This is checked when the test is compiled.
const _: () = {
    sent_and_shared::<Call<'_>>();
    sent_and_shared::<Record<'_>>();
    sent_and_shared::<CompactInstruction<'_>>();
    sent_and_shared::<Action>();
    sent_and_shared::<Key>();
    sent_and_shared::<KeyError>();
    sent_and_shared::<Policy>();
    sent_and_shared::<Refusal>();
    sent_and_shared::<RegionError>();
    sent_and_shared::<TableError>();
    sent_and_shared::<InstructionsError>();
};

#[test]
fn one_call_is_judged_on_many_regions_at_once() {
    let call = Call {
        before: &[0, 0],
        after: &[0, 0],
        instructions: &[0],
        vault: &[7; 32],
        slot: 1,
        lamports_before: 3,
        lamports_after: 0,
        gross: 3,
    };
    let sol_limit = |remaining| {
        region::build(&[Action {
            expires_at: NEVER,
            rule: Rule::SolLimit { remaining },
        }])
    };
    let call = &call;
    let sessions = |opening: u64| {
        move || {
            let mut policy = sol_limit(opening).unwrap();
            let accepted = (0..1000)
                .filter(|_| judge(&mut policy, call).is_ok())
                .count();
            (accepted as u64, policy)
        }
    };
    thread::scope(|scope| {
        let running = [30, 31, 3000, 3002].map(|opening| (opening, scope.spawn(sessions(opening))));
        for (opening, session) in running {
            let (accepted, policy) = session.join().unwrap();
            assert_eq!(accepted, opening / 3);
            assert_eq!(policy, sol_limit(opening % 3).unwrap());
        }
    });
}
