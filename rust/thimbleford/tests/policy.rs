//! A stored policy is not made from nothing, judges as the functions on bytes do,
//! and is renewed.

use thimbleford::{
    judge,
    region::{self, Action, Recurring, RegionFault, Rule, NEVER},
    Call, Key, Policy, Refusal,
};

const MINT: Key = Key([9; 32]);

fn lasting(rule: Rule) -> Action {
    Action {
        expires_at: NEVER,
        rule,
    }
}

/// A call on empty tables without instructions, that spends so many lamports.
fn spending(lamports: u64) -> Call<'static> {
    Call {
        before: &[0, 0],
        after: &[0, 0],
        instructions: &[0],
        vault: &[7; 32],
        slot: 15,
        lamports_before: lamports,
        lamports_after: 0,
        gross: lamports,
    }
}

#[test]
fn nothing_makes_no_policy() {
    let created = Policy::create(&[]).unwrap_err();
    assert_eq!(created.fault, RegionFault::Empty);
    assert_eq!(created.refusal(), Refusal::ActionBufferInvalid);
    let said = "no actions, so nothing would be limited";
    assert_eq!(created.to_string(), said);

    let stored = Policy::from_stored([]).unwrap_err();
    assert_eq!(stored.fault, RegionFault::Empty);
    assert_eq!(stored.refusal(), Refusal::BadRegion);
    assert_eq!(stored.to_string(), said);
}

#[test]
fn what_limits_nothing_is_asked_for_by_name() {
    let mut policy = Policy::unlimited();
    assert!(policy.is_unlimited());
    assert_eq!(policy.judge(&spending(u64::MAX)), Ok(()));
    assert_eq!((policy.as_bytes(), policy.actions()), (&[][..], vec![]));
    assert!(Policy::from_stored(policy.into_bytes()).is_err());
}

#[test]
fn damaged_bytes_are_no_policy() {
    let limit = Policy::create(&[lasting(Rule::SolLimit { remaining: 5 })]).unwrap();
    assert!(!limit.is_unlimited());
    for len in 0..limit.as_bytes().len() {
        let error = Policy::from_stored(&limit.as_bytes()[..len]).unwrap_err();
        assert_eq!(error.refusal(), Refusal::BadRegion);
    }
    let twice = [lasting(Rule::SolLimit { remaining: 5 }); 2];
    let error = Policy::create(&twice).unwrap_err();
    assert_eq!(
        error.fault,
        RegionFault::Repeated {
            first: 0,
            action: 1
        }
    );
    assert_eq!(error.refusal(), Refusal::ActionBufferInvalid);
}

#[test]
fn a_policy_judges_as_its_bytes_do() {
    let actions = [
        lasting(Rule::SolLimit { remaining: 100 }),
        lasting(Rule::SolMaxPerTx { max: 70 }),
    ];
    let mut policy = Policy::create(&actions).unwrap();
    let mut bytes = region::build(&actions).unwrap();
    for lamports in [60, 71, 41, 40, 1] {
        let call = spending(lamports);
        let before = policy.clone();
        let dry = policy.dry_run(&call);
        assert_eq!(policy, before);
        let answer = policy.judge(&call);
        assert_eq!((dry, judge(&mut bytes, &call)), (answer, answer));
        assert_eq!(policy.as_bytes(), bytes);
        let stored = Policy::from_stored(policy.as_bytes()).unwrap();
        assert_eq!(stored, policy);
    }
    assert_eq!(policy.actions()[0].remaining(15), Some(0));
}

#[test]
fn a_policy_is_renewed() {
    let recurring = Recurring::fresh(100, 10);
    let mut policy = Policy::create(&[
        lasting(Rule::SolRecurringLimit(recurring)),
        lasting(Rule::SolLimit { remaining: 500 }),
        lasting(Rule::ProgramBlacklist { program_id: MINT }),
    ])
    .unwrap();
    assert_eq!(policy.judge(&spending(80)), Ok(()));
    let used = policy.actions();
    let error = Policy::create(&used).unwrap_err();
    assert_eq!(error.fault, RegionFault::NotFresh { action: 0 });

    // A new session: the window's limit as it was, what is left raised by what was taken.
    let renewed = [
        used[0].fresh(),
        used[1].fresh().raised(80).unwrap(),
        used[2].fresh(),
    ];
    let renewed = Policy::create(&renewed).unwrap();
    assert_eq!(
        renewed.actions(),
        [
            lasting(Rule::SolRecurringLimit(recurring)),
            lasting(Rule::SolLimit { remaining: 500 }),
            lasting(Rule::ProgramBlacklist { program_id: MINT }),
        ]
    );
}

#[test]
fn what_is_raised_stays_a_limit() {
    let recurring = |limit| Recurring {
        limit,
        spent: 3,
        window: 4,
        last_reset: 5,
    };
    let mint = MINT;
    let rules = [
        |amount| Rule::SolLimit { remaining: amount },
        |amount| Rule::SolMaxPerTx { max: amount },
    ];
    for rule in rules {
        let raised = |amount, by| lasting(rule(amount)).raised(by);
        assert_eq!(raised(7, 5), Some(lasting(rule(12))));
        assert_eq!(raised(7, 0), Some(lasting(rule(7))));
        assert_eq!(raised(u64::MAX - 2, 1), Some(lasting(rule(u64::MAX - 1))));
        assert_eq!(raised(u64::MAX - 2, 2), None);
        assert_eq!(raised(2, u64::MAX), None);
    }
    let token = lasting(Rule::TokenRecurringLimit {
        mint,
        recurring: recurring(8),
    });
    let raised = lasting(Rule::TokenRecurringLimit {
        mint,
        recurring: recurring(10),
    });
    assert_eq!(token.raised(2), Some(raised));
    let list = lasting(Rule::ProgramWhitelist { program_id: mint });
    assert_eq!((list.raised(1), list.fresh()), (None, list));
}

#[test]
fn a_policy_is_shown_as_its_actions() {
    let policy = Policy::create(&[lasting(Rule::TokenMaxPerTx { mint: MINT, max: 4 })]).unwrap();
    assert_eq!(
        format!("{policy:?}"),
        format!(
            "Policy([Action {{ expires_at: 0, rule: TokenMaxPerTx {{ mint: {MINT}, max: 4 }} }}])"
        )
    );
}
