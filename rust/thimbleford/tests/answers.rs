//! The linked archive answers as the specification says: its named values, and
//! each number of a judged call, by the smallest call that gets it.

use thimbleford::{
    create, dry_run,
    instructions::{self, CompactInstruction},
    judge,
    region::{self, Action, Recurring, Rule, NEVER},
    table::{self, Record},
    Call, Key, Refusal, SPL_TOKEN, TOKEN_2022,
};

const VAULT: Key = Key([7; 32]);
const MINT: Key = Key([9; 32]);
const PROGRAM: Key = Key([4; 32]);

/// A region of one action that never expires.
fn policy(rule: Rule) -> Vec<u8> {
    let action = Action {
        expires_at: NEVER,
        rule,
    };
    region::build(&[action]).unwrap()
}

/// A call on empty tables without instructions, that spends so many lamports.
fn spending(slot: u64, lamports: u64) -> Call<'static> {
    Call {
        before: &[0, 0],
        after: &[0, 0],
        instructions: &[0],
        vault: &VAULT.0,
        slot,
        lamports_before: lamports,
        lamports_after: 0,
        gross: lamports,
    }
}

/// The data of the vault's account of a mint.
fn token_account(amount: u64) -> [u8; 165] {
    let mut data = [0; 165];
    data[..32].copy_from_slice(&MINT.0);
    data[32..64].copy_from_slice(&VAULT.0);
    data[64..72].copy_from_slice(&amount.to_le_bytes());
    data
}

/// A table of one token account.
fn tokens(data: &[u8]) -> Vec<u8> {
    owned(SPL_TOKEN, data)
}

/// A table of one record under a program.
fn owned(owner: Key, data: &[u8]) -> Vec<u8> {
    let key = Key([1; 32]);
    table::build(&[Record { key, owner, data }]).unwrap()
}

#[test]
fn creation_answers_as_named() {
    let limit = policy(Rule::SolLimit { remaining: 100 });
    let whitelist = policy(Rule::ProgramWhitelist {
        program_id: PROGRAM,
    });
    let blacklist = policy(Rule::ProgramBlacklist {
        program_id: PROGRAM,
    });
    assert_eq!(create(&[]), Ok(()));
    assert_eq!((limit.len(), create(&limit)), (19, Ok(())));
    let invalid = Err(Refusal::ActionBufferInvalid);
    assert_eq!(create(&limit[..10]), invalid);
    assert_eq!(
        create(&[&whitelist[..], &blacklist, &limit, &limit].concat()),
        Err(Refusal::ActionWhitelistBlacklistConflict)
    );
    assert_eq!(create(&whitelist.repeat(16)), Ok(()));
    assert_eq!(create(&whitelist.repeat(17)), invalid);
}

#[test]
fn a_limit_is_used_up() {
    let mut policy = policy(Rule::SolLimit { remaining: 100 });
    assert_eq!(judge(&mut policy, &spending(1, 40)), Ok(()));
    let kept = policy.clone();
    assert_eq!(
        judge(&mut policy, &spending(1, 61)),
        Err(Refusal::ActionSolLimitExceeded)
    );
    assert_eq!(policy, kept);
    assert_eq!(judge(&mut policy, &spending(1, 60)), Ok(()));
    assert_eq!(region::read(&policy).unwrap()[0].remaining(1), Some(0));
}

#[test]
fn a_window_ends_after_its_last_slot() {
    let mut policy = policy(Rule::SolRecurringLimit(Recurring::fresh(100, 10)));
    let over = Err(Refusal::ActionSolRecurringLimitExceeded);
    // Slot, lamports, answer, and what is spent and the last reset afterwards.
    let calls = [
        (10, 70, Ok(()), 70, 0),
        (10, 40, over, 70, 0),
        (11, 40, Ok(()), 40, 10),
        (20, 60, Ok(()), 100, 10),
        (21, 1, Ok(()), 1, 20),
    ];
    for (slot, lamports, answer, spent, last_reset) in calls {
        assert_eq!(judge(&mut policy, &spending(slot, lamports)), answer);
        let recurring = *region::read(&policy).unwrap()[0].rule.recurring().unwrap();
        assert_eq!((recurring.spent, recurring.last_reset), (spent, last_reset));
    }
}

#[test]
fn each_number_of_a_judged_call_is_answered() {
    let program = Record {
        key: PROGRAM,
        owner: Key([0; 32]),
        data: &[],
    };
    let programs = table::build(&[program]).unwrap();
    let run = CompactInstruction {
        program_id_index: 0,
        accounts: &[],
        data: &[],
    };
    let instructions = instructions::build(&[run], 1).unwrap();
    let running = Call {
        before: &programs,
        after: &programs,
        instructions: &instructions,
        ..spending(1, 0)
    };
    let (ten, four) = (tokens(&token_account(10)), tokens(&token_account(4)));
    let paying = Call {
        before: &ten,
        after: &four,
        ..spending(1, 0)
    };
    let mut taken = token_account(10);
    taken[32..64].copy_from_slice(&[8; 32]);
    let taken = tokens(&taken);

    let sol_limit = Rule::SolLimit { remaining: 5 };
    let mint = MINT;
    let cases = [
        (
            policy(sol_limit),
            Call {
                instructions: &[],
                ..running
            },
            3,
        ),
        (
            policy(sol_limit),
            Call {
                before: &[0, 0],
                ..running
            },
            3,
        ),
        (
            policy(Rule::ProgramWhitelist {
                program_id: Key([5; 32]),
            }),
            running,
            4,
        ),
        (
            policy(Rule::ProgramBlacklist {
                program_id: PROGRAM,
            }),
            running,
            5,
        ),
        // What comes back does not count.
        (
            policy(Rule::SolMaxPerTx { max: 10 }),
            Call {
                lamports_before: 500,
                lamports_after: 500,
                gross: 11,
                ..running
            },
            6,
        ),
        (policy(sol_limit), spending(1, 6), 7),
        (
            policy(Rule::SolRecurringLimit(Recurring::fresh(5, 9))),
            spending(1, 6),
            8,
        ),
        (policy(Rule::TokenMaxPerTx { mint, max: 5 }), paying, 9),
        (policy(Rule::TokenLimit { mint, remaining: 5 }), paying, 10),
        (
            policy(Rule::TokenRecurringLimit {
                mint,
                recurring: Recurring::fresh(5, 9),
            }),
            paying,
            11,
        ),
        (
            policy(Rule::TokenLimit { mint, remaining: 9 }),
            Call {
                after: &taken,
                ..paying
            },
            12,
        ),
        (
            policy(sol_limit),
            Call {
                before: &[0],
                ..running
            },
            13,
        ),
        (
            policy(sol_limit),
            Call {
                after: &[0],
                ..running
            },
            13,
        ),
        (
            policy(sol_limit),
            Call {
                vault: &VAULT.0[1..],
                ..running
            },
            13,
        ),
        (vec![1], running, 15),
    ];
    for (mut policy, call, number) in cases {
        let kept = policy.clone();
        let answer = judge(&mut policy, &call).map_err(Refusal::number);
        assert_eq!(answer, Err(number), "{call:?} on {kept:?}");
        assert_eq!(policy, kept);
    }

    let mut tokens = policy(Rule::TokenLimit { mint, remaining: 9 });
    assert_eq!(judge(&mut tokens, &paying), Ok(()));
    assert_eq!(region::read(&tokens).unwrap()[0].remaining(1), Some(3));
}

#[test]
fn under_the_address_that_token_2022_is_known_by_nothing_is_counted() {
    let known = "TokenzQdBNbLqP5VEhdkAS6EPFLC1PHnBqCXEpPxuEb"
        .parse()
        .unwrap();
    for (program, answer) in [
        (TOKEN_2022, Err(Refusal::ActionTokenLimitExceeded)),
        (known, Ok(())),
    ] {
        let paying = Call {
            before: &owned(program, &token_account(10)),
            after: &owned(program, &token_account(4)),
            ..spending(1, 0)
        };
        let limit = Rule::TokenLimit {
            mint: MINT,
            remaining: 5,
        };
        assert_eq!(judge(&mut policy(limit), &paying), answer);
    }
}

#[test]
fn a_dry_run_settles_nothing() {
    let policy = policy(Rule::SolLimit { remaining: 100 });
    for _ in 0..3 {
        assert_eq!(dry_run(&policy, &spending(1, 100)), Ok(()));
    }
    assert_eq!(
        dry_run(&policy, &spending(1, 101)),
        Err(Refusal::ActionSolLimitExceeded)
    );
    // Too long by any number of bytes is the same fault, and not the first that is looked for.
    for len in [1201, 1202, 100_000] {
        let long = vec![0; len];
        assert_eq!(dry_run(&long, &spending(1, 1)), Err(Refusal::BadRegion));
        let garbled = Call {
            instructions: &[],
            ..spending(1, 1)
        };
        assert_eq!(
            dry_run(&long, &garbled),
            Err(Refusal::InvalidInstructionData)
        );
    }
}
