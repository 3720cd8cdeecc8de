//! The limits of the specification as the builders' errors, at the limit and
//! past it, and the reader on bytes that are not in stored form.

use thimbleford::{
    create,
    instructions::{self, CompactInstruction, InstructionsFault},
    region::{self, Action, Recurring, RegionError, RegionFault, Rule, NEVER},
    table::{self, Record, TableFault},
    Key, Refusal,
};

const MINT: Key = Key([9; 32]);

const FRESH: Recurring = Recurring::fresh(100, 10);

/// One rule of each type that may stand beside the others, lists apart.
const LIMITS: [Rule; 6] = [
    Rule::SolLimit { remaining: 1 },
    Rule::SolRecurringLimit(FRESH),
    Rule::SolMaxPerTx { max: 2 },
    Rule::TokenLimit {
        mint: MINT,
        remaining: 3,
    },
    Rule::TokenRecurringLimit {
        mint: MINT,
        recurring: FRESH,
    },
    Rule::TokenMaxPerTx { mint: MINT, max: 4 },
];

const WHITELIST: Rule = Rule::ProgramWhitelist {
    program_id: Key([5; 32]),
};
const BLACKLIST: Rule = Rule::ProgramBlacklist {
    program_id: Key([6; 32]),
};

fn actions(rules: &[Rule]) -> Vec<Action> {
    let action = |rule: &Rule| Action {
        expires_at: NEVER,
        rule: *rule,
    };
    rules.iter().map(action).collect()
}

fn build(rules: &[Rule]) -> Result<Vec<u8>, RegionError> {
    region::build(&actions(rules))
}

#[test]
fn limits_of_each_type_stand_together() {
    for list in [WHITELIST, BLACKLIST] {
        let rules = [&LIMITS[..], &[list; 10]].concat();
        let built = build(&rules).unwrap();
        assert_eq!(create(&built), Ok(()));
        assert_eq!(region::read(&built), Ok(actions(&rules)));
    }
    assert_eq!(build(&[]), Ok(vec![]));
    assert_eq!(region::read(&[]), Ok(vec![]));
}

#[test]
fn each_rule_of_creation_is_an_error() {
    let recurring = |recurring| {
        let rule = Rule::TokenRecurringLimit {
            mint: MINT,
            recurring,
        };
        vec![WHITELIST, rule]
    };
    let mut cases = vec![
        (
            vec![WHITELIST; 17],
            RegionFault::TooManyActions,
            "more than 16 actions",
        ),
        (
            vec![BLACKLIST, BLACKLIST, WHITELIST],
            RegionFault::BothLists {
                whitelist: 2,
                blacklist: 0,
            },
            "action 2 is a whitelist entry and action 0 a blacklist entry",
        ),
        (
            recurring(Recurring { window: 0, ..FRESH }),
            RegionFault::NoWindow { action: 1 },
            "action 1 has a window of 0 slots",
        ),
    ];
    for used in [
        Recurring { spent: 1, ..FRESH },
        Recurring {
            last_reset: 1,
            ..FRESH
        },
    ] {
        cases.push((
            recurring(used),
            RegionFault::NotFresh { action: 1 },
            "action 1 has spent or was reset before creation",
        ));
    }
    for limit in LIMITS {
        cases.push((
            vec![limit, WHITELIST, limit],
            RegionFault::Repeated {
                first: 0,
                action: 2,
            },
            "action 2 limits again what action 0 limits",
        ));
    }
    for (rules, fault, said) in cases {
        let error = build(&rules).unwrap_err();
        assert_eq!(error.fault, fault);
        assert_eq!(error.to_string(), said);
        let both_lists = matches!(fault, RegionFault::BothLists { .. });
        assert_eq!(error.refusal().number(), if both_lists { 2 } else { 1 });
    }
}

#[test]
fn two_mints_may_have_a_limit_each() {
    let limit = |mint| Rule::TokenLimit { mint, remaining: 1 };
    let mut near = MINT;
    near.0[31] ^= 1;
    assert_eq!(
        build(&[limit(MINT), limit(near)]).map(|region| create(&region)),
        Ok(Ok(()))
    );
}

#[test]
fn bytes_not_in_stored_form_are_an_error() {
    let limit = build(&[LIMITS[0]]).unwrap();
    let list = build(&[WHITELIST]).unwrap();
    let recurring = build(&[LIMITS[1]]).unwrap();
    let damaged = |bytes: &[u8], place: usize, value| {
        let mut bytes = bytes.to_vec();
        bytes[place] = value;
        bytes
    };
    let no_window = damaged(&recurring, 11 + 16, 0);
    let cases = [
        (
            [&limit[..], &list[..10]].concat(),
            RegionFault::ShortHeader { action: 1 },
            "action 1 ends within its header",
        ),
        (
            damaged(&limit, 0, 7),
            RegionFault::UnknownType { action: 0, code: 7 },
            "action 0 has the unknown type 7",
        ),
        (
            [&limit[..], &list[..42]].concat(),
            RegionFault::DataPastEnd { action: 1 },
            "action 1 ends within its data",
        ),
        (
            list.repeat(17),
            RegionFault::TooManyActions,
            "more than 16 actions",
        ),
        (
            damaged(&limit, 0, 10),
            RegionFault::WrongLength { action: 0 },
            "action 0 has data of another length than its type",
        ),
        (
            limit.repeat(2),
            RegionFault::Repeated {
                first: 0,
                action: 1,
            },
            "action 1 limits again what action 0 limits",
        ),
        (
            no_window,
            RegionFault::NoWindow { action: 0 },
            "action 0 has a window of 0 slots",
        ),
    ];
    for (bytes, fault, said) in cases {
        let error = region::read(&bytes).unwrap_err();
        assert_eq!(error.fault, fault);
        assert_eq!(error.to_string(), said);
        assert_eq!(error.refusal().number(), 15);
    }
}

#[test]
fn what_was_spent_is_read_and_not_built_again() {
    let stored = [&build(&[LIMITS[1]]).unwrap()[..19], &[3; 24]].concat();
    let three = u64::from_le_bytes([3; 8]);
    let used = Recurring {
        spent: three,
        window: three,
        last_reset: three,
        ..FRESH
    };
    let read = region::read(&stored).unwrap();
    assert_eq!(read, actions(&[Rule::SolRecurringLimit(used)]));
    let error = region::build(&read).unwrap_err();
    assert_eq!(error.fault, RegionFault::NotFresh { action: 0 });
}

#[test]
fn what_remains_depends_on_the_slot() {
    let action = |expires_at, rule| Action { expires_at, rule };
    let limit = action(50, LIMITS[0]);
    assert_eq!(
        (limit.remaining(50), limit.remaining(51)),
        (Some(1), Some(0))
    );
    let begun = |limit, spent| {
        let recurring = Recurring {
            limit,
            spent,
            window: 10,
            last_reset: 20,
        };
        action(NEVER, Rule::SolRecurringLimit(recurring))
    };
    // The window is over above slot 30; a slot before the reset is within it.
    for (slot, remaining) in [(0, 30), (30, 30), (31, 100)] {
        assert_eq!(begun(100, 70).remaining(slot), Some(remaining));
    }
    assert_eq!(begun(100, 101).remaining(20), Some(0));
    assert_eq!(begun(u64::MAX, u64::MAX).remaining(20), Some(u64::MAX));
    assert_eq!(action(NEVER, WHITELIST).remaining(0), None);
}

#[test]
fn a_table_has_at_most_64_records() {
    let record = Record {
        key: Key([1; 32]),
        owner: Key([2; 32]),
        data: &[],
    };
    assert_eq!(table::build(&[]), Ok(vec![0, 0]));
    let full = table::build(&[record; 64]).unwrap();
    assert_eq!((full.len(), &full[..2]), (2 + 64 * 68, &[64, 0][..]));
    let error = table::build(&[record; 65]).unwrap_err();
    assert_eq!(error.fault, TableFault::TooManyRecords { count: 65 });
    assert_eq!(error.refusal(), Refusal::BadTable);
    assert_eq!(error.to_string(), "65 records, and at most 64 may be there");
}

#[test]
fn instructions_keep_the_writers_limits() {
    let entry = CompactInstruction {
        program_id_index: 0,
        accounts: &[],
        data: &[],
    };
    let (accounts, data) = (vec![0; 256], vec![0; 65_536]);
    let full = CompactInstruction {
        accounts: &accounts[1..],
        data: &data[1..],
        ..entry
    };
    assert_eq!(instructions::build(&[], 0), Ok(vec![0]));
    let built = instructions::build(&[full; 16], 1).unwrap();
    assert_eq!(built.len(), 1 + 16 * (2 + 255 + 2 + 65_535));

    let cases = [
        (
            vec![entry; 17],
            InstructionsFault::TooManyInstructions { count: 17 },
            "17 instructions, and at most 16 may be there",
        ),
        (
            vec![
                entry,
                CompactInstruction {
                    accounts: &accounts,
                    ..entry
                },
            ],
            InstructionsFault::TooManyAccounts {
                instruction: 1,
                count: 256,
            },
            "instruction 1 has 256 accounts, and at most 255 may be there",
        ),
        (
            vec![CompactInstruction {
                data: &data,
                ..entry
            }],
            InstructionsFault::DataTooLong {
                instruction: 0,
                length: 65_536,
            },
            "instruction 0 has 65536 bytes of data, and at most 65535 may be there",
        ),
    ];
    for (list, fault, said) in cases {
        // A limit of writing comes before an index, as every index passes an empty table.
        let error = instructions::build(&list, 0).unwrap_err();
        assert_eq!(error.fault, fault);
        assert_eq!(error.refusal(), Refusal::NotEncodable);
        assert_eq!(error.to_string(), said);
    }
}

#[test]
fn an_index_names_a_record() {
    let entry = CompactInstruction {
        program_id_index: 1,
        accounts: &[0, 63],
        data: &[],
    };
    assert!(instructions::build(&[entry], 64).is_ok());
    for (records, index) in [(63, 63), (1, 1), (0, 1)] {
        let error = instructions::build(&[entry], records).unwrap_err();
        let instruction = 0;
        assert_eq!(
            error.fault,
            InstructionsFault::IndexPastTable { instruction, index }
        );
        assert_eq!(error.refusal(), Refusal::InvalidInstructionData);
        assert_eq!(
            error.to_string(),
            format!("instruction 0 names record {index}, which the table does not have")
        );
    }
}
