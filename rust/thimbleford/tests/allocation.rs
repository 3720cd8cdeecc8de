//! Creation and judging allocate nothing: the memory that they need is lent.
#![allow(unsafe_code)]

use std::{
    alloc::{GlobalAlloc, Layout, System},
    cell::Cell,
};

use thimbleford::{
    create, dry_run, instructions, judge,
    region::{self, Action, Recurring, Rule, NEVER},
    table::{self, Record},
    Call, Key, Refusal,
};

thread_local! {
    static ALLOCATIONS: Cell<u32> = const { Cell::new(0) };
}

/// The system's allocator, counting what each thread asks of it.
struct Counting;

// SAFETY: each request goes to the system's allocator as it came.
unsafe impl GlobalAlloc for Counting {
    unsafe fn alloc(&self, layout: Layout) -> *mut u8 {
        ALLOCATIONS.set(ALLOCATIONS.get() + 1);
        unsafe { System.alloc(layout) }
    }

    unsafe fn dealloc(&self, memory: *mut u8, layout: Layout) {
        unsafe { System.dealloc(memory, layout) }
    }
}

#[global_allocator]
static COUNTING: Counting = Counting;

/// What a piece of work answers, and how often it allocated.
fn counted<T>(work: impl FnOnce() -> T) -> (T, u32) {
    let before = ALLOCATIONS.get();
    let answer = work();
    (answer, ALLOCATIONS.get() - before)
}

#[test]
fn creation_and_judging_allocate_nothing() {
    let rules = [
        Rule::SolLimit { remaining: 100 },
        Rule::SolRecurringLimit(Recurring::fresh(100, 10)),
        Rule::TokenLimit {
            mint: Key([9; 32]),
            remaining: 5,
        },
        Rule::ProgramBlacklist {
            program_id: Key([3; 32]),
        },
    ];
    let actions = rules.map(|rule| Action {
        expires_at: NEVER,
        rule,
    });
    let (built, allocations) = counted(|| region::build(&actions));
    assert!(allocations > 0, "what allocates is counted");
    let mut policy = built.unwrap();
    let record = Record {
        key: Key([1; 32]),
        owner: Key([2; 32]),
        data: &[0; 200],
    };
    let accounts = table::build(&[record; 64]).unwrap();
    let nothing = instructions::build(&[], 64).unwrap();
    let call = Call {
        before: &accounts,
        after: &accounts,
        instructions: &nothing,
        vault: &[7; 32],
        slot: 1,
        lamports_before: 60,
        lamports_after: 0,
        gross: 60,
    };

    assert_eq!(counted(|| create(&policy)), (Ok(()), 0));
    let refused = (Err(Refusal::ActionBufferInvalid), 0);
    assert_eq!(counted(|| create(&policy[1..])), refused);
    assert_eq!(counted(|| dry_run(&policy, &call)), (Ok(()), 0));
    assert_eq!(counted(|| judge(&mut policy, &call)), (Ok(()), 0));
    let refused = (Err(Refusal::ActionSolLimitExceeded), 0);
    assert_eq!(counted(|| judge(&mut policy, &call)), refused);
    let refused = (Err(Refusal::BadRegion), 0);
    assert_eq!(counted(|| judge(&mut policy[1..], &call)), refused);
}
