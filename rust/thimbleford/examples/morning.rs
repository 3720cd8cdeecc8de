//! A class's morning of orders: a tablet's policy is created, each order is
//! judged by it, and each answer is said in words.
//!
//!     cargo run --example morning

use std::{
    error::Error,
    io::{self, Write},
};

use thimbleford::{
    instructions::{self, CompactInstruction},
    region::{Action, Recurring, RegionError, Rule},
    table::{self, Record, TableError},
    Call, Key, Policy, SPL_TOKEN,
};

const VAULT: Key = Key([7; 32]);
const LUNCH_TOKEN: Key = Key([9; 32]);
const SCHOOL_SHOP: Key = Key([20; 32]);
const GAME_SHOP: Key = Key([21; 32]);
/// The owner of programs, as far as this morning looks.
const LOADER: Key = Key([0; 32]);

/// The slot after which the policy expires.
const END_OF_TERM: u64 = 5_000;

/// An order as the co-signer sees it: what it runs, and what is gone afterwards.
#[derive(Clone, Copy)]
struct Order {
    what: &'static str,
    slot: u64,
    /// The index of the shop's program: 1 is the school's, 2 the games'.
    shop: u8,
    lamports: u64,
    tokens: u64,
    /// Whether the lunch tokens still are the vault's afterwards.
    keeps_account: bool,
}

const ORDER: Order = Order {
    what: "",
    slot: 110,
    shop: 1,
    lamports: 0,
    tokens: 0,
    keeps_account: true,
};

#[rustfmt::skip]
const MORNING: [Order; 11] = [
    Order { what: "pencils for 1,200 lamports", lamports: 1_200, ..ORDER },
    Order { what: "a globe for 2,500 lamports", lamports: 2_500, ..ORDER },
    Order { what: "12 lunches", tokens: 12, ..ORDER },
    Order { what: "26 lunches", tokens: 26, ..ORDER },
    Order { what: "15 lunches", tokens: 15, ..ORDER },
    Order { what: "14 more lunches", tokens: 14, ..ORDER },
    Order { what: "a game", shop: 2, lamports: 10, ..ORDER },
    Order { what: "a prize that takes the lunch tokens over", keeps_account: false, ..ORDER },
    Order { what: "paper for 1,900 lamports", lamports: 1_900, ..ORDER },
    Order { what: "paper, once the next period has begun", slot: 201, lamports: 1_900, ..ORDER },
    Order { what: "chalk after the end of term", slot: END_OF_TERM + 1, lamports: 5, ..ORDER },
];

fn main() -> Result<(), Box<dyn Error>> {
    morning(&mut io::stdout())
}

/// Judges the morning's orders and writes down each answer.
fn morning(out: &mut dyn Write) -> Result<(), Box<dyn Error>> {
    let mut policy = policy()?;

    let (mut lamports, mut tokens) = (100_000, 500);
    for order in MORNING {
        let before = accounts(&VAULT, tokens)?;
        let owner = if order.keeps_account {
            VAULT
        } else {
            GAME_SHOP
        };
        let after = accounts(&owner, tokens - order.tokens)?;
        let buy = CompactInstruction {
            program_id_index: order.shop,
            accounts: &[0],
            data: &[],
        };
        let call = Call {
            before: &before,
            after: &after,
            instructions: &instructions::build(&[buy], 3)?,
            vault: &VAULT.0,
            slot: order.slot,
            lamports_before: lamports,
            lamports_after: lamports - order.lamports,
            gross: order.lamports,
        };
        match policy.judge(&call) {
            Ok(()) => {
                // Here the co-signer stores the policy, then signs.
                lamports -= order.lamports;
                tokens -= order.tokens;
                writeln!(out, "{}: accepted.", order.what)?;
            }
            Err(refusal) => writeln!(out, "{}: {refusal}. {}", order.what, refusal.sentence())?,
        }
    }

    writeln!(out, "At slot 201:")?;
    for action in policy.actions() {
        if let Some(remaining) = action.remaining(201) {
            writeln!(out, "- {}: up to {remaining}", action.rule.name())?;
        }
    }
    Ok(())
}

/// What the tablet may spend until the end of term.
fn policy() -> Result<Policy, RegionError> {
    let mint = LUNCH_TOKEN;
    let rules = [
        Rule::SolMaxPerTx { max: 2_000 },
        Rule::SolRecurringLimit(Recurring::fresh(3_000, 100)),
        Rule::TokenMaxPerTx { mint, max: 25 },
        Rule::TokenLimit {
            mint,
            remaining: 40,
        },
        Rule::ProgramWhitelist {
            program_id: SCHOOL_SHOP,
        },
    ];
    Policy::create(&rules.map(|rule| Action {
        expires_at: END_OF_TERM,
        rule,
    }))
}

/// The account table: the vault's lunch tokens and the two shops.
fn accounts(owner: &Key, tokens: u64) -> Result<Vec<u8>, TableError> {
    // On a chain these are the account's bytes: mint, owner, amount and more.
    let mut data = [&LUNCH_TOKEN.0[..], &owner.0, &tokens.to_le_bytes()].concat();
    data.resize(165, 0);
    let record = |key, owner, data| Record { key, owner, data };
    table::build(&[
        record(Key([1; 32]), SPL_TOKEN, &data),
        record(SCHOOL_SHOP, LOADER, &[]),
        record(GAME_SHOP, LOADER, &[]),
    ])
}

#[test]
fn each_order_has_its_answer() {
    let mut out = Vec::new();
    morning(&mut out).unwrap();
    let text = String::from_utf8(out).unwrap();
    let mut lines = text.lines();
    let numbers = [0, 6, 0, 9, 0, 10, 4, 12, 8, 0, 4];
    for (order, number) in MORNING.iter().zip(numbers) {
        let line = lines.next().unwrap();
        let answer = match number {
            0 => "accepted.".to_owned(),
            refused => format!("refused with {refused}, "),
        };
        assert!(
            line.starts_with(&format!("{}: {answer}", order.what)),
            "{line}"
        );
    }
    let left: Vec<_> = lines.collect();
    assert_eq!(
        left,
        [
            "At slot 201:",
            "- SolMaxPerTx: up to 2000",
            "- SolRecurringLimit: up to 1100",
            "- TokenMaxPerTx: up to 25",
            "- TokenLimit: up to 13",
        ]
    );
}
