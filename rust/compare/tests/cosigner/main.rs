//! What the co-signer's crate builds and reads, held beside the published Rust:
//! a region comes back as its actions, a table as its records, a list as its
//! instructions.

mod dry_run;
mod instructions;
mod region;
mod remaining;
mod table;

use compare::{
    region::{Action, Recurring, Rule},
    subjects::Published,
};
use oracle::Oracle;
use thimbleford::{region as cosigner, Key};

const CASES: u64 = 3000;

fn published() -> Published {
    Published(Oracle::find().expect("ignored where the sources were not found"))
}

/// The runner's actions as the co-signer's crate has them.
fn typed(actions: &[Action]) -> Vec<cosigner::Action> {
    let action = |action: &Action| cosigner::Action {
        expires_at: action.expires_at,
        rule: typed_rule(action.rule),
    };
    actions.iter().map(action).collect()
}

fn typed_rule(rule: Rule) -> cosigner::Rule {
    match rule {
        Rule::SolLimit(remaining) => cosigner::Rule::SolLimit { remaining },
        Rule::SolRecurringLimit(fields) => cosigner::Rule::SolRecurringLimit(typed_fields(fields)),
        Rule::SolMaxPerTx(max) => cosigner::Rule::SolMaxPerTx { max },
        Rule::TokenLimit(mint, remaining) => cosigner::Rule::TokenLimit {
            mint: Key(mint),
            remaining,
        },
        Rule::TokenRecurringLimit(mint, fields) => cosigner::Rule::TokenRecurringLimit {
            mint: Key(mint),
            recurring: typed_fields(fields),
        },
        Rule::TokenMaxPerTx(mint, max) => cosigner::Rule::TokenMaxPerTx {
            mint: Key(mint),
            max,
        },
        Rule::ProgramWhitelist(program) => cosigner::Rule::ProgramWhitelist {
            program_id: Key(program),
        },
        Rule::ProgramBlacklist(program) => cosigner::Rule::ProgramBlacklist {
            program_id: Key(program),
        },
    }
}

fn typed_fields(fields: Recurring) -> cosigner::Recurring {
    cosigner::Recurring {
        limit: fields.limit,
        spent: fields.spent,
        window: fields.window,
        last_reset: fields.last_reset,
    }
}
