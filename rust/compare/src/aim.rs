//! Actions aimed at a call: limits at what it decreases, windows at its slot,
//! lists at its programs.

use crate::{
    chance::Chance,
    region::{Action, Recurring, Rule},
    stream::Entry,
    table::{self, Record},
    world::World,
    Key,
};

/// What the actions are aimed at.
pub struct Aim {
    /// The call's slot.
    pub slot: u64,
    /// The decrease of the vault's lamports.
    pub decrease: u64,
    /// The gross outflow.
    pub gross: u64,
}

impl Aim {
    /// SOL and token limits, no two of which the stored form refuses together.
    pub fn limits(
        &self,
        chance: &mut Chance,
        world: &World,
        before: &[Record],
        after: &[Record],
    ) -> Vec<Action> {
        let mut rules = Vec::new();
        if chance.one_in(2) {
            rules.push(Rule::SolLimit(cap(chance, self.decrease)));
        }
        if chance.one_in(2) {
            let fields = self.recurring(chance, self.decrease);
            rules.push(Rule::SolRecurringLimit(fields));
        }
        if chance.one_in(2) {
            rules.push(Rule::SolMaxPerTx(cap(chance, self.gross)));
        }
        let mut actions = self.aged(chance, 12, rules);

        let mut mints = world.mints.to_vec();
        if chance.one_in(12) {
            mints.extend((0..4).map(|_| chance.key()));
        }
        for mint in mints {
            let balance = |records| table::balance(records, &world.vault, &mint);
            let decrease = balance(before).saturating_sub(balance(after));
            let mut rules = Vec::new();
            if chance.one_in(3) {
                rules.push(Rule::TokenLimit(mint, cap(chance, decrease)));
            }
            if chance.one_in(3) {
                let fields = self.recurring(chance, decrease);
                rules.push(Rule::TokenRecurringLimit(mint, fields));
            }
            if chance.one_in(3) {
                rules.push(Rule::TokenMaxPerTx(mint, cap(chance, decrease)));
            }
            // Where all actions of a mint are expired, its accounts are frozen all the same.
            let times = chance.pick(&[1, 12, 12, 12, 12, 12, 12, 12]);
            actions.extend(self.aged(chance, times, rules));
        }
        actions
    }

    /// Whitelists that let the instructions' programs pass, or blacklists that
    /// do, but for a slip now and then; or neither.
    pub fn lists(&self, chance: &mut Chance, before: &[Record], entries: &[Entry]) -> Vec<Action> {
        let list = match chance.below(3) {
            0 => return vec![],
            1 => Rule::ProgramWhitelist,
            _ => Rule::ProgramBlacklist,
        };
        let white = list([0; 32]).code() == 10;
        let slip = chance.one_in(6);
        // Whitelists that are all expired refuse everything, where dropping them would allow it.
        let all_expired = white && slip && chance.one_in(2);
        let mut programs: Vec<Key> = entries
            .iter()
            .filter_map(|entry| Some(before.get(usize::from(entry.program))?.key))
            .collect();
        programs.sort();
        programs.dedup();

        let mut keys = Vec::new();
        for program in programs {
            let slips = slip && chance.one_in(2);
            keys.push(match (white, slips) {
                _ if all_expired => (program, true),
                (true, false) | (false, true) => (program, false),
                _ if chance.one_in(3) => (program, true),
                _ => (chance.near(&program), false),
            });
        }
        for _ in 0..chance.below(3) {
            keys.push((chance.key(), all_expired || chance.one_in(3)));
        }
        // At slots 0 and 1 nothing can be expired: such entries are left out.
        keys.retain(|(_, expired)| !expired || self.slot > 1);
        keys.into_iter()
            .map(|(key, expired)| Action {
                expires_at: match expired {
                    true => self.expired(chance),
                    false => self.live(chance),
                },
                rule: list(key),
            })
            .collect()
    }

    /// A recurring limit near its window's edge and near its limit.
    fn recurring(&self, chance: &mut Chance, decrease: u64) -> Recurring {
        let window = match chance.below(8) {
            0 => chance.edge().max(1),
            1 => chance.around(self.slot).max(1),
            _ => 1 + chance.below(30) as u64,
        };
        let last_reset = match chance.below(8) {
            0 => 0,
            1 => chance.edge(),
            2 => chance.around(self.slot),
            3 => self.slot / window * window,
            _ => chance.around(self.slot.saturating_sub(window)),
        };
        let over = self.slot.saturating_sub(last_reset) > window;
        let spent = match chance.below(6) {
            0 => 0,
            1 => chance.edge(),
            _ => chance.below(1000) as u64,
        };
        let base = if over { 0 } else { spent };
        let limit = cap(chance, base.saturating_add(decrease));
        // A window that is over may have spent its limit: no trace of that may be left.
        let spent = if over && chance.one_in(3) {
            limit
        } else {
            spent
        };
        Recurring {
            limit,
            spent,
            window,
            last_reset,
        }
    }

    /// The rules as actions, expired once in so many times.
    fn aged(&self, chance: &mut Chance, times: usize, rules: Vec<Rule>) -> Vec<Action> {
        let age = |rule| Action {
            expires_at: match chance.one_in(times) && self.slot > 1 {
                true => self.expired(chance),
                false => self.live(chance),
            },
            rule,
        };
        rules.into_iter().map(age).collect()
    }

    fn live(&self, chance: &mut Chance) -> u64 {
        let later = self.slot.saturating_add(1 + chance.below(100) as u64);
        chance.pick(&[0, 0, self.slot, self.slot.saturating_add(1), later])
    }

    /// A slot that is over; there is one from slot 2 on.
    fn expired(&self, chance: &mut Chance) -> u64 {
        let earlier = 1 + chance.draw() % (self.slot - 1);
        chance.pick(&[1, self.slot - 1, earlier])
    }
}

/// A limit for a call that needs so much: enough mostly, and often just enough.
fn cap(chance: &mut Chance, need: u64) -> u64 {
    match chance.below(12) {
        0 => need.saturating_sub(1),
        1 => chance.edge(),
        2..=5 => need,
        6 => need.saturating_add(1),
        7 => u64::MAX,
        _ => need.saturating_add(chance.below(1000) as u64),
    }
}
