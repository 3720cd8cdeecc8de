//! Regions for creation: sound ones, and ones that break its rules alone or
//! two together.

use crate::{
    breach::{Breach, BREACHES, SPOILS},
    chance::Chance,
    damage::damage,
    region::{self, Action, Recurring, Rule, MAX_ACTIONS},
    Key,
};

/// A region to create: sound, with one breach or two, damaged, or any bytes.
pub fn draw(chance: &mut Chance) -> Vec<u8> {
    let breaches = match chance.below(10) {
        0..=3 => vec![],
        4..=5 => vec![chance.pick(&BREACHES)],
        6..=7 => vec![chance.pick(&BREACHES), chance.pick(&BREACHES)],
        // The one rule with a number of its own, beside another one or alone.
        _ => vec![Breach::BothLists, chance.pick(&BREACHES[5..])],
    };
    let mut bytes = region(chance, &breaches);
    match chance.below(40) {
        0..=3 => damage(chance, &mut bytes),
        4 => {
            let len = chance.below(64);
            bytes = chance.bytes(len);
        }
        _ => {}
    }
    bytes
}

/// Each breach alone, then each two together, and after those by chance.
pub fn nth(chance: &mut Chance, number: u64) -> Vec<u8> {
    let alone = BREACHES.iter().map(|breach| vec![*breach]);
    let pairs = (0..BREACHES.len())
        .flat_map(|last| (0..last).map(move |first| vec![BREACHES[first], BREACHES[last]]));
    match alone.chain(pairs).nth(number as usize) {
        Some(breaches) => region(chance, &breaches),
        None => draw(chance),
    }
}

/// A region that breaks the named rules and no other.
pub fn region(chance: &mut Chance, breaches: &[Breach]) -> Vec<u8> {
    let mut actions = sound(chance);
    for breach in breaches {
        breach.add(chance, &mut actions);
    }
    if breaches.contains(&Breach::Seventeenth) {
        let count = MAX_ACTIONS + 1 + chance.below(2) * chance.below(4);
        while actions.len() < count {
            actions.push(list_entry(chance, &actions));
        }
    }
    chance.shuffle(&mut actions);

    let mut parts: Vec<Vec<u8>> = actions.iter().map(|a| region::encode(&[*a])).collect();
    for breach in SPOILS {
        if breaches.contains(&breach) {
            breach.spoil(chance, &mut parts);
        }
    }
    parts.concat()
}

/// Actions that creation accepts, so few that each breach has room.
fn sound(chance: &mut Chance) -> Vec<Action> {
    let mut rules = Vec::new();
    for code in 1..=3 {
        if chance.one_in(3) {
            rules.push(limit(chance, code, &[0; 32]));
        }
    }
    let mints = [chance.key(), chance.key()];
    for (code, mint) in [4, 5, 6]
        .iter()
        .flat_map(|c| mints.iter().map(move |m| (*c, m)))
    {
        if chance.one_in(4) {
            // The same mint under another type is allowed, a near miss under the same one too.
            let mint = if chance.one_in(2) {
                *mint
            } else {
                chance.near(mint)
            };
            rules.push(limit(chance, code, &mint));
        }
    }
    let mut actions: Vec<Action> = rules.into_iter().map(|rule| aged(chance, rule)).collect();
    let entries = chance.pick(&[0, 0, 1, 2]);
    for _ in 0..entries {
        actions.push(list_entry(chance, &actions));
    }
    if entries == 2 && chance.one_in(2) {
        // Repeated list entries are allowed.
        actions.extend_from_within(actions.len() - 1..);
    }
    actions
}

/// A limit of the given type, as it is at creation.
pub fn limit(chance: &mut Chance, code: u8, mint: &Key) -> Rule {
    let number = chance.edge();
    let fields = Recurring {
        limit: number,
        spent: 0,
        window: chance.edge().max(1),
        last_reset: 0,
    };
    match code {
        1 => Rule::SolLimit(number),
        2 => Rule::SolRecurringLimit(fields),
        3 => Rule::SolMaxPerTx(number),
        4 => Rule::TokenLimit(*mint, number),
        5 => Rule::TokenRecurringLimit(*mint, fields),
        _ => Rule::TokenMaxPerTx(*mint, number),
    }
}

/// An action of the rule that expires at any slot.
pub fn aged(chance: &mut Chance, rule: Rule) -> Action {
    Action {
        expires_at: chance.edge(),
        rule,
    }
}

/// A list entry of the kind that the actions have, so that no conflict arises.
pub fn list_entry(chance: &mut Chance, actions: &[Action]) -> Action {
    let kind = |code| actions.iter().any(|action| action.rule.code() == code);
    let program = chance.key();
    let rule = if kind(11) || !kind(10) && chance.one_in(2) {
        Rule::ProgramBlacklist(program)
    } else {
        Rule::ProgramWhitelist(program)
    };
    aged(chance, rule)
}
