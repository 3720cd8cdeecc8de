//! The ways to break creation's rules.

use crate::{
    chance::Chance,
    creation::{aged, limit, list_entry},
    region::{self, Action, Rule},
};

/// One way to break one of creation's rules (a) to (f).
#[derive(Clone, Copy, Debug, PartialEq, Eq)]
pub enum Breach {
    /// (a) Bytes after the last action that make no header.
    ShortHeader,
    /// (a) A type that is not listed.
    UnknownType,
    /// (a) Data that passes the end.
    PastTheEnd,
    /// (a) A 17th action, or more.
    Seventeenth,
    /// (b) A data length that is not the type's.
    WrongLength,
    /// (c) A whitelist and a blacklist.
    BothLists,
    /// (d) A second SolLimit, SolRecurringLimit or SolMaxPerTx.
    SecondSol,
    /// (e) Two actions of one token type with one mint.
    SameMint,
    /// (f) A recurring limit that has spent.
    Spent,
    /// (f) A recurring limit without a window.
    NoWindow,
    /// (f) A recurring limit that was reset.
    LastReset,
}

/// Every breach, in the order of the rules.
pub const BREACHES: [Breach; 11] = [
    Breach::ShortHeader,
    Breach::UnknownType,
    Breach::PastTheEnd,
    Breach::Seventeenth,
    Breach::WrongLength,
    Breach::BothLists,
    Breach::SecondSol,
    Breach::SameMint,
    Breach::Spent,
    Breach::NoWindow,
    Breach::LastReset,
];

/// The breaches that are made in bytes, in an order in which none mends another.
pub const SPOILS: [Breach; 4] = [
    Breach::UnknownType,
    Breach::WrongLength,
    Breach::ShortHeader,
    Breach::PastTheEnd,
];

impl Breach {
    /// Adds actions that are sound each by itself, or a recurring limit not as new.
    pub fn add(self, chance: &mut Chance, actions: &mut Vec<Action>) {
        let mint = chance.key();
        let rules = match self {
            Self::BothLists => {
                let key = chance.key();
                vec![Rule::ProgramWhitelist(key), Rule::ProgramBlacklist(mint)]
            }
            Self::SecondSol => {
                let code = chance.pick(&[1, 2, 3]);
                vec![limit(chance, code, &mint), limit(chance, code, &mint)]
            }
            Self::SameMint => {
                let code = chance.pick(&[4, 5, 6]);
                vec![limit(chance, code, &mint), limit(chance, code, &mint)]
            }
            Self::Spent | Self::NoWindow | Self::LastReset => {
                let second = actions.iter().any(|action| action.rule.code() == 2);
                let code = if second { 5 } else { chance.pick(&[2, 5]) };
                let mut rule = limit(chance, code, &mint);
                let value = chance.edge().max(1);
                let fields = rule.recurring_mut().expect("types 2 and 5 are recurring");
                match self {
                    Self::Spent => fields.spent = value,
                    Self::NoWindow => fields.window = 0,
                    _ => fields.last_reset = value,
                }
                vec![rule]
            }
            _ => vec![],
        };
        actions.extend(rules.into_iter().map(|rule| aged(chance, rule)));
    }

    /// Spoils the bytes of one action, or adds bytes that are none.
    pub fn spoil(self, chance: &mut Chance, parts: &mut Vec<Vec<u8>>) {
        if parts.is_empty() && self != Self::ShortHeader {
            let action = list_entry(chance, &[]);
            parts.push(region::encode(&[action]));
        }
        match self {
            Self::ShortHeader => {
                let mut part = region::encode(&[list_entry(chance, &[])]);
                part.truncate(1 + chance.below(10));
                parts.push(part);
            }
            Self::UnknownType => {
                let at = chance.below(parts.len());
                let other = 12 + chance.below(244) as u8;
                parts[at][0] = chance.pick(&[0, 7, 8, 9, 12, 255, other]);
            }
            Self::PastTheEnd => {
                let last = parts.last_mut().expect("there is one at least");
                if last.len() > 11 && chance.one_in(2) {
                    last.truncate(11 + chance.below(last.len() - 11));
                } else {
                    let more = 11 + chance.below(60_000) as u16;
                    set_length(last, |len| len + more);
                }
            }
            Self::WrongLength => {
                let at = chance.below(parts.len());
                let part = &mut parts[at];
                if part.len() > 11 && chance.one_in(2) {
                    part.truncate(11 + chance.below(part.len() - 11));
                } else {
                    let more = 1 + chance.below(40);
                    part.extend(chance.bytes(more));
                }
                let len = part.len().saturating_sub(11) as u16;
                set_length(part, |_| len);
            }
            _ => {}
        }
    }
}

/// Changes the data length in an action's header, if its bytes reach that far.
fn set_length(part: &mut [u8], change: impl Fn(u16) -> u16) {
    if let Some(field) = part.get_mut(1..3) {
        let len = u16::from_le_bytes([field[0], field[1]]);
        field.copy_from_slice(&change(len).to_le_bytes());
    }
}
