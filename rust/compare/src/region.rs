//! Action regions: typed actions and document 01's bytes of them.

use std::iter;

use crate::{bytes::Cursor, Key};

/// The most actions that a region may have.
pub const MAX_ACTIONS: usize = 16;

/// The fields of a recurring limit.
#[derive(Clone, Copy, Debug, PartialEq, Eq)]
pub struct Recurring {
    /// The most that one window may spend.
    pub limit: u64,
    /// What this window has spent.
    pub spent: u64,
    /// The window's length in slots.
    pub window: u64,
    /// The slot at which this window began.
    pub last_reset: u64,
}

/// An action's type and data. The numbers are what document 01 calls remaining
/// or max, the keys a mint or a program.
#[derive(Clone, Copy, Debug, PartialEq, Eq)]
#[allow(missing_docs)]
pub enum Rule {
    SolLimit(u64),
    SolRecurringLimit(Recurring),
    SolMaxPerTx(u64),
    TokenLimit(Key, u64),
    TokenRecurringLimit(Key, Recurring),
    TokenMaxPerTx(Key, u64),
    ProgramWhitelist(Key),
    ProgramBlacklist(Key),
}

/// One action.
#[derive(Clone, Copy, Debug, PartialEq, Eq)]
pub struct Action {
    /// The last slot at which it is live, or 0: it never expires.
    pub expires_at: u64,
    /// What it asks for.
    pub rule: Rule,
}

impl Rule {
    /// The type's code.
    pub fn code(&self) -> u8 {
        match self {
            Self::SolLimit(_) => 1,
            Self::SolRecurringLimit(_) => 2,
            Self::SolMaxPerTx(_) => 3,
            Self::TokenLimit(..) => 4,
            Self::TokenRecurringLimit(..) => 5,
            Self::TokenMaxPerTx(..) => 6,
            Self::ProgramWhitelist(_) => 10,
            Self::ProgramBlacklist(_) => 11,
        }
    }

    /// The type's name, and the names and lengths of the data's fields.
    pub fn layout(&self) -> (&'static str, &'static [(&'static str, usize)]) {
        const RECURRING: [(&str, usize); 5] = [
            ("mint", 32),
            ("limit", 8),
            ("spent", 8),
            ("window", 8),
            ("last_reset", 8),
        ];
        match self {
            Self::SolLimit(_) => ("SolLimit", &[("remaining", 8)]),
            Self::SolRecurringLimit(_) => ("SolRecurringLimit", &RECURRING[1..]),
            Self::SolMaxPerTx(_) => ("SolMaxPerTx", &[("max", 8)]),
            Self::TokenLimit(..) => ("TokenLimit", &[("mint", 32), ("remaining", 8)]),
            Self::TokenRecurringLimit(..) => ("TokenRecurringLimit", &RECURRING),
            Self::TokenMaxPerTx(..) => ("TokenMaxPerTx", &[("mint", 32), ("max", 8)]),
            Self::ProgramWhitelist(_) => ("ProgramWhitelist", &[("program", 32)]),
            Self::ProgramBlacklist(_) => ("ProgramBlacklist", &[("program", 32)]),
        }
    }

    /// The data's bytes.
    pub fn data(&self) -> Vec<u8> {
        match self {
            Self::SolLimit(number) | Self::SolMaxPerTx(number) => number.to_le_bytes().to_vec(),
            Self::SolRecurringLimit(fields) => fields.data(),
            Self::TokenLimit(mint, number) | Self::TokenMaxPerTx(mint, number) => {
                [&mint[..], &number.to_le_bytes()].concat()
            }
            Self::TokenRecurringLimit(mint, fields) => [&mint[..], &fields.data()].concat(),
            Self::ProgramWhitelist(program) | Self::ProgramBlacklist(program) => program.to_vec(),
        }
    }

    /// The fields, if this is a recurring limit.
    pub fn recurring_mut(&mut self) -> Option<&mut Recurring> {
        match self {
            Self::SolRecurringLimit(fields) | Self::TokenRecurringLimit(_, fields) => Some(fields),
            _ => None,
        }
    }

    /// The rule of a type's code that its data holds, all of it.
    fn parse(code: u8, data: &[u8]) -> Option<Self> {
        let mut data = Cursor::new(data);
        let rule = match code {
            1 => Self::SolLimit(data.u64()?),
            2 => Self::SolRecurringLimit(Recurring::parse(&mut data)?),
            3 => Self::SolMaxPerTx(data.u64()?),
            4 => Self::TokenLimit(data.array()?, data.u64()?),
            5 => Self::TokenRecurringLimit(data.array()?, Recurring::parse(&mut data)?),
            6 => Self::TokenMaxPerTx(data.array()?, data.u64()?),
            10 => Self::ProgramWhitelist(data.array()?),
            11 => Self::ProgramBlacklist(data.array()?),
            _ => return None,
        };
        data.is_done().then_some(rule)
    }
}

impl Recurring {
    fn data(&self) -> Vec<u8> {
        [self.limit, self.spent, self.window, self.last_reset]
            .map(u64::to_le_bytes)
            .concat()
    }

    fn parse(data: &mut Cursor) -> Option<Self> {
        Some(Self {
            limit: data.u64()?,
            spent: data.u64()?,
            window: data.u64()?,
            last_reset: data.u64()?,
        })
    }
}

impl Action {
    /// Whether the action is expired at a slot.
    pub fn is_expired(&self, slot: u64) -> bool {
        self.expires_at != 0 && slot > self.expires_at
    }
}

/// The region's bytes: type, data length, expires_at and data of each action.
pub fn encode(actions: &[Action]) -> Vec<u8> {
    let mut bytes = Vec::new();
    for action in actions {
        let data = action.rule.data();
        bytes.push(action.rule.code());
        bytes.extend((data.len() as u16).to_le_bytes());
        bytes.extend(action.expires_at.to_le_bytes());
        bytes.extend(data);
    }
    bytes
}

/// The bytes of a region whose rules never expire.
pub fn lasting(rules: &[Rule]) -> Vec<u8> {
    let never = |rule: &Rule| Action {
        expires_at: 0,
        rule: *rule,
    };
    encode(&rules.iter().map(never).collect::<Vec<_>>())
}

/// The actions of a region that is cut without rest into actions of known types
/// and listed lengths, however many they are.
pub fn cut(bytes: &[u8]) -> Option<Vec<Action>> {
    let mut cursor = Cursor::new(bytes);
    let mut actions = Vec::new();
    while !cursor.is_done() {
        actions.push(next(&mut cursor)?);
    }
    Some(actions)
}

/// The actions from a region's start on, as far as it is cut into such.
pub fn leading(bytes: &[u8]) -> Vec<Action> {
    let mut cursor = Cursor::new(bytes);
    iter::from_fn(|| next(&mut cursor)).collect()
}

/// The action that comes next, if there is one of a known type and its listed
/// length.
fn next(cursor: &mut Cursor) -> Option<Action> {
    let [code] = cursor.array()?;
    let len = u16::from_le_bytes(cursor.array()?);
    let expires_at = cursor.u64()?;
    let rule = Rule::parse(code, cursor.take(len.into())?)?;
    Some(Action { expires_at, rule })
}

#[cfg(test)]
mod tests {
    use super::*;

    fn one_of_each() -> Vec<Action> {
        let fields = Recurring {
            limit: 1,
            spent: 2,
            window: 3,
            last_reset: 4,
        };
        let rules = [
            Rule::SolLimit(5),
            Rule::SolRecurringLimit(fields),
            Rule::SolMaxPerTx(6),
            Rule::TokenLimit([7; 32], 8),
            Rule::TokenRecurringLimit([9; 32], fields),
            Rule::TokenMaxPerTx([10; 32], 11),
            Rule::ProgramWhitelist([12; 32]),
            Rule::ProgramBlacklist([13; 32]),
        ];
        rules
            .map(|rule| Action {
                expires_at: 14,
                rule,
            })
            .to_vec()
    }

    #[test]
    fn a_region_comes_back() {
        let actions = one_of_each();
        let bytes = encode(&actions);
        // The listed data lengths, each behind a header of 11 bytes.
        assert_eq!(bytes.len(), 8 + 32 + 8 + 40 + 64 + 40 + 32 + 32 + 8 * 11);
        for action in &actions {
            let (_, fields) = action.rule.layout();
            let len: usize = fields.iter().map(|(_, len)| len).sum();
            assert_eq!(len, action.rule.data().len());
        }
        assert_eq!(leading(&bytes), actions);
        assert_eq!(leading(&bytes[..bytes.len() - 1]), actions[..7]);
        assert_eq!(cut(&bytes), Some(actions));
        assert_eq!(cut(&[]), Some(vec![]));
    }

    #[test]
    fn what_is_not_cut_is_none() {
        let bytes = encode(&one_of_each()[..1]);
        for len in 1..bytes.len() {
            assert_eq!(cut(&bytes[..len]), None);
        }
        for (place, value) in [(0, 0), (0, 7), (0, 12), (1, 7), (1, 9), (2, 1)] {
            let mut damaged = [&bytes[..], &[0; 300]].concat();
            damaged[place] = value;
            assert_eq!(cut(&damaged), None);
        }
    }

    #[test]
    fn an_action_expires_after_its_slot() {
        let action = |expires_at| Action {
            expires_at,
            rule: Rule::SolLimit(1),
        };
        assert!(!action(50).is_expired(50));
        assert!(action(50).is_expired(51));
        assert!(!action(0).is_expired(u64::MAX));
    }
}
