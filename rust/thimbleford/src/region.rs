//! The action region: what a session may spend, built from typed actions and
//! shown as such again.

use alloc::vec::Vec;
use core::fmt;

pub use crate::action::{Action, Recurring, Rule, NEVER};
use crate::{bytes::Cursor, Malformed, Refusal};

/// The most actions that a region may have.
pub const MAX_ACTIONS: usize = 16;

/// The most bytes that a region in stored form has: each action a token's recurring
/// limit.
pub const MAX_BYTES: usize = MAX_ACTIONS * (11 + 64);

/// The bytes of a region to create.
///
/// It refuses what [`create`](crate::create) refuses, and says which action is at
/// fault; what it builds is accepted.
///
/// ```
/// use thimbleford::create;
/// use thimbleford::region::{self, Action, Recurring, RegionError, RegionFault, Rule, NEVER};
///
/// let weekly = Rule::SolRecurringLimit(Recurring::fresh(5_000_000, 1_512_000));
/// let policy = region::build(&[
///     Action { expires_at: NEVER, rule: weekly },
///     Action { expires_at: 9_000_000, rule: Rule::SolMaxPerTx { max: 1_000_000 } },
/// ])?;
/// assert_eq!(create(&policy), Ok(()));
///
/// let twice = [Action { expires_at: NEVER, rule: weekly }; 2];
/// let error = region::build(&twice).unwrap_err();
/// assert_eq!(error.fault, RegionFault::Repeated { first: 0, action: 1 });
/// # Ok::<(), RegionError>(())
/// ```
///
/// # Errors
/// Where creation refuses the actions; [`RegionError::refusal`] is its answer.
pub fn build(actions: &[Action]) -> Result<Vec<u8>, RegionError> {
    check_to_create(actions).map_err(|fault| {
        let refusal = match fault {
            RegionFault::BothLists { .. } => Refusal::ActionWhitelistBlacklistConflict,
            _ => Refusal::ActionBufferInvalid,
        };
        RegionError::new(fault, refusal)
    })?;
    let mut bytes = Vec::new();
    for action in actions {
        action.write(&mut bytes);
    }
    Ok(bytes)
}

/// The actions of a region in stored form: as it was created, or as accepted
/// calls left it.
///
/// ```
/// use thimbleford::region::{self, Action, RegionError, RegionFault, Rule, NEVER};
/// use thimbleford::Refusal;
///
/// let stored = region::build(&[Action { expires_at: NEVER, rule: Rule::SolLimit { remaining: 60 } }])?;
/// for action in region::read(&stored)? {
///     assert_eq!(action.rule.name(), "SolLimit");
///     assert_eq!(action.remaining(1), Some(60));
/// }
/// let error = region::read(&stored[..10]).unwrap_err();
/// assert_eq!(error.fault, RegionFault::ShortHeader { action: 0 });
/// assert_eq!(error.refusal(), Refusal::BadRegion);
/// # Ok::<(), RegionError>(())
/// ```
///
/// # Errors
/// Where the bytes are not in stored form: a judged call answers
/// [`Refusal::BadRegion`] to them.
pub fn read(region: &[u8]) -> Result<Vec<Action>, RegionError> {
    stored_actions(region).map_err(|fault| RegionError::new(fault, Refusal::BadRegion))
}

/// What creation asks of typed actions.
fn check_to_create(actions: &[Action]) -> Result<(), RegionFault> {
    if actions.len() > MAX_ACTIONS {
        return Err(RegionFault::TooManyActions);
    }
    check(actions)?;
    let used = |recurring: &Recurring| recurring.spent != 0 || recurring.last_reset != 0;
    match position(actions, |rule| rule.recurring().is_some_and(used)) {
        Some(action) => Err(RegionFault::NotFresh { action }),
        None => Ok(()),
    }
}

fn stored_actions(region: &[u8]) -> Result<Vec<Action>, RegionFault> {
    let actions = cut(region)?
        .iter()
        .enumerate()
        .map(|(action, part)| {
            let rule = Rule::parse(part.code, part.data);
            Ok(Action {
                expires_at: part.expires_at,
                rule: rule.ok_or(RegionFault::WrongLength { action })?,
            })
        })
        .collect::<Result<Vec<_>, _>>()?;
    check(&actions)?;
    Ok(actions)
}

/// An action of a known type whose data is not looked at yet.
struct Part<'a> {
    code: u8,
    expires_at: u64,
    data: &'a [u8],
}

/// Rule (a): all bytes are actions, and they are not too many.
fn cut(region: &[u8]) -> Result<Vec<Part<'_>>, RegionFault> {
    let mut cursor = Cursor::new(region);
    let mut parts = Vec::new();
    while !cursor.is_done() {
        let action = parts.len();
        if action == MAX_ACTIONS {
            return Err(RegionFault::TooManyActions);
        }
        let header = header(&mut cursor).ok_or(RegionFault::ShortHeader { action })?;
        let (code, len, expires_at) = header;
        if !Rule::is_known(code) {
            return Err(RegionFault::UnknownType { action, code });
        }
        let data = cursor.take(len.into());
        parts.push(Part {
            code,
            expires_at,
            data: data.ok_or(RegionFault::DataPastEnd { action })?,
        });
    }
    Ok(parts)
}

/// Type, data length and expires_at.
fn header(cursor: &mut Cursor<'_>) -> Option<(u8, u16, u64)> {
    Some((cursor.u8()?, cursor.u16()?, cursor.u64()?))
}

/// Rules (c) to (e) and the windows, in creation's order.
fn check(actions: &[Action]) -> Result<(), RegionFault> {
    let whitelist = position(actions, |r| matches!(r, Rule::ProgramWhitelist { .. }));
    let blacklist = position(actions, |r| matches!(r, Rule::ProgramBlacklist { .. }));
    if let (Some(whitelist), Some(blacklist)) = (whitelist, blacklist) {
        return Err(RegionFault::BothLists {
            whitelist,
            blacklist,
        });
    }
    for (action, Action { rule, .. }) in actions.iter().enumerate() {
        let alike =
            |of: &Rule| !of.is_list() && of.code() == rule.code() && of.mint() == rule.mint();
        if let Some(first) = position(&actions[..action], alike) {
            return Err(RegionFault::Repeated { first, action });
        }
    }
    match position(actions, |r| r.recurring().is_some_and(|r| r.window == 0)) {
        Some(action) => Err(RegionFault::NoWindow { action }),
        None => Ok(()),
    }
}

/// The first action whose rule passes the test.
fn position(actions: &[Action], test: impl Fn(&Rule) -> bool) -> Option<usize> {
    actions.iter().position(|action| test(&action.rule))
}

/// Why actions make no region, or bytes are none.
pub type RegionError = Malformed<RegionFault>;

/// What is wrong with actions, or with a region's bytes. An action is named by its
/// place in the list, from 0.
#[derive(Clone, Copy, Debug, PartialEq, Eq)]
#[non_exhaustive]
pub enum RegionFault {
    /// No action at all, where a policy has to have one.
    Empty,
    /// Fewer bytes are left than a header has.
    ShortHeader {
        /// The action that would begin there.
        action: usize,
    },
    /// No type has the code.
    UnknownType {
        /// The action.
        action: usize,
        /// Its code.
        code: u8,
    },
    /// An action's data passes the region's end.
    DataPastEnd {
        /// The action.
        action: usize,
    },
    /// More than [`MAX_ACTIONS`] actions, or bytes behind that many.
    TooManyActions,
    /// An action's data is not as long as its type says.
    WrongLength {
        /// The action.
        action: usize,
    },
    /// A whitelist and a blacklist.
    BothLists {
        /// The first whitelist entry.
        whitelist: usize,
        /// The first blacklist entry.
        blacklist: usize,
    },
    /// A second limit of one type, and of one mint where it is a token's.
    Repeated {
        /// The first of the two.
        first: usize,
        /// The second.
        action: usize,
    },
    /// A recurring limit with a window of 0 slots.
    NoWindow {
        /// The action.
        action: usize,
    },
    /// A recurring limit to be created that has spent something, or was reset.
    NotFresh {
        /// The action.
        action: usize,
    },
    /// Creation refused them all the same: the archive is of another version.
    Refused,
}

impl fmt::Display for RegionFault {
    fn fmt(&self, f: &mut fmt::Formatter<'_>) -> fmt::Result {
        match self {
            Self::Empty => write!(f, "no actions, so nothing would be limited"),
            Self::ShortHeader { action } => write!(f, "action {action} ends within its header"),
            Self::UnknownType { action, code } => {
                write!(f, "action {action} has the unknown type {code}")
            }
            Self::DataPastEnd { action } => write!(f, "action {action} ends within its data"),
            Self::TooManyActions => write!(f, "more than {MAX_ACTIONS} actions"),
            Self::WrongLength { action } => {
                write!(
                    f,
                    "action {action} has data of another length than its type"
                )
            }
            Self::BothLists {
                whitelist,
                blacklist,
            } => write!(
                f,
                "action {whitelist} is a whitelist entry and action {blacklist} a blacklist entry"
            ),
            Self::Repeated { first, action } => {
                write!(f, "action {action} limits again what action {first} limits")
            }
            Self::NoWindow { action } => write!(f, "action {action} has a window of 0 slots"),
            Self::NotFresh { action } => {
                write!(f, "action {action} has spent or was reset before creation")
            }
            Self::Refused => write!(f, "creation refused sound actions"),
        }
    }
}
