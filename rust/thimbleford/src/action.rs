//! One typed action and its bytes.

use alloc::vec::Vec;

use crate::{bytes::Cursor, Key};

/// An [`Action::expires_at`] that never comes.
pub const NEVER: u64 = 0;

/// One rule of a region, and until when it is live.
///
/// An expired rule does not go away: a limit then refuses whatever spends, and a
/// whitelist allows nothing.
#[derive(Clone, Copy, Debug, PartialEq, Eq)]
pub struct Action {
    /// The last slot at which the rule is live, or [`NEVER`].
    pub expires_at: u64,
    /// What the rule says.
    pub rule: Rule,
}

/// What an action says, by the published names. Amounts are lamports, or a
/// token's smallest units.
#[derive(Clone, Copy, Debug, PartialEq, Eq)]
#[non_exhaustive]
pub enum Rule {
    /// So much SOL in all.
    SolLimit {
        /// What is left.
        remaining: u64,
    },
    /// So much SOL in each window of slots.
    SolRecurringLimit(Recurring),
    /// So much SOL in one call, whatever comes back.
    SolMaxPerTx {
        /// The most that one call may send out.
        max: u64,
    },
    /// So much of one token in all.
    TokenLimit {
        /// The token's mint.
        mint: Key,
        /// What is left.
        remaining: u64,
    },
    /// So much of one token in each window of slots.
    TokenRecurringLimit {
        /// The token's mint.
        mint: Key,
        /// Its limit and window.
        recurring: Recurring,
    },
    /// So much of one token in one call.
    TokenMaxPerTx {
        /// The token's mint.
        mint: Key,
        /// The most that one call may spend.
        max: u64,
    },
    /// Only programs of such entries may run.
    ProgramWhitelist {
        /// A program that may run.
        program_id: Key,
    },
    /// No program of such an entry may run.
    ProgramBlacklist {
        /// A program that may not run.
        program_id: Key,
    },
}

/// The fields of a recurring limit.
#[derive(Clone, Copy, Debug, PartialEq, Eq)]
pub struct Recurring {
    /// The most that one window may spend.
    pub limit: u64,
    /// What the current window has spent.
    pub spent: u64,
    /// The window's length in slots, above 0.
    pub window: u64,
    /// The slot at which the current window began.
    pub last_reset: u64,
}

impl Recurring {
    /// A limit as creation wants it: nothing spent, no window begun.
    #[must_use]
    pub const fn fresh(limit: u64, window: u64) -> Self {
        Self {
            limit,
            spent: 0,
            window,
            last_reset: 0,
        }
    }

    /// The most that may still be spent at a slot.
    ///
    /// A limit of 2^64 - 1 never refuses, since what is spent is capped there.
    #[must_use]
    pub const fn remaining(&self, slot: u64) -> u64 {
        let window_is_over = slot.saturating_sub(self.last_reset) > self.window;
        if window_is_over || self.limit == u64::MAX {
            self.limit
        } else {
            self.limit.saturating_sub(self.spent)
        }
    }

    fn data(&self) -> Vec<u8> {
        let fields = [self.limit, self.spent, self.window, self.last_reset];
        fields.map(u64::to_le_bytes).concat()
    }

    fn parse(data: &mut Cursor<'_>) -> Option<Self> {
        Some(Self {
            limit: data.u64()?,
            spent: data.u64()?,
            window: data.u64()?,
            last_reset: data.u64()?,
        })
    }
}

impl Rule {
    /// The published name of the rule's type.
    #[must_use]
    pub const fn name(&self) -> &'static str {
        match self {
            Self::SolLimit { .. } => "SolLimit",
            Self::SolRecurringLimit(_) => "SolRecurringLimit",
            Self::SolMaxPerTx { .. } => "SolMaxPerTx",
            Self::TokenLimit { .. } => "TokenLimit",
            Self::TokenRecurringLimit { .. } => "TokenRecurringLimit",
            Self::TokenMaxPerTx { .. } => "TokenMaxPerTx",
            Self::ProgramWhitelist { .. } => "ProgramWhitelist",
            Self::ProgramBlacklist { .. } => "ProgramBlacklist",
        }
    }

    /// The mint of a token rule.
    #[must_use]
    pub const fn mint(&self) -> Option<&Key> {
        match self {
            Self::TokenLimit { mint, .. }
            | Self::TokenRecurringLimit { mint, .. }
            | Self::TokenMaxPerTx { mint, .. } => Some(mint),
            _ => None,
        }
    }

    /// The fields of a recurring limit.
    #[must_use]
    pub const fn recurring(&self) -> Option<&Recurring> {
        match self {
            Self::SolRecurringLimit(recurring) | Self::TokenRecurringLimit { recurring, .. } => {
                Some(recurring)
            }
            _ => None,
        }
    }

    /// The amount that is allowed: what remains, a window's limit, or a maximum.
    fn allowed(&mut self) -> Option<&mut u64> {
        match self {
            Self::SolLimit { remaining: amount }
            | Self::SolMaxPerTx { max: amount }
            | Self::TokenLimit {
                remaining: amount, ..
            }
            | Self::TokenMaxPerTx { max: amount, .. } => Some(amount),
            Self::SolRecurringLimit(recurring) | Self::TokenRecurringLimit { recurring, .. } => {
                Some(&mut recurring.limit)
            }
            Self::ProgramWhitelist { .. } | Self::ProgramBlacklist { .. } => None,
        }
    }

    pub(crate) const fn is_list(&self) -> bool {
        matches!(
            self,
            Self::ProgramWhitelist { .. } | Self::ProgramBlacklist { .. }
        )
    }

    /// The type's code.
    pub(crate) const fn code(&self) -> u8 {
        match self {
            Self::SolLimit { .. } => 1,
            Self::SolRecurringLimit(_) => 2,
            Self::SolMaxPerTx { .. } => 3,
            Self::TokenLimit { .. } => 4,
            Self::TokenRecurringLimit { .. } => 5,
            Self::TokenMaxPerTx { .. } => 6,
            Self::ProgramWhitelist { .. } => 10,
            Self::ProgramBlacklist { .. } => 11,
        }
    }

    /// Whether a type has this code.
    pub(crate) const fn is_known(code: u8) -> bool {
        matches!(code, 1..=6 | 10 | 11)
    }

    /// The rule of a type's code that the data holds, all of it.
    pub(crate) fn parse(code: u8, data: &[u8]) -> Option<Self> {
        let mut data = Cursor::new(data);
        let rule = match code {
            1 => Self::SolLimit {
                remaining: data.u64()?,
            },
            2 => Self::SolRecurringLimit(Recurring::parse(&mut data)?),
            3 => Self::SolMaxPerTx { max: data.u64()? },
            4 => Self::TokenLimit {
                mint: data.key()?,
                remaining: data.u64()?,
            },
            5 => Self::TokenRecurringLimit {
                mint: data.key()?,
                recurring: Recurring::parse(&mut data)?,
            },
            6 => Self::TokenMaxPerTx {
                mint: data.key()?,
                max: data.u64()?,
            },
            10 => Self::ProgramWhitelist {
                program_id: data.key()?,
            },
            11 => Self::ProgramBlacklist {
                program_id: data.key()?,
            },
            _ => return None,
        };
        data.is_done().then_some(rule)
    }

    fn data(&self) -> Vec<u8> {
        match self {
            Self::SolLimit { remaining: amount } | Self::SolMaxPerTx { max: amount } => {
                amount.to_le_bytes().to_vec()
            }
            Self::SolRecurringLimit(recurring) => recurring.data(),
            Self::TokenLimit {
                mint,
                remaining: amount,
            }
            | Self::TokenMaxPerTx { mint, max: amount } => {
                [&mint.0[..], &amount.to_le_bytes()].concat()
            }
            Self::TokenRecurringLimit { mint, recurring } => {
                [&mint.0[..], &recurring.data()].concat()
            }
            Self::ProgramWhitelist { program_id } | Self::ProgramBlacklist { program_id } => {
                program_id.0.to_vec()
            }
        }
    }
}

impl Action {
    /// The action as creation wants it: nothing spent, no window begun. What
    /// remains of a limit that does not recur stays as it is.
    ///
    /// So a policy is renewed: its actions are read, made fresh, raised or not, and
    /// built again.
    ///
    /// ```
    /// use thimbleford::region::{self, Action, Recurring, RegionFault, Rule};
    ///
    /// let used = Recurring { limit: 100, spent: 70, window: 10, last_reset: 20 };
    /// let old = Action { expires_at: 500, rule: Rule::SolRecurringLimit(used) };
    /// let error = region::build(&[old]).unwrap_err();
    /// assert_eq!(error.fault, RegionFault::NotFresh { action: 0 });
    ///
    /// let term = Action { expires_at: 900, ..old.fresh() };
    /// let renewed = region::build(&[term.raised(50).ok_or("no limit any more")?])?;
    /// let raised = Recurring::fresh(150, 10);
    /// assert_eq!(region::read(&renewed)?[0].rule, Rule::SolRecurringLimit(raised));
    /// # Ok::<(), Box<dyn std::error::Error>>(())
    /// ```
    #[must_use]
    pub fn fresh(mut self) -> Self {
        if let Rule::SolRecurringLimit(recurring) | Rule::TokenRecurringLimit { recurring, .. } =
            &mut self.rule
        {
            *recurring = Recurring::fresh(recurring.limit, recurring.window);
        }
        self
    }

    /// The action with so much more to spend: more that remains, a higher limit of
    /// each window, or a higher maximum. Nothing where it is a list, and where the
    /// amount would come to 2^64 - 1 or more: that is no limit any more.
    #[must_use]
    pub fn raised(mut self, by: u64) -> Option<Self> {
        let allowed = self.rule.allowed()?;
        *allowed = allowed.checked_add(by).filter(|sum| *sum < u64::MAX)?;
        Some(self)
    }

    /// Whether the action is expired at a slot.
    #[must_use]
    pub const fn is_expired(&self, slot: u64) -> bool {
        self.expires_at != NEVER && slot > self.expires_at
    }

    /// The most that this action lets one call spend at a slot; nothing where it
    /// is a list. An expired limit lets nothing be spent.
    ///
    /// For `SolMaxPerTx` it is the gross outflow that counts as spent, for the
    /// others what the vault or the mint's balance is lower by.
    #[must_use]
    pub const fn remaining(&self, slot: u64) -> Option<u64> {
        let live = match self.rule {
            Rule::SolLimit { remaining } | Rule::TokenLimit { remaining, .. } => remaining,
            Rule::SolMaxPerTx { max } | Rule::TokenMaxPerTx { max, .. } => max,
            Rule::SolRecurringLimit(recurring) | Rule::TokenRecurringLimit { recurring, .. } => {
                recurring.remaining(slot)
            }
            Rule::ProgramWhitelist { .. } | Rule::ProgramBlacklist { .. } => return None,
        };
        Some(if self.is_expired(slot) { 0 } else { live })
    }

    /// Adds the action's bytes: type, data length, expires_at, data.
    pub(crate) fn write(&self, bytes: &mut Vec<u8>) {
        let data = self.rule.data();
        bytes.push(self.rule.code());
        // The longest data, of a token's recurring limit, has 64 bytes.
        bytes.extend((data.len() as u16).to_le_bytes());
        bytes.extend(self.expires_at.to_le_bytes());
        bytes.extend(data);
    }
}
