//! The table of numbers: each refusal's number, name and sentence stand here once.

use core::{error::Error, fmt, num::NonZeroU32};

use crate::BOUNDARY_VERSION;

/// Makes the enum and its functions from one row for each refusal.
macro_rules! refusals {
    ($($number:literal $refusal:ident $name:literal $sentence:literal)*) => {
        /// Why the answer was no.
        ///
        /// The numbers and names are those of the specification, and there is a
        /// sentence for the teacher whose order was refused. 1 and 2 are answers of
        /// [`create`](crate::create); 3 to 13 and 15 of [`judge`](crate::judge); 14
        /// and 16 belong to writing instructions, which
        /// [`instructions::build`](crate::instructions::build) stands in for here.
        ///
        /// More refusals may come, so a `match` needs an arm for the others. That
        /// arm has to refuse.
        ///
        /// ```
        /// use thimbleford::Refusal;
        ///
        /// let refusal = Refusal::ActionSolLimitExceeded;
        /// assert_eq!(refusal.number(), 7);
        /// assert_eq!(refusal.to_string(), "refused with 7, ActionSolLimitExceeded");
        /// assert!(refusal.sentence().contains("Order less"));
        /// ```
        #[derive(Clone, Copy, Debug, PartialEq, Eq, Hash)]
        #[non_exhaustive]
        pub enum Refusal {
            $(#[doc = concat!($number, ", ", $name, ". ", $sentence)] $refusal,)*
            /// A number that is not in the table. It is proved that none is
            /// answered. It is a refusal as any other: only 0 accepts, and this
            /// number cannot be 0.
            Unknown(NonZeroU32),
            /// Nothing was judged: the linked `libthimbleford.a` has another
            /// boundary than [`BOUNDARY_VERSION`](crate::BOUNDARY_VERSION).
            OtherArchive {
                /// The version of its boundary.
                version: u32,
            },
        }

        impl Refusal {
            /// Every refusal of the table, in the order of the numbers from 1.
            pub const ALL: &'static [Self] = &[$(Self::$refusal),*];

            /// The number in the table. It is never 0. Where no function of the
            /// table was asked, as with another archive, it is 2^32 - 1.
            #[must_use]
            pub const fn number(self) -> u32 {
                match self {
                    $(Self::$refusal => $number,)*
                    Self::Unknown(number) => number.get(),
                    Self::OtherArchive { .. } => u32::MAX,
                }
            }

            /// The name in the table.
            #[must_use]
            pub const fn name(self) -> &'static str {
                match self {
                    $(Self::$refusal => $name,)*
                    Self::Unknown(_) => "unknown",
                    Self::OtherArchive { .. } => "other archive",
                }
            }

            /// For the teacher: which rule said no, and what to do about it.
            #[must_use]
            pub const fn sentence(self) -> &'static str {
                match self {
                    $(Self::$refusal => $sentence,)*
                    Self::Unknown(_) => "The order was refused for a reason that has no name here. \
                        Tell whoever runs the order page.",
                    Self::OtherArchive { .. } => "No order can be judged: the order page was put \
                        together from parts that do not belong together. Tell whoever runs it.",
                }
            }
        }

        impl From<NonZeroU32> for Refusal {
            /// The refusal of a number, as one finds it in a log.
            fn from(number: NonZeroU32) -> Self {
                match number.get() {
                    $($number => Self::$refusal,)*
                    _ => Self::Unknown(number),
                }
            }
        }
    };
}

refusals! {
    1 ActionBufferInvalid "ActionBufferInvalid"
    "The spending rules for this tablet are not sound: there are more than 16, or one is incomplete, \
     unknown, repeated or already part-used. Nothing was saved; ask whoever wrote the rules to mend \
     them."

    2 ActionWhitelistBlacklistConflict "ActionWhitelistBlacklistConflict"
    "The spending rules list allowed programs and forbidden ones, and only one kind of list may be \
     used. Nothing was saved; ask whoever wrote the rules to keep one list."

    3 InvalidInstructionData "InvalidInstructionData"
    "The order is garbled: a part is missing, it has more than 16 steps, or it names an account \
     that it does not bring along. Place it again; if that is refused too, tell whoever runs the \
     order page."

    4 ActionProgramNotWhitelisted "ActionProgramNotWhitelisted"
    "The order uses a program that is not on this tablet's list of allowed ones, or whose entry \
     has expired. Use an allowed one, or ask the bursar to list this one."

    5 ActionProgramBlacklisted "ActionProgramBlacklisted"
    "The order uses a program that is forbidden on this tablet. Use another one, or ask the bursar \
     to take it off the list."

    6 ActionSolMaxPerTxExceeded "ActionSolMaxPerTxExceeded"
    "This order sends out more SOL than a single order may, or that rule has expired. Split the \
     order, or ask the bursar to renew or raise the maximum."

    7 ActionSolLimitExceeded "ActionSolLimitExceeded"
    "The order costs more SOL than this tablet has left, or its limit has expired. Order less, or \
     ask the bursar to renew or raise the limit."

    8 ActionSolRecurringLimitExceeded "ActionSolRecurringLimitExceeded"
    "The order costs more SOL than this tablet has left for now, or its limit has expired. Order \
     less, wait until the next period begins, or ask the bursar to renew or raise the limit."

    9 ActionTokenMaxPerTxExceeded "ActionTokenMaxPerTxExceeded"
    "This order spends more of a token than a single order may, or that rule has expired. Split \
     the order, or ask the bursar to renew or raise the maximum."

    10 ActionTokenLimitExceeded "ActionTokenLimitExceeded"
    "The order costs more of a token than this tablet has left, or its limit has expired. Order \
     less, or ask the bursar to renew or raise the limit."

    11 ActionTokenRecurringLimitExceeded "ActionTokenRecurringLimitExceeded"
    "The order costs more of a token than this tablet has left for now, or its limit has expired. \
     Order less, wait until the next period begins, or ask the bursar to renew or raise the limit."

    12 SessionTokenAuthorityChanged "SessionTokenAuthorityChanged"
    "The order would change who controls one of the school's token accounts, or remove the \
     account. Do not place it again; show it to the bursar."

    13 BadTable "bad table"
    "The accounts that came with the order are not laid out as they must be, or the vault's key is \
     not 32 bytes long. The order itself may be fine; tell whoever runs the order page."

    14 NoRoom "no room"
    "There was too little room to write the order down. The order itself may be fine; tell whoever \
     runs the order page."

    15 BadRegion "bad region"
    "The spending rules stored for this tablet are damaged, so no order can be judged by them. \
     Tell whoever runs the order page; the rules have to be set up anew."

    16 NotEncodable "not encodable"
    "The order is too large to be written down: more than 16 steps, or a step with too many \
     accounts or too much data. Split the order; if that is refused too, tell whoever runs the \
     order page."
}

impl Refusal {
    /// What a number of the boundary says: 0 alone accepts.
    pub(crate) fn check(number: u32) -> Result<(), Self> {
        match NonZeroU32::new(number) {
            None => Ok(()),
            Some(refused) => Err(refused.into()),
        }
    }
}

impl fmt::Display for Refusal {
    /// Number and name, for a log; [`Refusal::sentence`] is for people.
    fn fmt(&self, f: &mut fmt::Formatter<'_>) -> fmt::Result {
        match self {
            Self::OtherArchive { version } => write!(
                f,
                "not judged: libthimbleford.a has version {version} of the boundary, and this \
                 crate is made for version {BOUNDARY_VERSION}"
            ),
            _ => write!(f, "refused with {}, {}", self.number(), self.name()),
        }
    }
}

impl Error for Refusal {}

#[cfg(test)]
mod tests {
    use alloc::{format, string::ToString, vec::Vec};

    use super::Refusal;

    #[test]
    fn the_table_has_the_numbers_1_to_16_in_order() {
        let numbers: Vec<u32> = Refusal::ALL.iter().map(|r| r.number()).collect();
        assert_eq!(numbers, (1..=16).collect::<Vec<_>>());
    }

    #[test]
    fn each_number_says_its_refusal() {
        assert_eq!(Refusal::check(0), Ok(()));
        for refusal in Refusal::ALL {
            assert_eq!(Refusal::check(refusal.number()), Err(*refusal));
        }
    }

    #[test]
    fn a_number_outside_the_table_refuses() {
        for number in [17, 18, 256, 1 << 16, u32::MAX] {
            let refusal = Refusal::check(number).unwrap_err();
            assert!(matches!(refusal, Refusal::Unknown(_)));
            assert_eq!(refusal.number(), number);
            assert_eq!(
                refusal.to_string(),
                format!("refused with {number}, unknown")
            );
        }
    }

    #[test]
    fn each_sentence_is_its_own_and_says_what_to_do() {
        for (at, refusal) in Refusal::ALL.iter().enumerate() {
            let sentence = refusal.sentence();
            for other in &Refusal::ALL[..at] {
                assert_ne!(sentence, other.sentence());
                assert_ne!(refusal.name(), other.name());
            }
            // What said no, then what to do; each ends with its stop.
            assert!(sentence.matches(". ").count() >= 1 && sentence.ends_with('.'));
            assert!(!sentence.contains("  "), "{sentence}");
        }
    }
}
