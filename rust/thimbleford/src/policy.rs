//! A policy as a co-signer keeps it.

use alloc::vec::Vec;
use core::fmt;

use crate::{
    create, dry_run, judge,
    region::{self, Action, RegionError, RegionFault},
    Call, Refusal,
};

/// A policy in stored form: an action region that limits something.
///
/// An empty region limits nothing, so bytes that were lost must not pass for a
/// policy. There is no [`Default`], and neither actions nor stored bytes make an
/// empty one. A session that may spend everything is asked for by name, with
/// [`Policy::unlimited`].
///
/// ```
/// use thimbleford::region::{Action, RegionFault, Rule, NEVER};
/// use thimbleford::{Policy, Refusal};
///
/// let limit = Action { expires_at: NEVER, rule: Rule::SolLimit { remaining: 100 } };
/// let row = Policy::create(&[limit])?.into_bytes();
///
/// let policy = Policy::from_stored(row)?;
/// assert_eq!(policy.actions(), [limit]);
///
/// let lost = Policy::from_stored([]).unwrap_err();
/// assert_eq!(lost.fault, RegionFault::Empty);
/// assert_eq!(lost.refusal(), Refusal::BadRegion);
/// # Ok::<(), thimbleford::region::RegionError>(())
/// ```
///
/// ```compile_fail,E0277
/// # use thimbleford::Policy;
/// let row: Option<Policy> = None;
/// let policy = row.unwrap_or_default();
/// ```
#[derive(Clone, PartialEq, Eq)]
#[must_use = "a policy that is not stored is lost"]
pub struct Policy {
    region: Vec<u8>,
}

impl Policy {
    /// A policy to store, of at least one action.
    ///
    /// # Errors
    /// Where there is no action, and where creation refuses them.
    pub fn create(actions: &[Action]) -> Result<Self, RegionError> {
        let region = region::build(actions)?;
        if region.is_empty() {
            let refusal = Refusal::ActionBufferInvalid;
            return Err(RegionError::new(RegionFault::Empty, refusal));
        }
        // What is built is accepted; an archive of another version refuses it all the same.
        create(&region).map_err(|refusal| RegionError::new(RegionFault::Refused, refusal))?;
        Ok(Self { region })
    }

    /// The policy of bytes that were stored, by [`Policy::into_bytes`] or
    /// [`Policy::as_bytes`].
    ///
    /// # Errors
    /// Where there are none, and where they are not in stored form.
    pub fn from_stored(bytes: impl Into<Vec<u8>>) -> Result<Self, RegionError> {
        let region = bytes.into();
        if region::read(&region)?.is_empty() {
            return Err(RegionError::new(RegionFault::Empty, Refusal::BadRegion));
        }
        Ok(Self { region })
    }

    /// The policy that limits nothing: every sound call is accepted.
    ///
    /// It has no bytes, and [`Policy::from_stored`] refuses those. Whoever gives
    /// such a session keeps a mark of its own that says so.
    pub const fn unlimited() -> Self {
        Self { region: Vec::new() }
    }

    /// Whether this is the policy that limits nothing.
    #[must_use]
    pub fn is_unlimited(&self) -> bool {
        self.region.is_empty()
    }

    /// The bytes to store.
    #[must_use]
    pub fn as_bytes(&self) -> &[u8] {
        &self.region
    }

    /// The bytes to store.
    #[must_use]
    pub fn into_bytes(self) -> Vec<u8> {
        self.region
    }

    /// Its actions, with what is left in each.
    #[must_use]
    #[allow(clippy::missing_panics_doc)]
    pub fn actions(&self) -> Vec<Action> {
        // It was in stored form when it was made, and it is proved that judging keeps that. An
        // empty list would say that nothing is limited.
        region::read(&self.region).expect("a policy is in stored form")
    }

    /// Judges a call and settles it, as [`judge`] does: an accepted call lowers
    /// what is left, and the policy has to be stored before the transaction is
    /// signed. A refused one changes nothing.
    ///
    /// # Errors
    /// The refusal.
    pub fn judge(&mut self, call: &Call<'_>) -> Result<(), Refusal> {
        judge(&mut self.region, call)
    }

    /// What [`Policy::judge`] would answer now, as [`dry_run`] does: nothing is
    /// settled.
    ///
    /// # Errors
    /// The refusal.
    pub fn dry_run(&self, call: &Call<'_>) -> Result<(), Refusal> {
        dry_run(&self.region, call)
    }
}

impl fmt::Debug for Policy {
    fn fmt(&self, f: &mut fmt::Formatter<'_>) -> fmt::Result {
        f.debug_tuple("Policy").field(&self.actions()).finish()
    }
}
