//! Bases.

use std::fmt;
use std::hash::{Hash, Hasher};
use std::str::FromStr;

use crate::violation::read_finding;
use crate::{calls, ffi, Checker, Profile, Refusal};

/// The URL against which references are read, such as the address of their page. It is a valid URL string, checked once
/// for all texts. Threads may share it.
#[derive(Clone)]
pub struct Base {
    text: Box<str>,
    profile: Profile,
    prepared: ffi::Base,
}

impl Base {
    /// Checks a base under a profile, by which texts are then checked against it.
    ///
    /// # Errors
    ///
    /// The refusal of the base.
    ///
    /// ```
    /// use urlcheck::{Base, Profile, Rule};
    ///
    /// let refusal = Base::new("a/b", Profile::Standard).unwrap_err();
    /// assert_eq!(refusal.rule(), Rule::NoScheme);
    /// ```
    pub fn new(text: impl Into<Box<str>>, profile: Profile) -> Result<Self, Refusal> {
        let text = text.into();
        let prepared = calls::prepare(&text, profile.number());
        read_finding(&prepared.found, profile)?;
        Ok(Self { text, profile, prepared })
    }

    /// The base's text, as it was given.
    #[must_use]
    pub fn as_str(&self) -> &str {
        &self.text
    }

    /// The profile by which the base was checked.
    #[must_use]
    pub const fn profile(&self) -> Profile {
        self.profile
    }

    /// The checker of texts against this base.
    #[must_use]
    pub const fn checker(&self) -> Checker<'_> {
        Checker::against(self)
    }

    pub(crate) const fn prepared(&self) -> &ffi::Base {
        &self.prepared
    }
}

impl fmt::Debug for Base {
    fn fmt(&self, out: &mut fmt::Formatter<'_>) -> fmt::Result {
        out.debug_struct("Base").field("text", &self.text).field("profile", &self.profile).finish_non_exhaustive()
    }
}

impl fmt::Display for Base {
    fn fmt(&self, out: &mut fmt::Formatter<'_>) -> fmt::Result {
        out.pad(&self.text)
    }
}

impl PartialEq for Base {
    fn eq(&self, other: &Self) -> bool {
        self.text == other.text && self.profile == other.profile
    }
}

impl Eq for Base {}

impl Hash for Base {
    fn hash<H: Hasher>(&self, state: &mut H) {
        self.text.hash(state);
        self.profile.hash(state);
    }
}

/// A base under the standard profile.
impl FromStr for Base {
    type Err = Refusal;

    fn from_str(text: &str) -> Result<Self, Refusal> {
        Self::new(text, Profile::Standard)
    }
}
