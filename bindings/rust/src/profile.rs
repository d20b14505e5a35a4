//! The profiles.

use std::error::Error;
use std::fmt;
use std::str::FromStr;

/// Which texts are valid. Each profile accepts what the one before it accepts.
#[derive(Clone, Copy, Debug, Default, PartialEq, Eq, PartialOrd, Ord, Hash)]
#[non_exhaustive]
pub enum Profile {
    /// The URL Standard's valid URL strings.
    #[default]
    Standard,
    /// Also `_` and hyphens anywhere in domains, and any segments after an authority.
    Wide,
    /// Each text that the Standard's parser accepts without a validation error, and no other.
    Parser,
}

impl Profile {
    /// The profiles, in the order of their numbers.
    pub const ALL: [Self; 3] = [Self::Standard, Self::Wide, Self::Parser];

    /// The name by which the command `urlcheck` knows the profile, such as `wide`.
    #[must_use]
    pub const fn name(self) -> &'static str {
        match self {
            Self::Standard => "standard",
            Self::Wide => "wide",
            Self::Parser => "parser",
        }
    }

    /// The number of the profile in `urlcheck.h`.
    pub(crate) const fn number(self) -> u32 {
        self as u32
    }
}

impl fmt::Display for Profile {
    fn fmt(&self, out: &mut fmt::Formatter<'_>) -> fmt::Result {
        out.pad(self.name())
    }
}

impl FromStr for Profile {
    type Err = UnknownName;

    fn from_str(name: &str) -> Result<Self, UnknownName> {
        Self::ALL.into_iter().find(|profile| profile.name() == name).ok_or(UnknownName { what: "profile" })
    }
}

/// A name that no profile, or no rule, has.
#[derive(Clone, Copy, Debug, PartialEq, Eq)]
pub struct UnknownName {
    pub(crate) what: &'static str,
}

impl fmt::Display for UnknownName {
    fn fmt(&self, out: &mut fmt::Formatter<'_>) -> fmt::Result {
        write!(out, "no {} has this name", self.what)
    }
}

impl Error for UnknownName {}
