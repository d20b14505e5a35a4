//! The rules, and the fixed texts that the library has of each.

use std::fmt;
use std::str::FromStr;
use std::sync::OnceLock;

use crate::profile::UnknownName;
use crate::{calls, ffi};

/// A rule that a text can violate. Of several violations at one place the first in this order is named.
#[derive(Clone, Copy, Debug, PartialEq, Eq, PartialOrd, Ord, Hash)]
#[non_exhaustive]
pub enum Rule {
    /// `no-scheme`
    NoScheme = 1,
    /// `opaque-base`
    OpaqueBase,
    /// `two-slashes`
    TwoSlashes,
    /// `host-missing`
    HostMissing,
    /// `host-domain`
    HostDomain,
    /// `host-number`
    HostNumber,
    /// `host-ipv6`
    HostIpv6,
    /// `host-code-point`
    HostCodePoint,
    /// `port-digit`
    PortDigit,
    /// `port-range`
    PortRange,
    /// `first-segment-empty`
    FirstSegmentEmpty,
    /// `drive-after-host`
    DriveAfterHost,
    /// `code-point`
    CodePoint,
    /// `percent`
    Percent,
}

/// The texts of one rule, each asked for when it is first needed.
type Texts = [OnceLock<Box<str>>; 5];

impl Rule {
    /// The rules, in the order of their numbers.
    pub const ALL: [Self; 14] = [
        Self::NoScheme,
        Self::OpaqueBase,
        Self::TwoSlashes,
        Self::HostMissing,
        Self::HostDomain,
        Self::HostNumber,
        Self::HostIpv6,
        Self::HostCodePoint,
        Self::PortDigit,
        Self::PortRange,
        Self::FirstSegmentEmpty,
        Self::DriveAfterHost,
        Self::CodePoint,
        Self::Percent,
    ];

    /// The rule's name, such as `host-domain`.
    #[must_use]
    pub fn name(self) -> &'static str {
        self.text(ffi::text::RULE_NAME)
    }

    /// What is wrong at the place of a violation, without the code point that is there: [`Violation::message`] names it.
    ///
    /// [`Violation::message`]: crate::Violation::message
    #[must_use]
    pub fn sentence(self) -> &'static str {
        self.text(ffi::text::RULE_SENTENCE)
    }

    /// The address of the section of the URL Standard that has the rule.
    #[must_use]
    pub fn address(self) -> &'static str {
        self.text(ffi::text::RULE_ADDRESS)
    }

    /// What the rule requires of a text.
    #[must_use]
    pub fn requires(self) -> &'static str {
        self.text(ffi::text::RULE_REQUIRES)
    }

    /// The number of that section, and what it calls what the rule is about.
    #[must_use]
    pub fn section(self) -> &'static str {
        self.text(ffi::text::RULE_SECTION)
    }

    /// The number of the rule in `urlcheck.h`.
    pub(crate) const fn number(self) -> u32 {
        self as u32
    }

    /// The rule with a number of the library.
    pub(crate) fn from_number(number: u32) -> Self {
        let found = Self::ALL.into_iter().find(|rule| rule.number() == number);
        found.unwrap_or_else(|| panic!("liburlcheck has a rule {number}, which this crate doesn't know"))
    }

    fn text(self, what: u32) -> &'static str {
        static TEXTS: [Texts; 14] = {
            // (a constant is what an array repeats)
            #[allow(clippy::declare_interior_mutable_const)]
            const UNKNOWN: OnceLock<Box<str>> = OnceLock::new();
            #[allow(clippy::declare_interior_mutable_const)]
            const NONE: Texts = [UNKNOWN; 5];
            [NONE; 14]
        };
        TEXTS[self as usize - 1][what as usize].get_or_init(|| calls::fixed_text(what, self.number()).into_boxed_str())
    }
}

impl fmt::Display for Rule {
    fn fmt(&self, out: &mut fmt::Formatter<'_>) -> fmt::Result {
        out.pad(self.name())
    }
}

impl FromStr for Rule {
    type Err = UnknownName;

    fn from_str(name: &str) -> Result<Self, UnknownName> {
        Self::ALL.into_iter().find(|rule| rule.name() == name).ok_or(UnknownName { what: "rule" })
    }
}
