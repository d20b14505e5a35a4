//! What is wrong with a text.

use std::error::Error;
use std::fmt;

use crate::ffi;
use crate::{calls, Profile, Rule};

/// A rule that a text violates at a place.
#[derive(Clone, Copy, Debug, PartialEq, Eq, PartialOrd, Ord, Hash)]
pub struct Violation {
    /// The wrong place in the text, in bytes from 0: an index that `&text[..byte_place]` accepts.
    pub byte_place: usize,
    /// The same place in code points from 0.
    pub place: usize,
    /// The rule.
    pub rule: Rule,
}

impl Violation {
    /// The sentence on this violation of the text, checked by this profile: it names the code point at the place, where
    /// one is there. If the place is after the end of the text, it is the rule's own sentence.
    #[must_use]
    pub fn message(&self, text: &str, profile: Profile) -> String {
        let (found, message) = calls::message(text, profile.number(), self.rule.number(), self.place);
        match found.verdict {
            ffi::DONE => message,
            ffi::MEMORY => out_of_memory(),
            _ => self.rule.sentence().to_owned(),
        }
    }
}

impl fmt::Display for Violation {
    fn fmt(&self, out: &mut fmt::Formatter<'_>) -> fmt::Result {
        write!(out, "at place {}: {} [{}]", self.place, self.rule.sentence(), self.rule)
    }
}

impl Error for Violation {}

/// Why a text, or a base, isn't valid: its first violation, and if several are at that place the one whose rule is first.
#[derive(Clone, Copy, Debug, PartialEq, Eq, Hash)]
pub struct Refusal {
    violation: Violation,
    profile: Profile,
}

impl Refusal {
    /// The violation.
    #[must_use]
    pub const fn violation(&self) -> Violation {
        self.violation
    }

    /// The rule that is violated.
    #[must_use]
    pub const fn rule(&self) -> Rule {
        self.violation.rule
    }

    /// The wrong place in the text, in code points from 0.
    #[must_use]
    pub const fn place(&self) -> usize {
        self.violation.place
    }

    /// The wrong place in the text, in bytes from 0.
    #[must_use]
    pub const fn byte_place(&self) -> usize {
        self.violation.byte_place
    }

    /// The profile under which the text was checked.
    #[must_use]
    pub const fn profile(&self) -> Profile {
        self.profile
    }

    /// The sentence on this refusal of the text: see [`Violation::message`].
    #[must_use]
    pub fn message(&self, text: &str) -> String {
        self.violation.message(text, self.profile)
    }
}

impl fmt::Display for Refusal {
    fn fmt(&self, out: &mut fmt::Formatter<'_>) -> fmt::Result {
        self.violation.fmt(out)
    }
}

impl Error for Refusal {}

/// What a finding of a text or of a base says: nothing if it is valid, otherwise the refusal.
pub(crate) fn read_finding(found: &ffi::Finding, profile: Profile) -> Result<(), Refusal> {
    match found.verdict {
        ffi::VALID => Ok(()),
        ffi::REFUSED | ffi::BASE_REFUSED => {
            let rule = Rule::from_number(found.rule);
            let violation = Violation { byte_place: found.byte_place, place: found.place, rule };
            Err(Refusal { violation, profile })
        }
        verdict => fail(verdict),
    }
}

/// The ends that no text and no base of this crate brings about, but for want of memory.
#[cold]
pub(crate) fn fail(verdict: u32) -> ! {
    if verdict == ffi::MEMORY {
        out_of_memory()
    }
    panic!("liburlcheck {} ends with {verdict}, which no call of this crate brings about", calls::version())
}

/// Ends as Rust's own collections do if there is no memory.
#[cold]
fn out_of_memory() -> ! {
    std::alloc::handle_alloc_error(std::alloc::Layout::new::<[usize; 8]>())
}
