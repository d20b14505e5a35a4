//! The checks, under a profile, alone or against a base.

use crate::violation::{fail, read_finding};
use crate::{calls, ffi};
use crate::{Base, HostKind, MendKind, Mended, Profile, Refusal, Rule, Url, Valid, Violation};

/// Checks texts under a profile, alone or against a base. It is a small value, to be copied.
///
/// ```
/// use urlcheck::{Base, Checker, Profile};
///
/// assert!(Checker::new(Profile::Wide).is_valid("http://a_b/"));
///
/// let page = Base::new("https://example.com/a/b.html", Profile::Standard)?;
/// assert_eq!(page.checker().resolve("../c")?.as_str(), "https://example.com/c");
/// # Ok::<(), urlcheck::Refusal>(())
/// ```
#[derive(Clone, Copy, Debug, Default)]
pub struct Checker<'base> {
    profile: Profile,
    base: Option<&'base Base>,
}

impl<'base> Checker<'base> {
    /// The checker of texts without a base, under a profile.
    #[must_use]
    pub const fn new(profile: Profile) -> Self {
        Self { profile, base: None }
    }

    /// The checker of texts against a base, under its profile.
    #[must_use]
    pub const fn against(base: &'base Base) -> Self {
        Self { profile: base.profile(), base: Some(base) }
    }

    /// The profile.
    #[must_use]
    pub const fn profile(self) -> Profile {
        self.profile
    }

    /// The base, if texts are checked against one.
    #[must_use]
    pub const fn base(self) -> Option<&'base Base> {
        self.base
    }

    /// The valid text with its parts. It takes no memory, but for domains that aren't ASCII.
    ///
    /// # Errors
    ///
    /// The refusal of the text.
    pub fn check(self, text: &str) -> Result<Valid<'_>, Refusal> {
        let answer = calls::check(text, self.profile.number(), self.prepared());
        read_finding(&answer.found, self.profile)?;
        Ok(Valid::new(text, answer.parts))
    }

    /// Whether the text is valid: the fastest call. It is also false if no memory is left for a domain that isn't
    /// ASCII, which [`Checker::check`] tells apart.
    #[must_use]
    pub fn is_valid(self, text: &str) -> bool {
        calls::is_valid(text, self.profile.number(), self.prepared())
    }

    /// The URL that the text denotes, against the base if there is one.
    ///
    /// # Errors
    ///
    /// The refusal of the text.
    pub fn resolve(self, text: &str) -> Result<Url, Refusal> {
        let (record, url) = calls::resolve(text, self.profile.number(), self.base_text());
        read_finding(&record.found, self.profile)?;
        let host_kind = HostKind::from_number(record.host);
        Ok(Url { text: url, parts: record.parts, host_kind, has_opaque_path: record.opaque_path != 0 })
    }

    /// The valid text to write in place of a refused one, or none if the text is valid itself.
    ///
    /// # Errors
    ///
    /// The refusal of the text, if the edits make no valid text of it.
    pub fn mend(self, text: &str) -> Result<Option<Mended>, Refusal> {
        let (mended, new) = calls::mend(text, self.profile.number(), self.base_text());
        if mended.found.verdict == ffi::MENDED {
            let kind = MendKind::from_number(mended.kind);
            return Ok(Some(Mended { text: new, kind, is_offered: mended.offered != 0 }));
        }
        read_finding(&mended.found, self.profile)?;
        Ok(None)
    }

    /// All that is wrong with the text, by place and at one place by rule; empty if it is valid.
    #[must_use]
    pub fn violations(self, text: &str) -> Vec<Violation> {
        let (found, faults) = calls::faults(text, self.profile.number(), self.prepared());
        if !matches!(found.verdict, ffi::VALID | ffi::REFUSED) {
            fail(found.verdict)
        }
        let read = |fault: ffi::Fault| Violation {
            byte_place: fault.byte_place,
            place: fault.place,
            rule: Rule::from_number(fault.rule),
        };
        faults.into_iter().map(read).collect()
    }

    pub(crate) fn prepared(self) -> Option<&'base ffi::Base> {
        self.base.map(Base::prepared)
    }

    pub(crate) fn base_text(self) -> Option<&'base str> {
        self.base.map(Base::as_str)
    }
}
