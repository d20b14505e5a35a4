//! Texts with their parts.

use std::cmp::Ordering;
use std::fmt;
use std::str::FromStr;

use crate::ffi::{Span, Spans};
use crate::Refusal;

/// The part of a text that a span is, or none if the text lacks it.
fn slice(text: &str, span: Span) -> Option<&str> {
    span.present.then(|| &text[span.start..span.start + span.length])
}

/// A valid URL string, with its parts as they are written: capitals, escapes, dot segments and a default port stay. A
/// reference has nothing of its base.
#[derive(Clone, Copy, PartialEq, Eq, Hash)]
pub struct Valid<'text> {
    text: &'text str,
    parts: Spans,
}

impl<'text> Valid<'text> {
    pub(crate) const fn new(text: &'text str, parts: Spans) -> Self {
        Self { text, parts }
    }

    /// The whole text.
    #[must_use]
    pub const fn as_str(&self) -> &'text str {
        self.text
    }

    /// The scheme, without its `:`. A reference has none.
    #[must_use]
    pub fn scheme(&self) -> Option<&'text str> {
        slice(self.text, self.parts.scheme)
    }

    /// The host, after `//`. It may be empty.
    #[must_use]
    pub fn host(&self) -> Option<&'text str> {
        slice(self.text, self.parts.host)
    }

    /// The port, without its `:`. It may be empty.
    #[must_use]
    pub fn port(&self) -> Option<&'text str> {
        slice(self.text, self.parts.port)
    }

    /// The path, with its first `/`. It may be empty.
    #[must_use]
    pub fn path(&self) -> &'text str {
        slice(self.text, self.parts.path).unwrap_or_default()
    }

    /// The query, without its `?`. It may be empty.
    #[must_use]
    pub fn query(&self) -> Option<&'text str> {
        slice(self.text, self.parts.query)
    }

    /// The fragment, without its `#`. It may be empty.
    #[must_use]
    pub fn fragment(&self) -> Option<&'text str> {
        slice(self.text, self.parts.fragment)
    }
}

impl fmt::Debug for Valid<'_> {
    fn fmt(&self, out: &mut fmt::Formatter<'_>) -> fmt::Result {
        out.debug_struct("Valid")
            .field("scheme", &self.scheme())
            .field("host", &self.host())
            .field("port", &self.port())
            .field("path", &self.path())
            .field("query", &self.query())
            .field("fragment", &self.fragment())
            .finish()
    }
}

impl fmt::Display for Valid<'_> {
    fn fmt(&self, out: &mut fmt::Formatter<'_>) -> fmt::Result {
        out.pad(self.text)
    }
}

impl AsRef<str> for Valid<'_> {
    fn as_ref(&self) -> &str {
        self.text
    }
}

/// The kinds of hosts (URL Standard, section 3.1).
#[derive(Clone, Copy, Debug, PartialEq, Eq, Hash)]
#[non_exhaustive]
pub enum HostKind {
    /// A domain, of a special URL.
    Domain,
    /// An IPv4 address.
    Ipv4,
    /// An IPv6 address, written in brackets.
    Ipv6,
    /// An opaque host, of a URL that isn't special.
    Opaque,
    /// The empty host.
    Empty,
}

impl HostKind {
    /// The kind with a number of the library, or none.
    pub(crate) const fn from_number(number: u32) -> Option<Self> {
        match number {
            1 => Some(Self::Domain),
            2 => Some(Self::Ipv4),
            3 => Some(Self::Ipv6),
            4 => Some(Self::Opaque),
            5 => Some(Self::Empty),
            _ => None,
        }
    }

    /// The kind's name, such as `ipv4`.
    #[must_use]
    pub const fn name(self) -> &'static str {
        match self {
            Self::Domain => "domain",
            Self::Ipv4 => "ipv4",
            Self::Ipv6 => "ipv6",
            Self::Opaque => "opaque",
            Self::Empty => "empty",
        }
    }
}

/// The URL that a valid text denotes, serialized (URL Standard, section 4.5), with its parts.
#[derive(Clone, PartialEq, Eq, Hash)]
pub struct Url {
    pub(crate) text: String,
    pub(crate) parts: Spans,
    pub(crate) host_kind: Option<HostKind>,
    pub(crate) has_opaque_path: bool,
}

impl Url {
    /// The whole URL.
    #[must_use]
    pub fn as_str(&self) -> &str {
        &self.text
    }

    /// The scheme, without its `:`.
    #[must_use]
    pub fn scheme(&self) -> &str {
        slice(&self.text, self.parts.scheme).unwrap_or_default()
    }

    /// The host: a domain in ASCII, an address as the Standard writes it.
    #[must_use]
    pub fn host(&self) -> Option<&str> {
        slice(&self.text, self.parts.host)
    }

    /// The kind of the host, if there is one.
    #[must_use]
    pub const fn host_kind(&self) -> Option<HostKind> {
        self.host_kind
    }

    /// The port, if it isn't the scheme's default port.
    #[must_use]
    pub fn port(&self) -> Option<u16> {
        slice(&self.text, self.parts.port).and_then(|port| port.parse().ok())
    }

    /// The path. If it isn't opaque or empty it begins with `/`, and its segments are what is between two of these.
    #[must_use]
    pub fn path(&self) -> &str {
        slice(&self.text, self.parts.path).unwrap_or_default()
    }

    /// Whether the path is opaque, as in `urn:isbn:1`: it has no segments.
    #[must_use]
    pub const fn has_opaque_path(&self) -> bool {
        self.has_opaque_path
    }

    /// The query, without its `?`.
    #[must_use]
    pub fn query(&self) -> Option<&str> {
        slice(&self.text, self.parts.query)
    }

    /// The fragment, without its `#`.
    #[must_use]
    pub fn fragment(&self) -> Option<&str> {
        slice(&self.text, self.parts.fragment)
    }
}

impl fmt::Debug for Url {
    fn fmt(&self, out: &mut fmt::Formatter<'_>) -> fmt::Result {
        out.debug_tuple("Url").field(&self.text).finish()
    }
}

impl fmt::Display for Url {
    fn fmt(&self, out: &mut fmt::Formatter<'_>) -> fmt::Result {
        out.pad(&self.text)
    }
}

impl AsRef<str> for Url {
    fn as_ref(&self) -> &str {
        &self.text
    }
}

impl PartialOrd for Url {
    fn partial_cmp(&self, other: &Self) -> Option<Ordering> {
        Some(self.cmp(other))
    }
}

impl Ord for Url {
    fn cmp(&self, other: &Self) -> Ordering {
        self.text.cmp(&other.text)
    }
}

impl PartialEq<str> for Url {
    fn eq(&self, other: &str) -> bool {
        self.text == other
    }
}

impl PartialEq<&str> for Url {
    fn eq(&self, other: &&str) -> bool {
        self.text == *other
    }
}

/// Resolves a text alone, under the standard profile.
impl FromStr for Url {
    type Err = Refusal;

    fn from_str(text: &str) -> Result<Self, Refusal> {
        crate::resolve(text)
    }
}

impl From<Url> for String {
    fn from(url: Url) -> Self {
        url.text
    }
}

/// A valid URL string that was made of a refused one by local edits.
#[derive(Clone, Debug, PartialEq, Eq, Hash)]
pub struct Mended {
    /// The valid text.
    pub text: String,
    /// How it differs from the refused text.
    pub kind: MendKind,
    /// Whether reports offer it as what to write. If not, its author seems to have meant another link.
    pub is_offered: bool,
}

/// How a mended text differs from the refused one.
#[derive(Clone, Copy, Debug, PartialEq, Eq, Hash)]
#[non_exhaustive]
pub enum MendKind {
    /// A second parser reads both as the same URL.
    Same,
    /// It doesn't; some code points of the refused text are percent-encoded, and nothing else is changed.
    Escaped,
    /// Neither: the author has to look.
    Changed,
}

impl MendKind {
    pub(crate) const fn from_number(number: u32) -> Self {
        match number {
            1 => Self::Same,
            2 => Self::Escaped,
            _ => Self::Changed,
        }
    }

    /// The name by which the command `urlcheck mend` writes the kind, such as `same`.
    #[must_use]
    pub const fn name(self) -> &'static str {
        match self {
            Self::Same => "same",
            Self::Escaped => "escaped",
            Self::Changed => "changed",
        }
    }
}

impl fmt::Display for MendKind {
    fn fmt(&self, out: &mut fmt::Formatter<'_>) -> fmt::Result {
        out.pad(self.name())
    }
}
