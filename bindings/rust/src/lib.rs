//! Whether a text is a valid URL string (WHATWG URL Standard, sections 3.4 and 4.3), alone or against a base.
//!
//! ```
//! let valid = urlcheck::check("https://example.com/a?q")?;
//! assert_eq!(valid.host(), Some("example.com"));
//! assert_eq!(valid.path(), "/a");
//!
//! let text = "https://example.com/a b";
//! let refusal = urlcheck::check(text).unwrap_err();
//! assert_eq!((refusal.place(), refusal.rule().name()), (21, "code-point"));
//! assert_eq!(refusal.message(text), "U+0020 SPACE is not allowed in a URL");
//! # Ok::<(), urlcheck::Refusal>(())
//! ```
//!
//! The functions here check a text without a base, under the standard profile. A [`Checker`] has another
//! [`Profile`], or a [`Base`]. The checker itself is a library for C, of which each answer is proved; this crate hands
//! texts over without a copy. There is no state: any thread may call, and every type here is `Send` and `Sync`.
//!
//! A text is a `&str`, so it may hold NUL, and is never refused for not being UTF-8; of bytes see
//! [`std::str::from_utf8`]. If no memory is left, a call ends as Rust's own collections do.

#![deny(missing_docs, rust_2018_idioms, unsafe_op_in_unsafe_fn)]
#![warn(clippy::pedantic, clippy::undocumented_unsafe_blocks)]

mod base;
mod calls;
mod checker;
mod ffi;
mod many;
mod parts;
mod profile;
mod rule;
#[cfg(feature = "serde")]
mod serialized;
mod violation;

pub use base::Base;
pub use checker::Checker;
pub use many::Urls;
pub use parts::{HostKind, MendKind, Mended, Url, Valid};
pub use profile::{Profile, UnknownName};
pub use rule::Rule;
pub use violation::{Refusal, Violation};

/// The checker of the functions below.
const STANDARD: Checker<'static> = Checker::new(Profile::Standard);

/// The valid text with its parts, under the standard profile: see [`Checker::check`].
///
/// # Errors
///
/// The refusal of the text.
pub fn check(text: &str) -> Result<Valid<'_>, Refusal> {
    STANDARD.check(text)
}

/// Whether the text is valid under the standard profile: see [`Checker::is_valid`].
#[must_use]
pub fn is_valid(text: &str) -> bool {
    STANDARD.is_valid(text)
}

/// The URL that the text denotes, under the standard profile: see [`Checker::resolve`].
///
/// # Errors
///
/// The refusal of the text.
///
/// ```
/// let url = urlcheck::resolve("HTTP://EXAMPLE.com:80/a/../b")?;
/// assert_eq!(url.as_str(), "http://example.com/b");
/// assert_eq!(url.port(), None);
/// # Ok::<(), urlcheck::Refusal>(())
/// ```
pub fn resolve(text: &str) -> Result<Url, Refusal> {
    STANDARD.resolve(text)
}

/// The valid text to write in place of a refused one, under the standard profile: see [`Checker::mend`].
///
/// # Errors
///
/// The refusal of the text, if the edits make no valid text of it.
///
/// ```
/// let mended = urlcheck::mend("http://h/a b")?.expect("it isn't valid");
/// assert_eq!(mended.text, "http://h/a%20b");
/// assert_eq!(urlcheck::mend("http://h/")?, None);
/// # Ok::<(), urlcheck::Refusal>(())
/// ```
pub fn mend(text: &str) -> Result<Option<Mended>, Refusal> {
    STANDARD.mend(text)
}

/// All that is wrong with the text under the standard profile: see [`Checker::violations`].
///
/// ```
/// let violations = urlcheck::violations("http://x_y/ ^");
/// let found: Vec<_> = violations.iter().map(|one| (one.place, one.rule.name())).collect();
/// assert_eq!(found, [(7, "host-domain"), (11, "code-point"), (12, "code-point")]);
/// ```
#[must_use]
pub fn violations(text: &str) -> Vec<Violation> {
    STANDARD.violations(text)
}

/// The version of the library that answers, such as `0.5.0`.
#[must_use]
pub fn version() -> String {
    let version = calls::version();
    format!("{}.{}.{}", version / 10_000, version / 100 % 100, version % 100)
}
