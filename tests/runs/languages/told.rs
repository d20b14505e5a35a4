//! What the crate says of answers that no call of liburlcheck gives it: the library that answers is told.c.

use std::panic::{catch_unwind, set_hook};

/// What a call panics with.
fn said(call: fn()) -> String {
    *catch_unwind(call).unwrap_err().downcast::<String>().unwrap()
}

fn main() {
    set_hook(Box::new(|_| ()));
    let unknown = said(|| drop(urlcheck::violations("77")));
    assert_eq!(unknown, "liburlcheck 532 ends with 77, which no call of this crate brings about");
    let ruled = said(|| drop(urlcheck::violations("1 15")));
    assert_eq!(ruled, "liburlcheck has a rule 15, which this crate doesn't know");
    // (after the colon come the bytes, in the words of Rust)
    let written = said(|| drop(urlcheck::resolve("0")));
    assert_eq!(written.split(':').next(), Some("liburlcheck writes UTF-8"));
}
