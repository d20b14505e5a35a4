//! What is serialized, as JSON.

#![cfg(feature = "serde")]

use serde_json::{json, to_value};
use urlcheck::{Checker, Profile, Rule};

#[test]
fn a_valid_text_has_its_parts() {
    let valid = urlcheck::check("https://example.com:8080/a?q#f").unwrap();
    let wanted = json!({
        "text": "https://example.com:8080/a?q#f", "scheme": "https", "host": "example.com", "port": "8080",
        "path": "/a", "query": "q", "fragment": "f",
    });
    assert_eq!(to_value(valid).unwrap(), wanted);
    let bare = to_value(urlcheck::check("urn:isbn:1").unwrap()).unwrap();
    let wanted = json!({
        "text": "urn:isbn:1", "scheme": "urn", "host": null, "port": null, "path": "isbn:1", "query": null,
        "fragment": null,
    });
    assert_eq!(bare, wanted);
}

#[test]
fn a_refusal_has_its_rule_and_both_places() {
    let refusal = Checker::new(Profile::Wide).check("http://h/\u{e9} b").unwrap_err();
    let wanted = json!({ "rule": "code-point", "place": 10, "byte_place": 11, "profile": "wide" });
    assert_eq!(to_value(refusal).unwrap(), wanted);
    let violation = json!({ "rule": "code-point", "place": 10, "byte_place": 11 });
    assert_eq!(to_value(refusal.violation()).unwrap(), violation);
    assert_eq!(to_value(Rule::HostIpv6).unwrap(), json!("host-ipv6"));
}

#[test]
fn a_url_has_its_parts_and_kinds() {
    let wanted = json!({
        "text": "http://127.0.0.1:81/", "scheme": "http", "host": "127.0.0.1", "host_kind": "ipv4", "port": 81,
        "path": "/", "has_opaque_path": false, "query": null, "fragment": null,
    });
    assert_eq!(to_value(urlcheck::resolve("http://127.0.0.1:81").unwrap()).unwrap(), wanted);
    let opaque = to_value(urlcheck::resolve("urn:isbn:1").unwrap()).unwrap();
    assert_eq!((&opaque["host_kind"], &opaque["has_opaque_path"]), (&json!(null), &json!(true)));
}

#[test]
fn a_mended_text_has_its_kind() {
    let mended = urlcheck::mend("http://h/a b").unwrap();
    assert_eq!(to_value(mended).unwrap(), json!({ "text": "http://h/a%20b", "kind": "same", "is_offered": true }));
}
