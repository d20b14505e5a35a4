//! Each call, on what it is for and on what a caller may hand in by mistake. (Two words of the crate aren't met: "an offset
//! into memory" and "a place in memory", which a number of 64 bits from the library always is where `usize` has 64 too.
//! tests/runs/languages/told.rs meets the other answers that no text has.)

use std::error::Error;
use std::thread;

use urlcheck::{Base, Checker, HostKind, MendKind, Profile, Refusal, Rule, Urls, Valid, Violation};

fn assert_shared<T: Send + Sync + 'static>() {}

#[test]
fn every_type_is_shared_between_threads() {
    assert_shared::<Base>();
    assert_shared::<Checker<'static>>();
    assert_shared::<Refusal>();
    assert_shared::<Urls>();
    assert_shared::<Valid<'static>>();
    assert_shared::<urlcheck::Url>();
}

#[test]
fn the_library_has_the_version_of_the_crate() {
    assert_eq!(urlcheck::version(), env!("CARGO_PKG_VERSION"));
}

#[test]
fn a_valid_text_has_its_parts() {
    let valid = urlcheck::check("HTTPS://Example.com:443/a/../b?x#y").unwrap();
    assert_eq!(valid.scheme(), Some("HTTPS"));
    assert_eq!(valid.host(), Some("Example.com"));
    assert_eq!(valid.port(), Some("443"));
    assert_eq!(valid.path(), "/a/../b");
    assert_eq!((valid.query(), valid.fragment()), (Some("x"), Some("y")));
    let plain = urlcheck::check("urn:isbn:0451450523").unwrap();
    assert_eq!((plain.host(), plain.port(), plain.query(), plain.fragment()), (None, None, None, None));
    assert_eq!((plain.path(), plain.to_string()), ("isbn:0451450523", "urn:isbn:0451450523".to_owned()));
}

#[test]
fn parts_outlive_the_answer() {
    let text = String::from("http://h/a");
    let host = urlcheck::check(&text).unwrap().host();
    assert_eq!(host, Some("h"));
}

#[test]
fn a_refusal_has_its_place_in_code_points_and_bytes() {
    let text = "http://h/\u{e9}\u{1f600} b";
    let refusal = urlcheck::check(text).unwrap_err();
    assert_eq!((refusal.rule(), refusal.place(), refusal.byte_place()), (Rule::CodePoint, 11, 15));
    assert_eq!(&text[refusal.byte_place()..], " b");
    assert_eq!(refusal.message(text), "U+0020 SPACE is not allowed in a URL");
    let error: Box<dyn Error + Send + Sync> = refusal.into();
    assert_eq!(error.to_string(), "at place 11: this code point is not allowed in a URL [code-point]");
}

#[test]
fn a_message_names_no_option() {
    let refusal = urlcheck::check("http://a_b/").unwrap_err();
    assert!(!refusal.message("http://a_b/").contains("profile"), "{}", refusal.message("http://a_b/"));
    assert!(Checker::new(Profile::Wide).is_valid("http://a_b/"));
}

#[test]
fn a_message_on_another_text_is_the_sentence_of_the_rule() {
    let refusal = urlcheck::check("http://h/a b").unwrap_err();
    assert_eq!(refusal.message(""), Rule::CodePoint.sentence());
}

#[test]
fn empty_texts_and_nul_are_texts() {
    assert_eq!(urlcheck::check("").unwrap_err().rule(), Rule::NoScheme);
    let refusal = urlcheck::check("http://h/\0a").unwrap_err();
    assert_eq!((refusal.rule(), refusal.place()), (Rule::CodePoint, 9));
    assert!(!urlcheck::is_valid("http://h/\0"));
    assert!(Base::new("", Profile::Standard).is_err());
    assert_eq!(Base::new("http://h/\0", Profile::Standard).unwrap_err().place(), 9);
    let base = Base::new("http://h/a?q", Profile::Standard).unwrap();
    assert_eq!(base.checker().resolve("").unwrap().as_str(), "http://h/a?q");
}

#[test]
fn a_url_has_its_parts() {
    let base: Base = "https://example.com:8080/a/b".parse().unwrap();
    let url = base.checker().resolve("../\u{e9}?q#f").unwrap();
    assert_eq!(url.as_str(), "https://example.com:8080/%C3%A9?q#f");
    assert_eq!((url.scheme(), url.host(), url.port()), ("https", Some("example.com"), Some(8080)));
    assert_eq!((url.path(), url.query(), url.fragment()), ("/%C3%A9", Some("q"), Some("f")));
    assert_eq!((url.host_kind(), url.has_opaque_path()), (Some(HostKind::Domain), false));
    let opaque = urlcheck::resolve("urn:isbn:1").unwrap();
    assert_eq!((opaque.host_kind(), opaque.has_opaque_path()), (None, true));
}

#[test]
fn a_url_may_be_much_longer_than_its_text() {
    let text = format!("http://h/{}", "\u{1f600}".repeat(10_000));
    let url = urlcheck::resolve(&text).unwrap();
    assert_eq!(url.as_str(), format!("http://h/{}", "%F0%9F%98%80".repeat(10_000)));
}

#[test]
fn a_refused_text_is_mended() {
    let mended = urlcheck::mend("http://h/a b").unwrap().unwrap();
    assert_eq!((mended.text.as_str(), mended.kind, mended.is_offered), ("http://h/a%20b", MendKind::Same, true));
    assert_eq!(urlcheck::mend("http://h/").unwrap(), None);
    assert_eq!(urlcheck::mend("http://[::1").unwrap_err().rule(), Rule::HostIpv6);
}

#[test]
fn all_violations_are_found_however_many_they_are() {
    let text = format!("http://h/{}", "^".repeat(1000));
    let violations = urlcheck::violations(&text);
    let places: Vec<usize> = violations.iter().map(|violation| violation.place).collect();
    assert_eq!(places, (9..1009).collect::<Vec<usize>>());
    assert!(urlcheck::violations("http://h/").is_empty());
}

#[test]
fn many_texts_are_checked_as_each_is() {
    let texts = ["http://h/", "", "x y", "http://h/\u{e9}\u{1f600}^", "//g/a"];
    let base = Base::new("http://h/a/b", Profile::Wide).unwrap();
    for checker in [Checker::new(Profile::Standard), base.checker()] {
        let wanted: Vec<Result<(), Violation>> =
            texts.iter().map(|text| checker.check(text).map(drop).map_err(|refusal| refusal.violation())).collect();
        assert_eq!(checker.check_many(texts), wanted);
        let urls = checker.resolve_many(texts.iter().map(|text| (*text).to_owned()));
        for (text, url) in texts.iter().zip(urls.iter()) {
            let wanted = checker.resolve(text);
            assert_eq!(url.map(str::to_owned), wanted.map(String::from).map_err(|refusal| refusal.violation()));
        }
        assert_eq!((urls.len(), urls.get(5)), (5, None));
    }
    let none = Checker::default().resolve_many(Vec::<String>::new());
    assert!(Checker::default().check_many(Vec::<String>::new()).is_empty() && none.is_empty());
}

#[test]
fn names_are_read_back() {
    for rule in Rule::ALL {
        assert_eq!(rule.name().parse(), Ok(rule));
        assert!(!rule.sentence().is_empty() && !rule.requires().is_empty() && !rule.section().is_empty());
        assert!(urlcheck::is_valid(rule.address()));
    }
    for profile in Profile::ALL {
        assert_eq!(profile.to_string().parse(), Ok(profile));
    }
    assert_eq!("narrow".parse::<Profile>().unwrap_err().to_string(), "no profile has this name");
    assert_eq!("no scheme".parse::<Rule>().unwrap_err().to_string(), "no rule has this name");
}

#[test]
fn threads_share_a_base() {
    let base = Base::new("http://h/a/b", Profile::Parser).unwrap();
    thread::scope(|scope| {
        for _ in 0..4 {
            scope.spawn(|| {
                for _ in 0..1000 {
                    assert_eq!(base.checker().resolve("../c").unwrap().as_str(), "http://h/c");
                    assert_eq!(base.checker().check("^").unwrap_err().place(), 0);
                }
            });
        }
    });
}

#[test]
fn a_violation_is_an_error() {
    fn first_of(texts: &[&str]) -> Result<(), Box<dyn std::error::Error>> {
        for found in Checker::new(Profile::Standard).check_many(texts) {
            found?;
        }
        Ok(())
    }
    assert!(first_of(&["http://h/"]).is_ok());
    assert!(first_of(&["http://h/", "x"]).unwrap_err().to_string().ends_with("[no-scheme]"));
}

#[test]
fn urls_are_parsed_compared_and_gone_through() {
    let one: urlcheck::Url = "HTTP://h/a".parse().unwrap();
    assert_eq!(one, "http://h/a");
    assert_eq!(one, *"http://h/a");
    assert_eq!("x".parse::<urlcheck::Url>().unwrap_err().rule(), Rule::NoScheme);
    let mut all = [urlcheck::resolve("http://h/b").unwrap(), one.clone()];
    all.sort();
    assert_eq!(all[0], one);
    let urls = Checker::new(Profile::Standard).resolve_many(["http://H/", "x"]);
    let mut count = 0;
    for url in &urls {
        count += usize::from(url == Ok("http://h/"));
    }
    assert_eq!((count, (&urls).into_iter().len()), (1, 2));
}
