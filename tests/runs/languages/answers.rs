//! Answers each case of a file of cases (see tests/runs/library/cases.py) by the crate, in each profile, a line each.
//! With the word `mended` after the file a line has what is mended.

use std::io::Write as _;
use std::{env, fs, io};

use urlcheck::{Base, Checker, Profile, Refusal, Violation};

const ABSENT: u32 = u32::MAX;

/// The texts of a file: each after its length in four bytes, lowest first.
fn texts_of(mut data: &[u8]) -> Vec<Option<&str>> {
    let mut texts = Vec::new();
    while !data.is_empty() {
        let (front, rest) = data.split_at(4);
        let length = u32::from_le_bytes(front.try_into().expect("four bytes"));
        let (text, rest) = rest.split_at(if length == ABSENT { 0 } else { length as usize });
        texts.push((length != ABSENT).then(|| std::str::from_utf8(text).expect("UTF-8")));
        data = rest;
    }
    texts
}

fn at(violation: Violation) -> String {
    format!("{} {} {}", violation.place, violation.byte_place, violation.rule)
}

fn shown(part: Option<&str>) -> String {
    part.map_or_else(|| "-".to_owned(), |part| format!("+{part}"))
}

/// The URL with its parts joined again, which has to be its text.
fn joined(url: &urlcheck::Url) -> String {
    let mut text = format!("{}:", url.scheme());
    if let Some(host) = url.host() {
        text += &format!("//{host}");
    } else if url.path().starts_with("//") {
        text += "/.";
    }
    text += &url.port().map_or_else(String::new, |port| format!(":{port}"));
    text += url.path();
    text += &url.query().map_or_else(String::new, |query| format!("?{query}"));
    text + &url.fragment().map_or_else(String::new, |fragment| format!("#{fragment}"))
}

/// The answer of each call for one text, which have to agree.
fn line(checker: Checker<'_>, text: &str) -> String {
    let violations: Vec<String> = checker.violations(text).into_iter().map(at).collect();
    let many = checker.check_many([text]).remove(0);
    assert_eq!(checker.is_valid(text), many.is_ok());
    let valid = match checker.check(text) {
        Ok(valid) => valid,
        Err(refusal) => {
            assert_eq!((many, checker.resolve(text)), (Err(refusal.violation()), Err(refusal)));
            assert!(!refusal.message(text).is_empty());
            return format!("1 {}\t{}", at(refusal.violation()), violations.join("\t"));
        }
    };
    let url = checker.resolve(text).expect("the check accepts it");
    assert_eq!((checker.resolve_many([text]).get(0), joined(&url).as_str()), (Some(Ok(url.as_str())), url.as_str()));
    let parts = [valid.scheme(), valid.host(), valid.port(), Some(valid.path()), valid.query(), valid.fragment()];
    let mut fields = vec!["0".to_owned()];
    fields.extend(parts.map(shown));
    fields.push(url.into());
    fields.extend(violations);
    fields.join("\t")
}

fn mended(checker: Checker<'_>, text: &str) -> String {
    match checker.mend(text) {
        Ok(None) => "valid".to_owned(),
        Ok(Some(mended)) => format!("mended {}\t{}", mended.kind, mended.text),
        Err(refusal) => format!("none\trefused {} {}", refusal.place(), refusal.rule()),
    }
}

fn base_refused(refusal: &Refusal, is_mended: bool) -> String {
    if is_mended {
        format!("base refused {} {}", refusal.place(), refusal.rule())
    } else {
        format!("3 {}", at(refusal.violation()))
    }
}

fn main() -> io::Result<()> {
    let words: Vec<String> = env::args().collect();
    let is_mended = words.get(2).is_some_and(|word| word == "mended");
    let say = if is_mended { mended } else { line };
    let data = fs::read(&words[1])?;
    let mut out = io::BufWriter::new(io::stdout().lock());
    for case in texts_of(&data).chunks(2) {
        let text = case[0].expect("a text");
        for profile in Profile::ALL {
            let answer = match case[1].map(|base| Base::new(base, profile)) {
                None => say(Checker::new(profile), text),
                Some(Ok(base)) => say(base.checker(), text),
                Some(Err(refusal)) => base_refused(&refusal, is_mended),
            };
            writeln!(out, "{answer}")?;
        }
    }
    out.flush()
}
