//! The crates `urlcheck` and `url` over the lines of a file: a row for each call.
use std::cell::Cell;
use std::env;
use std::fs;
use std::hint::black_box;
use std::time::Instant;

/// The nanoseconds a text of the fastest round, and how many texts were accepted in it.
fn least(rounds: u32, texts: &[&str], is_accepted: impl Fn(&str) -> bool) -> (f64, usize) {
    let mut fastest = (f64::INFINITY, 0);
    for _ in 0..rounds {
        let started = Instant::now();
        let count = texts.iter().filter(|text| is_accepted(black_box(text))).count();
        let took = started.elapsed().as_secs_f64() * 1e9 / texts.len() as f64;
        if took < fastest.0 {
            fastest = (took, count);
        }
    }
    fastest
}

fn main() {
    let words: Vec<String> = env::args().collect();
    let rounds: u32 = words[2].parse().expect("rounds");
    let text = fs::read_to_string(&words[1]).expect("the texts");
    let texts: Vec<&str> = text.lines().collect();
    let (peer, _) = least(rounds, &texts, |text| url::Url::parse(text).is_ok());
    let calls: [(&str, fn(&str) -> bool); 3] = [
        ("is_valid", |text| urlcheck::is_valid(text)),
        ("check", |text| urlcheck::check(text).is_ok()),
        ("resolve", |text| urlcheck::resolve(text).is_ok()),
    ];
    for (name, call) in calls {
        let (own, accepted) = least(rounds, &texts, call);
        println!("Rust\t{name}\t{own:.1}\turl::Url::parse\t{peer:.1}\t{accepted}");
    }
    let accepted = Cell::new(0);
    let (all, _) = least(rounds, &texts[..1], |_| {
        let found = urlcheck::Checker::default().check_many(&texts);
        accepted.set(found.iter().filter(|one| one.is_ok()).count());
        true
    });
    let (own, accepted) = (all / texts.len() as f64, accepted.get());
    println!("Rust\tcheck_many\t{own:.1}\turl::Url::parse\t{peer:.1}\t{accepted}");
}
