// The crate `url` over the lines of standard input, as crates/bench_check does it.
use std::io::Read;

fn main() {
    let words: Vec<String> = std::env::args().collect();
    let mode = words.get(1).map(String::as_str).unwrap_or("check");
    let rounds: u32 = words.get(2).and_then(|word| word.parse().ok()).unwrap_or(1);
    let mut text = String::new();
    std::io::stdin().read_to_string(&mut text).unwrap();
    let texts: Vec<&str> = text.split('\n').filter(|line| !line.is_empty()).collect();
    if mode == "verdicts" {
        let verdicts: String = texts.iter().map(|text| if url::Url::parse(text).is_ok() { '1' } else { '0' }).collect();
        println!("{verdicts}");
        return;
    }
    let mut valid = 0;
    if mode == "check" {
        for _ in 0..rounds {
            valid = texts.iter().filter(|text| url::Url::parse(text).is_ok()).count();
        }
    }
    println!("{} lines, {valid} valid", texts.len());
}
