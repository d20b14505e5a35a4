// The crate `url` over the lines of standard input as `urlcheck links` reports on them, against a base where one is given:
// each line is parsed, its validation errors are counted, and a line says so. Its report ends with the counts.
use std::cell::Cell;
use std::io::{self, BufRead, BufReader, BufWriter, Write};
use url::{SyntaxViolation, Url};

const PIECE_BYTES: usize = 65_536;

// The text of the URL, where the line has one and no validation error was reported; otherwise how many were.
fn read(line: &[u8], base: Option<&Url>) -> Result<Url, u64> {
    let Ok(text) = std::str::from_utf8(line) else {
        return Err(0);
    };
    let errors = Cell::new(0);
    let count = |_: SyntaxViolation| errors.set(errors.get() + 1);
    let options = Url::options().base_url(base);
    match options.syntax_violation_callback(Some(&count)).parse(text) {
        Ok(url) if errors.get() == 0 => Ok(url),
        _ => Err(errors.get()),
    }
}

fn main() -> io::Result<()> {
    let base = std::env::args().nth(1).map(|text| Url::parse(&text).expect("a base that parses"));
    let mut reader = BufReader::with_capacity(PIECE_BYTES, io::stdin().lock());
    let mut writer = BufWriter::with_capacity(PIECE_BYTES, io::stdout().lock());
    let mut line = Vec::new();
    let (mut ok, mut bad) = (0u64, 0u64);
    while reader.read_until(b'\n', &mut line)? > 0 {
        if line.last() == Some(&b'\n') {
            line.pop();
        }
        let number = ok + bad + 1;
        match read(&line, base.as_ref()) {
            Ok(url) => {
                ok += 1;
                writeln!(writer, "{number} ok {}", url.as_str())?;
            }
            Err(errors) => {
                bad += 1;
                writeln!(writer, "{number} bad {errors}")?;
            }
        }
        line.clear();
    }
    writeln!(writer, "links {} ok {ok} bad {bad}", ok + bad)?;
    writer.flush()
}
