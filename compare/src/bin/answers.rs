//! answers LINES RUST: for each line the refusal of document 01 and of document 02, Item 2, or else the bytes of the Rust.
//! Stops with exit status 1 where the two do not go together.

use std::io::{self, BufWriter, Write};
use std::process::ExitCode;

use compare::verdict::expected;

fn main() -> ExitCode {
    let names: Vec<String> = std::env::args().skip(1).collect();
    let [lines, rust] = &names[..] else {
        eprintln!("usage: answers LINES RUST");
        return ExitCode::from(2);
    };
    match print(lines, rust) {
        Ok(()) => ExitCode::SUCCESS,
        Err(error) => {
            eprintln!("answers: {error}");
            ExitCode::FAILURE
        }
    }
}

fn print(lines: &str, rust: &str) -> io::Result<()> {
    let (lines, rust) = (std::fs::read(lines)?, std::fs::read(rust)?);
    let (lines, rust) = (split(&lines), split(&rust));
    if lines.len() != rust.len() {
        return Err(io::Error::other("not as many answers as lines"));
    }
    let mut out = BufWriter::new(io::stdout().lock());
    for (at, (line, rust)) in lines.iter().zip(rust).enumerate() {
        let answer = expected(line, rust).ok_or_else(|| {
            let (line, rust) = (line.escape_ascii(), rust.escape_ascii());
            io::Error::other(format!("line {}: {line}: the Rust answers {rust}", at + 1))
        })?;
        out.write_all(&answer)?;
        out.write_all(b"\n")?;
    }
    out.flush()
}

fn split(bytes: &[u8]) -> Vec<&[u8]> {
    bytes.strip_suffix(b"\n").unwrap_or(bytes).split(|b| *b == b'\n').collect()
}
