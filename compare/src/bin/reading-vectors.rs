//! reading-vectors: lines `HEX POSITION ANSWER` from the model of the reader (see `compare::reading::text`), by rule.
//! reading-vectors SEED COUNT: the same of COUNT random streams.

use std::io::{self, BufWriter, Write};
use std::process::ExitCode;

use compare::reading::{streams, vectors};
use compare::rng::Rng;

fn main() -> ExitCode {
    let words: Vec<String> = std::env::args().skip(1).collect();
    let numbers: Vec<u64> = words.iter().filter_map(|word| word.parse().ok()).collect();
    let lines = match (&words[..], &numbers[..]) {
        ([], _) => vectors::lines(),
        ([_, _], [seed, count]) => {
            let mut rng = Rng::new(*seed);
            let random = |_| {
                let (stream, position) = streams::stream(&mut rng);
                vectors::line(&stream, position)
            };
            (0..*count).map(random).collect()
        }
        _ => {
            eprintln!("usage: reading-vectors [SEED COUNT]");
            return ExitCode::from(2);
        }
    };
    match print(&lines) {
        Ok(()) => ExitCode::SUCCESS,
        Err(error) => {
            eprintln!("reading-vectors: {error}");
            ExitCode::FAILURE
        }
    }
}

fn print(lines: &[String]) -> io::Result<()> {
    let mut out = BufWriter::new(io::stdout().lock());
    for line in lines {
        writeln!(out, "{line}")?;
    }
    out.flush()
}
