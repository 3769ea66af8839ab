//! streams SEED COUNT: a stream of COUNT items, `marker` or `value` and a trial value that document 01 accepts.

use std::io::{self, BufWriter, Write};
use std::process::ExitCode;

use compare::rng::Rng;
use compare::{random, refusal};

fn main() -> ExitCode {
    let words: Vec<String> = std::env::args().skip(1).collect();
    let numbers: Vec<u64> = words.iter().filter_map(|word| word.parse().ok()).collect();
    let ([_, _], [seed, count]) = (&words[..], &numbers[..]) else {
        eprintln!("usage: streams SEED COUNT");
        return ExitCode::from(2);
    };
    match print(&mut Rng::new(*seed), *count) {
        Ok(()) => ExitCode::SUCCESS,
        Err(error) => {
            eprintln!("streams: {error}");
            ExitCode::FAILURE
        }
    }
}

fn print(rng: &mut Rng, count: u64) -> io::Result<()> {
    let mut out = BufWriter::new(io::stdout().lock());
    for _ in 0..count {
        match rng.one_in(12) {
            true => writeln!(out, "marker")?,
            false => writeln!(out, "value {}", accepted(rng))?,
        }
    }
    out.flush()
}

fn accepted(rng: &mut Rng) -> String {
    loop {
        let value = random::value(rng);
        if refusal::number(value.as_bytes()).is_none() {
            return value;
        }
    }
}
