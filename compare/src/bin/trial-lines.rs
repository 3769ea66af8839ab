//! trial-lines SEED COUNT: the lines of all families, then random ones of the seed, COUNT in all
//! or as many as the families have.
//! trial-lines sample: the fixed sample.

use std::io::{self, BufWriter, Write};
use std::process::ExitCode;

use compare::rng::Rng;
use compare::{families, random, sample};

fn main() -> ExitCode {
    let words: Vec<String> = std::env::args().skip(1).collect();
    let numbers: Vec<u64> = words.iter().filter_map(|word| word.parse().ok()).collect();
    let printed = match (&words[..], &numbers[..]) {
        ([word], _) if word == "sample" => print(sample::lines().into_iter()),
        ([_, _], [seed, count]) => {
            let mut rng = Rng::new(*seed);
            let families = families::all().into_iter().flat_map(|family| family.lines);
            // What the families do not fill is random.
            let mut families = families.fuse();
            let mut printed = 0;
            print(std::iter::from_fn(|| {
                printed += 1;
                families.next().or_else(|| (printed <= *count).then(|| random::line(&mut rng)))
            }))
        }
        _ => {
            eprintln!("usage: trial-lines SEED COUNT | trial-lines sample");
            return ExitCode::from(2);
        }
    };
    match printed {
        Ok(()) => ExitCode::SUCCESS,
        Err(error) => {
            eprintln!("trial-lines: {error}");
            ExitCode::FAILURE
        }
    }
}

fn print(lines: impl Iterator<Item = Vec<u8>>) -> io::Result<()> {
    let mut out = BufWriter::new(io::stdout().lock());
    for line in lines {
        out.write_all(&line)?;
        out.write_all(b"\n")?;
    }
    out.flush()
}
