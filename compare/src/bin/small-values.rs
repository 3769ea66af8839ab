//! small-values: every small value (document 02, Item 12) by the model of the reader, in hex, one a line.
//! small-values judge: holds what a program printed, on standard input, to these lines. Prints the first that differs; the last line is
//! 'N small values, D differences'. The exit status is 1 if there is a difference.

use std::io::{self, BufWriter, Read, Write};
use std::process::ExitCode;

use compare::small_values::{asked, judge, line};

fn main() -> ExitCode {
    let words: Vec<String> = std::env::args().skip(1).collect();
    let words: Vec<&str> = words.iter().map(String::as_str).collect();
    let done = match words[..] {
        [] => print().map(|()| true),
        ["judge"] => judge_input(),
        _ => {
            eprintln!("usage: small-values | small-values judge <OURS");
            return ExitCode::from(2);
        }
    };
    match done {
        Ok(true) => ExitCode::SUCCESS,
        Ok(false) => ExitCode::FAILURE,
        Err(error) => {
            eprintln!("small-values: {error}");
            ExitCode::FAILURE
        }
    }
}

fn print() -> io::Result<()> {
    let mut out = BufWriter::new(io::stdout().lock());
    for value in asked() {
        out.write_all(line(&value).as_bytes())?;
    }
    out.flush()
}

/// Answers whether there is no difference.
fn judge_input() -> io::Result<bool> {
    let mut printed = Vec::new();
    io::stdin().read_to_end(&mut printed)?;
    let judged = judge(&asked(), &printed);
    if let Some(first) = judged.first {
        println!("{first}");
    }
    println!("{} small values, {} differences", judged.values, judged.differences);
    Ok(judged.differences == 0)
}
