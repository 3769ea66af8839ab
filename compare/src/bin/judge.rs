//! judge LINES OURS RUST [STREAM OURS RUST]
//!
//! Holds our answers to the Rust's and to document 01, line by line; lines with a UTC year of 0 or 10000 (document 02, Item 2) to
//! the documents alone; and those to a stream (see `compare::stream`). The exit status is 1 if there is a difference; a file that is
//! short or too long is one.

use std::fs::{self, File};
use std::io::{self, BufRead, BufReader};
use std::process::ExitCode;

use compare::refusal;
use compare::stream::{self, Difference};
use compare::verdict::{verdict, Intent, Verdict};

/// Differences beyond these are counted only.
const PRINTED: u64 = 200;
const CUT: usize = 200;

fn main() -> ExitCode {
    let names: Vec<String> = std::env::args().skip(1).collect();
    let mut tally = Tally::default();
    let judged = match &names[..] {
        [lines, ours, rust] => judge_lines(&mut tally, lines, ours, rust),
        [lines, ours, rust, stream, ours_stream, rust_stream] => {
            judge_lines(&mut tally, lines, ours, rust).and_then(|()| judge_stream(&mut tally, stream, ours_stream, rust_stream))
        }
        _ => {
            eprintln!("usage: judge LINES OURS RUST [STREAM OURS RUST]");
            return ExitCode::from(2);
        }
    };
    if let Err(error) = judged {
        eprintln!("judge: {error}");
        return ExitCode::FAILURE;
    }
    tally.print();
    match tally.differences == 0 {
        true => ExitCode::SUCCESS,
        false => ExitCode::FAILURE,
    }
}

#[derive(Default)]
struct Tally {
    /// All lines but those that are left out.
    lines: u64,
    left_out: u64,
    items: u64,
    same_bytes: u64,
    /// Refusals of both, by number.
    refusals: [u64; 13],
    /// By the order of `Intent::ALL`.
    parted: [u64; 3],
    differences: u64,
}

impl Tally {
    fn difference(&mut self, place: &str, line: &[u8], ours: &[u8], rust: &[u8], refused: Option<u8>) {
        self.differences += 1;
        if self.differences <= PRINTED {
            let wanted = refused.map_or("bytes".to_string(), |number| format!("!{number}"));
            println!("{place}: {}", cut(line));
            println!("  ours {}", cut(ours));
            println!("  Rust {}", cut(rust));
            println!("  the documents {wanted}");
        }
    }

    fn wrong_length(&mut self, name: &str) {
        println!("{name} is short or too long");
        self.differences += 1;
    }

    fn print(&self) {
        if self.differences > PRINTED {
            println!("{} more differences", self.differences - PRINTED);
        }
        let refusals: Vec<String> = self
            .refusals
            .iter()
            .enumerate()
            .filter(|(_, count)| **count > 0)
            .map(|(number, count)| format!("{count} of !{number}"))
            .collect();
        let refused: u64 = self.refusals.iter().sum();
        println!(
            "{} trial lines: {} with the same bytes, {refused} refused by both ({})",
            self.lines,
            self.same_bytes,
            refusals.join(", "),
        );
        println!("{} stream items", self.items);
        println!("left out of the comparison, ours held to document 02, Item 2: {} with a UTC year of 0 or 10000", self.left_out);
        let parted: Vec<String> =
            Intent::ALL.iter().zip(self.parted).map(|(intent, count)| format!("{count} {intent}")).collect();
        println!("parted by intent: {}", parted.join(", "));
        println!("{} lines, {} differences", self.lines + self.items, self.differences);
    }
}

fn judge_lines(tally: &mut Tally, lines: &str, ours: &str, rust: &str) -> io::Result<()> {
    let mut lines = Lines::open(lines)?;
    let mut ours = Lines::open(ours)?;
    let mut rust = Lines::open(rust)?;
    let mut number = 0;
    while lines.next()? {
        number += 1;
        for answers in [&mut ours, &mut rust] {
            if !answers.next()? {
                tally.wrong_length(&answers.name);
                return Ok(());
            }
        }
        let verdict = verdict(&lines.line, &ours.line, &rust.line);
        tally.lines += u64::from(verdict != Verdict::LeftOut);
        match verdict {
            Verdict::Equal => match refusal_number(&ours.line) {
                Some(number) => tally.refusals[number] += 1,
                None => tally.same_bytes += 1,
            },
            Verdict::Parted(intent) => tally.parted[intent as usize] += 1,
            Verdict::LeftOut => tally.left_out += 1,
            Verdict::Different => {
                let place = format!("line {number}");
                tally.difference(&place, &lines.line, &ours.line, &rust.line, refusal::number(&lines.line));
            }
        }
    }
    for answers in [&mut ours, &mut rust] {
        if answers.next()? {
            tally.wrong_length(&answers.name);
        }
    }
    Ok(())
}

/// The number of an answer `!N` that the table of counts has.
fn refusal_number(answer: &[u8]) -> Option<usize> {
    let digits = std::str::from_utf8(answer.strip_prefix(b"!")?).ok()?;
    digits.parse().ok().filter(|number| *number < 13)
}

fn judge_stream(tally: &mut Tally, stream: &str, ours: &str, rust: &str) -> io::Result<()> {
    let (items, our_answers, whole) = (read(stream)?, read(ours)?, read(rust)?);
    let (count, difference) = stream::judge(&items, &our_answers, &whole);
    tally.items = count;
    match difference {
        None => {}
        Some(Difference::Bytes { item, ours, rust }) => {
            let place = if count == 0 { "start of the stream".to_string() } else { format!("item {count}") };
            // A stream has nothing that is refused.
            tally.difference(&place, item, ours, rust, None);
        }
        Some(Difference::OurLength) => tally.wrong_length(ours),
        Some(Difference::RustLength) => tally.wrong_length(rust),
    }
    Ok(())
}

fn read(name: &str) -> io::Result<Vec<u8>> {
    fs::read(name).map_err(|error| with_name(name, error))
}

fn with_name(name: &str, error: io::Error) -> io::Error {
    io::Error::new(error.kind(), format!("{name}: {error}"))
}

fn cut(line: &[u8]) -> String {
    let shown = line[..line.len().min(CUT)].escape_ascii();
    match line.len() > CUT {
        true => format!("{shown}.. ({} bytes)", line.len()),
        false => shown.to_string(),
    }
}

/// The lines of a file, one at a time and without their line feeds.
struct Lines {
    name: String,
    file: BufReader<File>,
    line: Vec<u8>,
}

impl Lines {
    fn open(name: &str) -> io::Result<Lines> {
        let file = File::open(name).map_err(|error| with_name(name, error))?;
        Ok(Lines { name: name.to_string(), file: BufReader::new(file), line: Vec::new() })
    }

    /// Reads the next line; false at the end.
    fn next(&mut self) -> io::Result<bool> {
        self.line.clear();
        let length = self.file.read_until(b'\n', &mut self.line)?;
        if self.line.last() == Some(&b'\n') {
            self.line.pop();
        }
        Ok(length > 0)
    }
}
