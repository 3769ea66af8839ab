//! read-back LINES OURS [STREAM OURS]: reads back what the trial program and the host crate wrote, each trial line's bytes and each item's
//! of a stream, and then the stream whole, and compares with the values that were to be written (the files are those of `judge`). None of
//! their timestamps is out of the calendar.
//! The last line is 'N read back, D differences'.

use std::fs;
use std::io;
use std::process::ExitCode;

use compare::form;
use compare::reading::{self, text, written, Ending, Event};
use read_streams::judge::Tally;

fn main() -> ExitCode {
    let names: Vec<String> = std::env::args().skip(1).collect();
    let mut tally = Tally::default();
    let read = match &names[..] {
        [lines, ours] => read_lines(&mut tally, lines, ours),
        [lines, ours, stream, ours_stream] => {
            read_lines(&mut tally, lines, ours).and_then(|()| read_stream(&mut tally, stream, ours_stream))
        }
        _ => {
            eprintln!("usage: read-back LINES OURS [STREAM OURS]");
            return ExitCode::from(2);
        }
    };
    if let Err(error) = read {
        eprintln!("read-back: {error}");
        return ExitCode::FAILURE;
    }
    println!("{} read back, {} differences", tally.streams, tally.differences);
    match tally.differences {
        0 => ExitCode::SUCCESS,
        _ => ExitCode::FAILURE,
    }
}

/// The lines of a file without their line feeds; a last one without it counts if it has bytes.
fn lines(name: &str) -> io::Result<Vec<Vec<u8>>> {
    let file = fs::read(name).map_err(|error| io::Error::new(error.kind(), format!("{name}: {error}")))?;
    let mut lines: Vec<Vec<u8>> = file.split(|byte| *byte == b'\n').map(<[u8]>::to_vec).collect();
    lines.pop_if(|last| last.is_empty());
    Ok(lines)
}

fn bytes(hex: &[u8]) -> Option<Vec<u8>> {
    let digit = |digit: u8| char::from(digit).to_digit(16);
    hex.chunks(2).map(|pair| Some((digit(pair[0])? << 4 | digit(*pair.get(1)?)?) as u8)).collect()
}

fn read_lines(tally: &mut Tally, values: &str, ours: &str) -> io::Result<()> {
    for (line, answer) in lines(values)?.iter().zip(lines(ours)?) {
        if answer.starts_with(b"!") {
            continue;
        }
        let expected = form::parse(line).map(|value| written::events(&value));
        compare(tally, line, bytes(&answer), expected);
    }
    Ok(())
}

fn read_stream(tally: &mut Tally, stream: &str, ours: &str) -> io::Result<()> {
    let mut whole = Vec::new();
    let mut all = vec![Event::Marker];
    let items = lines(stream)?;
    let mut answers = lines(ours)?.into_iter();
    whole.extend(answers.next().and_then(|start| bytes(&start)).unwrap_or_default());
    for (line, answer) in items.iter().zip(answers) {
        let expected = match line.strip_prefix(b"value ") {
            Some(value) => form::parse(value).map(|value| written::events(&value)),
            None => Some(vec![Event::Marker]),
        };
        let bytes = bytes(&answer);
        whole.extend(bytes.iter().flatten());
        all.extend(expected.iter().flatten().cloned());
        compare(tally, line, bytes, expected);
    }
    compare(tally, b"the whole stream", Some(whole), Some(all));
    Ok(())
}

/// By the host crate and by the model.
fn compare(tally: &mut Tally, line: &[u8], bytes: Option<Vec<u8>>, expected: Option<Vec<Event>>) {
    tally.streams += 1;
    let (Some(bytes), Some(expected)) = (bytes, expected) else {
        return tally.count(line, 0, Err("neither bytes nor a refusal, or not of the form".into()));
    };
    let read = read_streams::walk(&bytes, 0).unwrap_or_else(|odd| {
        tally.count(&bytes, 0, Err(odd));
        (Vec::new(), Ending::Whole)
    });
    for (events, ending) in [read, reading::walk(&bytes, 0)] {
        let events = written::by_value(events);
        if events != expected || ending != Ending::Whole {
            let why = format!(
                "{}\n  read    {}\n  written {}",
                line.escape_ascii(),
                text::line(&events, ending),
                text::line(&expected, Ending::Whole)
            );
            tally.count(&bytes[..bytes.len().min(200)], 0, Err(why));
        }
    }
}
