//! read-streams SEED COUNT: streams through the reader and the model. First those that are always the same: every byte string of up to
//! two bytes from every position, the vectors, timestamps around the ends of years, fractions around one, and a log of a few records cut at
//! every byte and with every byte changed; then COUNT random ones. The last line is 'N streams, D differences'.

use std::process::ExitCode;

use compare::reading::{streams, vectors};
use compare::rng::Rng;
use goatminute::{Decimal, Refusal, Timestamp, WriteValues, Writer};
use read_streams::judge::Tally;

fn main() -> ExitCode {
    let words: Vec<String> = std::env::args().skip(1).collect();
    let numbers: Vec<u64> = words.iter().filter_map(|word| word.parse().ok()).collect();
    let ([_, _], [seed, count]) = (&words[..], &numbers[..]) else {
        eprintln!("usage: read-streams SEED COUNT");
        return ExitCode::from(2);
    };
    let mut tally = Tally::default();
    short(&mut tally);
    for (stream, position) in vectors::streams() {
        tally.walk(&stream, position);
    }
    for stream in streams::years().into_iter().chain(streams::fractions()) {
        tally.walk(&stream, 0);
    }
    match log() {
        Ok(log) => damaged(&mut tally, &log),
        Err(refusal) => {
            eprintln!("read-streams: the log is not written: {refusal}");
            return ExitCode::FAILURE;
        }
    }
    let mut rng = Rng::new(*seed);
    for _ in 0..*count {
        let (stream, position) = streams::stream(&mut rng);
        tally.walk(&stream, position);
        tally.odd_uses(&mut rng, &stream);
    }
    tally.print();
    match tally.differences {
        0 => ExitCode::SUCCESS,
        _ => ExitCode::FAILURE,
    }
}

fn short(tally: &mut Tally) {
    let mut from_every_position = |stream: &[u8]| {
        for position in 0..=stream.len() + 1 {
            tally.walk(stream, position);
        }
    };
    from_every_position(&[]);
    for first in 0..=u8::MAX {
        from_every_position(&[first]);
        for second in 0..=u8::MAX {
            from_every_position(&[first, second]);
        }
    }
}

fn damaged(tally: &mut Tally, log: &[u8]) {
    for end in 0..=log.len() {
        tally.walk(&log[..end], 0);
        tally.walk(log, end);
    }
    for at in 0..log.len() {
        let mut changed = log.to_vec();
        for byte in 0..=u8::MAX {
            changed[at] = byte;
            tally.walk(&changed, 0);
        }
    }
}

/// Three records of a winch, with a value of each kind.
fn log() -> Result<Vec<u8>, Refusal> {
    let mut buf = [0; 1024];
    let mut writer = Writer::new(&mut buf)?;
    for i in 0..3 {
        let mut record = writer.with_annotations(&[20, 300]).struct_writer()?;
        record.field_name(10)?.write_i64(-812 * i)?;
        record.field_name(11)?.write_f64(0.1)?;
        record.field_name(12)?.write_decimal(Decimal::new(8125 - i, -1))?;
        record.field_name(13)?.write_bool(i == 1)?;
        let at = Timestamp::second(2026, 3, 14, 20, 30, i as u32).with_offset(60).with_fraction(3, 7);
        record.field_name(14)?.write_timestamp(at)?;
        let mut currents = record.field_name(15)?.list_writer()?;
        currents.write_i64(i << 20)?;
        currents.with_annotations(&[4]).write_f32(1.5)?;
        currents.close()?;
        record.field_name(16)?.write_symbol(1000)?;
        record.field_name(17)?.write_string("load \u{e9}")?;
        let mut sexp = record.field_name(18)?.sexp_writer()?;
        sexp.write_blob(&[0xff; 15])?;
        sexp.write_clob(b"go")?;
        sexp.close()?;
        record.close()?;
    }
    Ok(writer.finished().to_vec())
}
