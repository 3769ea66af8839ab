//! Measures the writer and the reader. `bench winch N` writes N records of a winch log and prints their size, hash and time; `bench reading N`
//! reads as many and prints the times; `bench calls`, `bench closes` and `bench strings` print tables. Times of the tables are the least of
//! many turns.
use goatminute::{
    sys, Decimal, ListWriter, ReadRefusal, Reader, Refusal, StructWriter, Timestamp, WriteValues, Writer, STATE_SIZE,
};
use std::env;
use std::hint::black_box;
use std::process::ExitCode;
use std::time::{Duration, Instant};

const BATCH: usize = 1000;
const ROOM: usize = 200_000;

/// A record as the controller has it: plain numbers and bytes.
struct Record {
    time: i64,
    position: u64,
    load: i64,
    brake: bool,
    at: [u32; 6],
    millis: u64,
    offset: i32,
    currents: [i64; 8],
    state: u64,
    note: [u8; 12],
}

struct Draws(u64);

impl Draws {
    fn draw(&mut self) -> u64 {
        self.0 = self.0.wrapping_mul(6364136223846793005).wrapping_add(1442695040888963407);
        self.0 >> 32
    }

    fn record(&mut self, i: u64) -> Record {
        let time = (1_000_000 + 10 * i + self.draw() % 10) as i64;
        let exponent = 1023 + self.draw() % 12;
        let high = self.draw();
        let low = self.draw();
        let mut fraction = (high << 20) + (low >> 12);
        if low % 4 == 0 {
            fraction &= !((1 << 29) - 1);
        }
        let position = (exponent << 52) + fraction;
        let load = (self.draw() % 20_000_001) as i64 - 10_000_000;
        let brake = self.draw() % 2 == 1;
        let mut at = [2026, 0, 0, 0, 0, 0];
        at[1] = 1 + (self.draw() % 12) as u32;
        at[2] = 1 + (self.draw() % 28) as u32;
        at[3] = (self.draw() % 24) as u32;
        at[4] = (self.draw() % 60) as u32;
        at[5] = (self.draw() % 60) as u32;
        let millis = self.draw() % 1000;
        let offset = [0, 60, -210, 120][(self.draw() % 4) as usize];
        let mut currents = [0; 8];
        for (j, current) in currents.iter_mut().enumerate() {
            let bits = 8 * (1 + j as u32 % 4);
            *current = (self.draw() % (1 << bits)) as i64 - (1 << (bits - 1));
        }
        let state = 30 + self.draw() % 300;
        let mut note = [0; 12];
        for byte in note.iter_mut() {
            *byte = 97 + (self.draw() % 26) as u8;
        }
        Record {
            time,
            position,
            load,
            brake,
            at,
            millis,
            offset,
            currents,
            state,
            note,
        }
    }
}

// not inlined, so that callgrind can count its instructions apart
#[inline(never)]
fn write_record(writer: &mut Writer, record: &Record) -> Result<(), Refusal> {
    let mut fields: StructWriter = writer.with_annotations(&[20]).struct_writer()?;
    fields.field_name(10)?.write_i64(record.time)?;
    fields.field_name(11)?.write_f64(f64::from_bits(record.position))?;
    fields.field_name(12)?.write_decimal(Decimal::new(record.load, -3))?;
    fields.field_name(13)?.write_bool(record.brake)?;
    let [year, month, day, hour, minute, second] = record.at;
    let at = Timestamp::second(year, month, day, hour, minute, second)
        .with_fraction(3, record.millis)
        .with_offset(record.offset);
    fields.field_name(14)?.write_timestamp(at)?;
    let mut currents: ListWriter = fields.field_name(15)?.list_writer()?;
    for &current in &record.currents {
        currents.write_i64(current)?;
    }
    currents.close()?;
    fields.field_name(16)?.write_symbol(record.state)?;
    fields.field_name(17)?.write_string_bytes(&record.note)?;
    fields.close()?;
    Ok(())
}

// not inlined, as `write_record`
#[inline(never)]
fn check(stream: &[u8]) -> Result<(), ReadRefusal> {
    Reader::new(stream).check()
}

/// Steps through all items, containers entered.
#[inline(never)]
fn walk(stream: &[u8]) -> Result<(), ReadRefusal> {
    let mut reader = Reader::new(stream);
    loop {
        match reader.next() {
            Some(item) => {
                let item = black_box(item?);
                if item.value.is_container() {
                    reader.step_in()?;
                }
            }
            None if reader.depth() == 0 => return Ok(()),
            None => reader.step_out()?,
        }
    }
}

/// FNV-1a of 64 bits, and a count.
struct Sum {
    bytes: u64,
    hash: u64,
}

impl Sum {
    fn add(&mut self, bytes: &[u8]) {
        self.bytes += bytes.len() as u64;
        for &byte in bytes {
            self.hash = (self.hash ^ byte as u64).wrapping_mul(0x100000001B3);
        }
    }
}

fn winch(count: u64) -> Result<(), Refusal> {
    let mut buf = vec![0; ROOM];
    let mut draws = Draws(20260314);
    let mut sum = Sum {
        bytes: 0,
        hash: 0xCBF29CE484222325,
    };
    let mut time = Duration::ZERO;
    let mut records = Vec::with_capacity(BATCH);
    let mut writer = Writer::new(&mut buf)?;
    let mut i = 0;
    while i < count {
        records.clear();
        while i < count && records.len() < BATCH {
            records.push(draws.record(i));
            i += 1;
        }
        let begun = Instant::now();
        for record in &records {
            write_record(&mut writer, record)?;
        }
        let finished = writer.finished();
        time += begun.elapsed();
        sum.add(finished);
        writer.empty()?;
    }
    println!("structs {count}");
    println!("bytes {}", sum.bytes);
    println!("fnv1a64 {:016x}", sum.hash);
    println!("total_ns {}", time.as_nanos());
    println!("total_ns_per_struct {:.1}", time.as_nanos() as f64 / count.max(1) as f64);
    Ok(())
}

/// The same log, read: whole by one call, and item by item.
fn reading(count: u64) -> Result<(), Refusal> {
    let mut buf = vec![0; ROOM];
    let mut draws = Draws(20260314);
    let mut checking = Duration::ZERO;
    let mut walking = Duration::ZERO;
    let mut writer = Writer::new(&mut buf)?;
    let mut i = 0;
    while i < count {
        let end = count.min(i + BATCH as u64);
        while i < end {
            write_record(&mut writer, &draws.record(i))?;
            i += 1;
        }
        for (read, time) in [(check as fn(&[u8]) -> _, &mut checking), (walk, &mut walking)] {
            let begun = Instant::now();
            read(writer.finished()).map_err(|refused| refused.refusal)?;
            *time += begun.elapsed();
        }
        writer.empty()?;
    }
    println!("checking_ns {}", checking.as_nanos());
    println!("walking_ns {}", walking.as_nanos());
    Ok(())
}

// ---- single calls

/// The least time of one run of `work` in nanoseconds, each of `turns` timed over `times` runs.
fn least(turns: usize, times: usize, mut work: impl FnMut()) -> f64 {
    let mut least = f64::INFINITY;
    for _ in 0..turns {
        let begun = Instant::now();
        for _ in 0..times {
            work();
        }
        least = least.min(begun.elapsed().as_nanos() as f64 / times as f64);
    }
    least
}

/// A state over a buffer, with `depth` lists open.
fn opened(buf: &mut [u8], depth: usize) -> Result<[u8; STATE_SIZE], Refusal> {
    let mut state = [0; STATE_SIZE];
    sys::start(&mut state, buf)?;
    for _ in 0..depth {
        sys::open_list(&mut state, buf, &[])?;
    }
    Ok(state)
}

/// Goes back to a state that has the same containers: used length, depth, waiting name, and the members of the innermost container.
fn go_back(state: &mut [u8; STATE_SIZE], kept: &[u8; STATE_SIZE]) {
    state[..6].copy_from_slice(&kept[..6]);
    if let Some(innermost) = usize::from(kept[4]).checked_sub(1) {
        let members = 8 + 13 * innermost + 9;
        state[members..members + 4].copy_from_slice(&kept[members..members + 4]);
    }
}

fn row(name: &str, buf: &mut [u8], call: impl Fn(&mut [u8], &mut [u8]) -> Result<(), Refusal>) -> Result<(), Refusal> {
    print!("{name:<12}");
    for depth in [0, 2, 8, 32] {
        let kept = opened(buf, depth)?;
        let mut state = kept;
        let mut answer = Ok(());
        let time = least(300, 1, || {
            go_back(&mut state, &kept);
            for _ in 0..1000 {
                answer = answer.and(call(&mut state, buf));
            }
        });
        answer?;
        print!("{:>8.1}", time / 1000.0);
    }
    println!();
    Ok(())
}

fn calls() -> Result<(), Refusal> {
    println!("ns a call, by open containers");
    println!("{:<12}{:>8}{:>8}{:>8}{:>8}", "", 0, 2, 8, 32);
    let buf = &mut vec![0; ROOM][..];
    row("bool", buf, |s, b| sys::write_bool(s, b, &[], black_box(true)))?;
    row("i64", buf, |s, b| sys::write_i64(s, b, &[], black_box(-123_456)))?;
    row("f64", buf, |s, b| sys::write_f64(s, b, &[], black_box(0x3FB999999999999A)))?;
    row("symbol", buf, |s, b| sys::write_symbol(s, b, &[], black_box(300)))?;
    row("decimal", buf, |s, b| {
        sys::write_decimal(s, b, &[], false, black_box(&[0x1F, 0xBD]), -1)
    })?;
    let at = Timestamp::second(2026, 3, 14, 20, 30, 7)
        .with_fraction(3, 200)
        .with_offset(60);
    row("timestamp", buf, |s, b| sys::write_timestamp(s, b, &[], black_box(at)))
}

fn closes() -> Result<(), Refusal> {
    println!("ns a close of a list that moves its body, beside copy_within of as many bytes");
    println!("{:>12}{:>12}{:>14}", "body", "close", "copy_within");
    let mut buf = vec![0; 2_000_000];
    for (length, by) in [(128, 1), (10_000, 1), (1_000_000, 2)] {
        let mut kept = opened(&mut buf, 1)?;
        for _ in 0..length {
            sys::write_bool(&mut kept, &mut buf, &[], true)?;
        }
        let mut state = kept;
        let times = 1 + 100_000 / length;
        let close = least(300, times, || {
            go_back(&mut state, &kept);
            let _ = sys::close(black_box(&mut state), &mut buf);
        });
        let copy = least(300, times, || {
            let buf: &mut [u8] = black_box(&mut buf);
            buf.copy_within(6..6 + length, 6 + by);
        });
        println!("{length:>12}{close:>12.1}{copy:>14.1}");
    }
    Ok(())
}

fn strings() -> Result<(), Refusal> {
    println!("ns a string, beside from_utf8 and a copy of its bytes");
    println!("{:>12}{:>12}{:>12}{:>18}", "bytes", "text", "string", "from_utf8, copy");
    let mut buf = vec![0; 2_000_000];
    for length in [100, 10_000, 1_000_000] {
        for (name, letters) in [("ASCII", "a log line; "), ("mixed", "Höhe 12 € ")] {
            let text: String = letters.chars().cycle().take(length).collect();
            let mut end = length;
            while !text.is_char_boundary(end) {
                end -= 1;
            }
            let text = &text.as_bytes()[..end];
            let kept = opened(&mut buf, 0)?;
            let mut state = kept;
            let times = 1 + 100_000 / length;
            let ours = least(200, times, || {
                go_back(&mut state, &kept);
                let _ = sys::write_string(&mut state, &mut buf, &[], black_box(text));
            });
            let theirs = least(200, times, || {
                if let Ok(text) = std::str::from_utf8(black_box(text)) {
                    buf[8..8 + text.len()].copy_from_slice(text.as_bytes());
                }
                black_box(&mut buf);
            });
            println!("{:>12}{name:>12}{ours:>12.1}{theirs:>18.1}", text.len());
        }
    }
    Ok(())
}

fn main() -> ExitCode {
    let arguments: Vec<String> = env::args().skip(1).collect();
    let words: Vec<&str> = arguments.iter().map(String::as_str).collect();
    let done = match words[..] {
        [log @ ("winch" | "reading"), count] => match count.parse() {
            Ok(count) if log == "winch" => winch(count),
            Ok(count) => reading(count),
            Err(_) => {
                eprintln!("not a count: {count}");
                return ExitCode::FAILURE;
            }
        },
        ["calls"] => calls(),
        ["closes"] => closes(),
        ["strings"] => strings(),
        _ => {
            eprintln!("use: bench winch N | reading N | calls | closes | strings");
            return ExitCode::FAILURE;
        }
    };
    match done {
        Ok(()) => ExitCode::SUCCESS,
        Err(why) => {
            eprintln!("refused: {why}");
            ExitCode::FAILURE
        }
    }
}
