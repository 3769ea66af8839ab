//! write-stream SEED: writes a stream from standard input (see `streams`) through the host crate, over one buffer.
//!
//! Prints the bytes of the start, then those of each item, one line of hex each. The seed draws what must leave no trace:
//! containers that are abandoned, refused calls, and when the buffer is emptied. Stops at the first call that answers otherwise
//! than document 01, and at a closing that answers another size, another number of members or other bytes moved than follow from
//! the value. Says on standard error how many calls of each kind it has made.

use std::io::{self, BufRead, BufWriter, Write};
use std::process::ExitCode;

use compare::form;
use compare::rng::Rng;

mod calls;
mod noise;

use goatminute::Writer;
use noise::Noise;

const BUFFER: usize = 65_536;
/// A used length from which the buffer is emptied, so that any item has room.
const FULL: usize = BUFFER / 2;
/// What the buffer holds before it is lent.
const FILL: u8 = 0xa5;

fn main() -> ExitCode {
    let seed = std::env::args().nth(1).and_then(|word| word.parse().ok());
    let Some(seed) = seed else {
        eprintln!("usage: write-stream SEED < STREAM");
        return ExitCode::from(2);
    };
    match write_stream(seed) {
        Ok(()) => ExitCode::SUCCESS,
        Err(error) => {
            eprintln!("write-stream: {error}");
            ExitCode::FAILURE
        }
    }
}

fn write_stream(seed: u64) -> Result<(), Box<dyn std::error::Error>> {
    let mut out = BufWriter::new(io::stdout().lock());
    let mut buf = vec![FILL; BUFFER];
    let mut writer = Writer::new(&mut buf)?;
    let mut noise = Noise::new(Rng::new(seed));
    print(&mut out, writer.finished())?;
    let mut printed = writer.finished().len();
    for (at, line) in io::stdin().lock().lines().enumerate() {
        let line = line?;
        let place = |why: &dyn std::fmt::Display| format!("item {}: {why}", at + 1);
        match line.strip_prefix("value ") {
            Some(value) => {
                let value = form::parse(value.as_bytes()).ok_or_else(|| place(&"not of the form"))?;
                calls::write(&mut writer, &value, &mut noise).map_err(|refusal| place(&refusal))?;
            }
            None if line == "marker" => writer.write_version_marker()?,
            None => return Err(place(&"neither marker nor value").into()),
        }
        print(&mut out, &writer.finished()[printed..])?;
        printed = writer.finished().len();
        if printed >= FULL || noise.one_in(40) {
            writer.empty()?;
            printed = writer.finished().len();
            noise.counts.emptied += u64::from(printed == 0);
        }
    }
    out.flush()?;
    eprintln!("write-stream: {}", noise.counts);
    Ok(())
}

fn print(out: &mut impl Write, bytes: &[u8]) -> io::Result<()> {
    for byte in bytes {
        write!(out, "{byte:02x}")?;
    }
    writeln!(out)
}
