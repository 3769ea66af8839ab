//! Six axes log two runs of cue 14 to a file: for each axis and run, five records of rope load, position, brake and time.
use goatminute::{Closed, Decimal, Refusal, StreamWriter, Timestamp, WriteValues};
use std::env;
use std::error::Error;
use std::fs::File;
use std::io::Write;

// The sids of the log's symbol table, which the controller keeps beside it.
const CUE_14: u64 = 10;
const AXIS: u64 = 11;
const RUN: u64 = 12;
const TIME: u64 = 13;
const LOAD: u64 = 14;
const POSITION: u64 = 15;
const BRAKE: u64 = 16;
const OPEN: u64 = 17;
const SET: u64 = 18;
const WARNINGS: u64 = 19;
const ROPE_SLACK: u64 = 20;

const AXES: u32 = 6;
const RUNS: u32 = 2;
const SAMPLES: u32 = 5;

struct Sample {
    run: u32,
    axis: u32,
    number: u32,
}

impl Sample {
    /// Of the first sample of a run, 20:30 and 20:41 in a house one hour east of UTC; five samples a second.
    fn time(&self) -> Timestamp {
        Timestamp::second(2026, 3, 14, 20, 30 + 11 * self.run, 7 + self.axis)
            .with_fraction(3, 200 * self.number as u64)
            .with_offset(60)
    }

    /// In tenths of a kilogram. The rope of axis 5 runs slack at the end of the second run.
    fn load(&self) -> i64 {
        if self.is_slack() {
            return 0;
        }
        2_400 + 310 * self.axis as i64 + 17 * self.number as i64
    }

    fn is_slack(&self) -> bool {
        self.run == 1 && self.axis == 5 && self.number == SAMPLES - 1
    }

    /// In metres.
    fn position(&self) -> f64 {
        1.5 + 0.25 * self.axis as f64 + 0.1 * self.number as f64
    }

    fn brake(&self) -> u64 {
        if self.number == 0 || self.number == SAMPLES - 1 {
            SET
        } else {
            OPEN
        }
    }

    fn write(&self, writer: &mut impl WriteValues) -> Result<Closed, Refusal> {
        let mut record = writer.with_annotations(&[CUE_14]).struct_writer()?;
        record.field_name(AXIS)?.write_i64(self.axis as i64 + 1)?;
        record.field_name(RUN)?.write_i64(self.run as i64 + 1)?;
        record.field_name(TIME)?.write_timestamp(self.time())?;
        record.field_name(LOAD)?.write_decimal(Decimal::new(self.load(), -1))?;
        record.field_name(POSITION)?.write_f64(self.position())?;
        record.field_name(BRAKE)?.write_symbol(self.brake())?;
        if self.is_slack() {
            let mut warnings = record.field_name(WARNINGS)?.list_writer()?;
            warnings.write_symbol(ROPE_SLACK)?;
            warnings.close()?;
        }
        record.close()
    }
}

/// The controller's log: the writer, which owns its buffer, and the file that the finished bytes go to.
struct Log {
    writer: StreamWriter<[u8; 4096]>,
    file: File,
    size: usize,
}

impl Log {
    fn create(path: &str) -> Result<Log, Box<dyn Error>> {
        Ok(Log {
            writer: StreamWriter::new([0; 4096])?,
            file: File::create(path)?,
            size: 0,
        })
    }

    /// Writes a sample as a record, and hands out the record's bytes.
    fn record(&mut self, sample: &Sample) -> Result<&[u8], Refusal> {
        let size = sample.write(&mut self.writer)?.size as usize;
        let finished = self.writer.finished();
        Ok(&finished[finished.len() - size..])
    }

    fn send(&mut self) -> Result<(), Box<dyn Error>> {
        let finished = self.writer.finished();
        self.file.write_all(finished)?;
        self.size += finished.len();
        self.writer.empty()?;
        Ok(())
    }
}

fn main() -> Result<(), Box<dyn Error>> {
    let path = env::args().nth(1).unwrap_or_else(|| "cue14.10n".into());
    let mut log = Log::create(&path)?;
    let mut first = Vec::new();
    let mut records = 0;
    for run in 0..RUNS {
        for axis in 0..AXES {
            for number in 0..SAMPLES {
                let record = log.record(&Sample { run, axis, number })?;
                if records == 0 {
                    first.extend_from_slice(record);
                }
                records += 1;
            }
            log.send()?;
        }
    }
    log.file.sync_all()?;
    println!("{path}: {records} records, {} bytes", log.size);
    let hex: Vec<String> = first.iter().map(|byte| format!("{byte:02x}")).collect();
    println!("first record: {}", hex.join(" "));
    Ok(())
}
