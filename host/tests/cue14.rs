//! The example `cue14`, run as a program: what it prints, and the file that it writes. `cargo test` builds it; a run of this test alone
//! takes the program that is there.
use goatminute::{Item, Magnitude, Reader, Value};
use std::path::{Path, PathBuf};
use std::process::Command;
use std::{env, fs};

/// The programs of the examples lie beside the directory of the tests.
fn program() -> PathBuf {
    let test = env::current_exe().unwrap();
    let programs = test.parent().and_then(Path::parent).unwrap();
    programs.join("examples/cue14")
}

/// As README.md has it: the annotation 10 around a struct of 31 bytes, in which 11 and 12 are 1, 13 is 2026-03-14T20:30:07.000+01:00, 14 is
/// 2400d-1, 15 is 1.5e0 and 16 is $18.
const FIRST: &str =
    "ee a3 81 8a de 9f 8b 21 01 8c 21 01 8d 69 bc 0f ea 83 8e 93 9e 87 c3 8e 53 c1 09 60 8f 44 3f c0 00 00 90 71 12";

/// The first record of an axis has 37 bytes. A later one has six more: two for the fraction of its second, four for a position that
/// binary32 does not hold. Of the last, the load takes two less and the warning four more.
const SIZE: usize = 4 + 12 * (37 + 4 * 43) - 2 + 4;

/// The fields of a struct as text: ints, times as `hour:minute:second.fraction` of the local time, loads in tenths of a kilogram,
/// positions in centimetres, symbols, and how many values a list has.
fn field(field: &Item, inside: usize) -> (u64, String) {
    let text = match field.value {
        Value::Int { .. } => field.value.as_i64().unwrap().to_string(),
        Value::Timestamp(time) => {
            let (local, fraction) = (time.local(), time.fraction.unwrap());
            assert_eq!((local.year, local.month, local.day, time.offset), (2026, 3, 14, Some(60)));
            assert_eq!(fraction.digits, 3);
            let millis = fraction.coefficient.to_u64().unwrap();
            format!("{}:{}:{}.{millis:03}", local.hour, local.minute, local.second)
        }
        Value::Decimal(load) => {
            assert_eq!((load.negative, load.exponent), (false, -1));
            Magnitude::to_u64(load.coefficient).unwrap().to_string()
        }
        Value::Float(position) => (100.0 * position.value()).round().to_string(),
        Value::Symbol(sid) => format!("${sid}"),
        Value::List => format!("[{inside}]"),
        _ => panic!("{field:?}"),
    };
    (field.name.unwrap(), text)
}

/// The records of a stream behind its marker.
fn records(stream: &[u8]) -> Vec<Vec<(u64, String)>> {
    let mut reader = Reader::new(stream);
    assert!(matches!(
        reader.next(),
        Some(Ok(Item {
            value: Value::VersionMarker,
            ..
        }))
    ));
    let mut records = Vec::new();
    while let Some(record) = reader.next() {
        let record = record.unwrap();
        assert!(
            matches!(record.value, Value::Struct) && record.annotations.eq([10]),
            "{record:?}"
        );
        reader.step_in().unwrap();
        let mut fields = Vec::new();
        while let Some(item) = reader.next() {
            let item = item.unwrap();
            let mut inside = 0;
            if item.value.is_container() {
                reader.step_in().unwrap();
                inside = reader
                    .by_ref()
                    .filter(|warning| matches!(warning.unwrap().value, Value::Symbol(20)))
                    .count();
                reader.step_out().unwrap();
            }
            fields.push(field(&item, inside));
        }
        reader.step_out().unwrap();
        records.push(fields);
    }
    records
}

/// What the controller's six axes have in two runs, five samples each.
fn expected() -> Vec<Vec<(u64, String)>> {
    let mut records = Vec::new();
    for (run, minute) in [(1, 30), (2, 41)] {
        for axis in 1..=6 {
            for sample in 1..=5 {
                let is_slack = (run, axis, sample) == (2, 6, 5);
                let load = if is_slack {
                    0
                } else {
                    2400 + 310 * (axis - 1) + 17 * (sample - 1)
                };
                let brake = if [1, 5].contains(&sample) { 18 } else { 17 };
                let mut fields = vec![
                    (11, axis.to_string()),
                    (12, run.to_string()),
                    (13, format!("20:{minute}:{}.{:03}", 6 + axis, 200 * (sample - 1))),
                    (14, load.to_string()),
                    (15, (150 + 25 * (axis - 1) + 10 * (sample - 1)).to_string()),
                    (16, format!("${brake}")),
                ];
                if is_slack {
                    fields.push((19, "[1]".to_string()));
                }
                records.push(fields);
            }
        }
    }
    records
}

#[test]
fn example_logs_two_runs_of_six_axes() {
    let file = Path::new(env!("CARGO_TARGET_TMPDIR")).join("cue14.10n");
    let ran = Command::new(program())
        .arg(&file)
        .output()
        .expect("the example is built and runs");
    assert!(ran.status.success(), "{}", String::from_utf8_lossy(&ran.stderr));
    let lines = format!("{}: 60 records, 2514 bytes\nfirst record: {FIRST}\n", file.display());
    assert_eq!(String::from_utf8_lossy(&ran.stdout), lines);
    let stream = fs::read(&file).unwrap();
    assert_eq!((stream.len(), SIZE), (2514, 2514));
    let first: Vec<u8> = FIRST.split(' ').map(|byte| u8::from_str_radix(byte, 16).unwrap()).collect();
    assert_eq!(stream[..4], [0xE0, 0x01, 0x00, 0xEA]);
    assert_eq!(stream[4..4 + first.len()], first);
    assert_eq!(records(&stream), expected());
}

#[test]
fn example_says_why_it_writes_no_file() {
    let nowhere = Path::new(env!("CARGO_TARGET_TMPDIR")).join("no such directory/cue14.10n");
    let ran = Command::new(program())
        .arg(nowhere)
        .output()
        .expect("the example is built and runs");
    assert!(!ran.status.success() && ran.stdout.is_empty());
    assert!(!ran.stderr.is_empty());
}
