//! The reader through the crate: items, steps into containers and out of them, and where a walk ends.
use goatminute::{
    sys, Float, IonType, Item, Magnitude, Precision, ReadRefusal, Reader, Refusal, Timestamp, Value, WriteValues, Writer,
};

fn refused(refusal: Refusal, place: usize) -> ReadRefusal {
    ReadRefusal { refusal, place }
}

/// The items of a stream, containers not entered, and how the walk ended.
fn items(stream: &[u8]) -> (usize, Option<ReadRefusal>) {
    let mut reader = Reader::new(stream);
    let count = reader.by_ref().filter(Result::is_ok).count();
    assert!(reader.next().is_none());
    (count, reader.refused())
}

/// The same with every container entered.
fn entered(stream: &[u8]) -> (usize, Option<ReadRefusal>) {
    let mut reader = Reader::new(stream);
    let mut count = 0;
    loop {
        match reader.next() {
            Some(Ok(item)) => {
                count += 1;
                if item.value.is_container() {
                    reader.step_in().unwrap();
                }
            }
            Some(Err(refused)) => return (count, Some(refused)),
            None if reader.depth() == 0 => return (count, None),
            None => reader.step_out().unwrap(),
        }
    }
}

fn only(stream: &[u8]) -> Item<'_> {
    let mut reader = Reader::new(stream);
    let item = reader.next().unwrap().unwrap();
    assert!(reader.next().is_none());
    assert_eq!(reader.refused(), None);
    item
}

#[test]
fn scalars_come_whole() {
    assert!(matches!(only(b"\xE0\x01\x00\xEA").value, Value::VersionMarker));
    assert!(matches!(only(b"\x0F").value, Value::Null(IonType::Null)));
    assert!(matches!(only(b"\x3F").value, Value::Null(IonType::Int)));
    assert!(matches!(only(b"\xDF").value, Value::Null(IonType::Struct)));
    assert!(matches!(only(b"\x11").value, Value::Bool(true)));
    assert_eq!(only(b"\x32\x00\x05").value.as_i64(), Some(-5));
    assert_eq!(only(b"\x38\x80\0\0\0\0\0\0\0").value.as_i64(), Some(i64::MIN));
    assert_eq!(only(b"\x28\x80\0\0\0\0\0\0\0").value.as_i64(), None);
    assert_eq!(only(b"\x11").value.as_i64(), None);
    assert!(matches!(only(b"\x40").value, Value::Float(Float::Zero)));
    assert!(matches!(
        only(b"\x44\x7F\xC0\x00\x01").value,
        Value::Float(Float::Binary32(0x7FC00001))
    ));
    assert!(matches!(only(b"\x48\xBF\xF8\0\0\0\0\0\0").value, Value::Float(float) if float.value() == -1.5));
    let Value::Decimal(decimal) = only(b"\x53\xC1\x9F\xBD").value else {
        panic!("no decimal")
    };
    assert_eq!((decimal.negative, decimal.exponent), (true, -1));
    assert_eq!(decimal.coefficient, Magnitude::from(b"\x1F\xBD".as_slice()));
    assert!(matches!(only(b"\x72\x01\x00").value, Value::Symbol(256)));
    assert!(matches!(only(b"\x82\xC3\xA9").value, Value::String("\u{e9}")));
    assert!(matches!(only(b"\x92\xC3\x00").value, Value::Clob(b"\xC3\x00")));
    assert!(matches!(only(b"\xA1\xFF").value, Value::Blob(b"\xFF")));
    assert!(matches!(only(b"\xB0").value, Value::List));
    assert!(matches!(only(b"\xC0").value, Value::SExp));
    assert!(matches!(only(b"\xD0").value, Value::Struct));
}

#[test]
fn exponents_reach_the_ends_of_64_bits() {
    for (body, exponent) in [
        (b"\x5A\x00\x7F\x7F\x7F\x7F\x7F\x7F\x7F\x7F\xFF", i64::MAX),
        (b"\x5A\x41\x00\x00\x00\x00\x00\x00\x00\x00\x80", i64::MIN),
    ] {
        assert!(matches!(only(body).value, Value::Decimal(decimal) if decimal.exponent == exponent));
    }
}

#[test]
fn timestamps_come_in_utc_and_local() {
    let mut buf = [0; 64];
    let mut writer = Writer::new(&mut buf).unwrap();
    let written = Timestamp::second(2026, 1, 1, 0, 30, 59).with_offset(60).with_fraction(3, 7);
    writer.write_timestamp(written).unwrap();
    writer.write_timestamp(Timestamp::month(1999, 12)).unwrap();
    let mut reader = Reader::at(writer.finished(), 4);
    let Value::Timestamp(read) = reader.next().unwrap().unwrap().value else {
        panic!("no timestamp")
    };
    assert_eq!(read.precision, Precision::Second);
    assert_eq!(read.offset, Some(60));
    assert_eq!((read.utc.year, read.utc.month, read.utc.day), (2025, 12, 31));
    assert_eq!((read.utc.hour, read.utc.minute, read.utc.second), (23, 30, 59));
    let local = read.local();
    assert_eq!((local.year, local.month, local.day), (2026, 1, 1));
    assert_eq!((local.hour, local.minute, local.second), (0, 30, 59));
    let fraction = read.fraction.unwrap();
    assert_eq!((fraction.digits, fraction.coefficient.to_u64()), (3, Some(7)));
    let Value::Timestamp(read) = reader.next().unwrap().unwrap().value else {
        panic!("no timestamp")
    };
    assert_eq!((read.precision, read.offset, read.fraction), (Precision::Month, None, None));
    assert_eq!((read.utc.year, read.utc.month), (1999, 12));
}

#[test]
fn offsets_to_the_ends_of_64_bits_have_a_local_time() {
    for (stream, offset) in [
        (
            b"\x6E\x90\x00\x7F\x7F\x7F\x7F\x7F\x7F\x7F\x7F\xFF\x0F\xD0\x81\x81\x80\x80",
            i64::MAX,
        ),
        (
            b"\x6E\x90\x41\x00\x00\x00\x00\x00\x00\x00\x00\x80\x0F\xD0\x81\x81\x80\x80",
            i64::MIN,
        ),
    ] {
        let Value::Timestamp(read) = only(stream).value else {
            panic!("no timestamp")
        };
        assert_eq!(read.offset, Some(offset));
        assert_eq!(read.local().year.signum(), offset.signum());
    }
}

fn var_uint(number: u64) -> Vec<u8> {
    let groups = (64 - number.leading_zeros()).div_ceil(7).max(1);
    let mut bytes: Vec<u8> = (0..groups).rev().map(|group| (number >> (7 * group)) as u8 & 0x7F).collect();
    *bytes.last_mut().unwrap() |= 0x80;
    bytes
}

/// A timestamp of any offset and these UTC fields.
fn timestamp_stream(offset: Option<i64>, fields: &[u64]) -> Vec<u8> {
    let mut body = var_uint(offset.map_or(0, i64::unsigned_abs));
    if body[0] & 0x40 != 0 {
        body.insert(0, 0);
    }
    if offset.is_none_or(|minutes| minutes < 0) {
        body[0] |= 0x40;
    }
    body.extend(fields.iter().flat_map(|field| var_uint(*field)));
    [&[0x6E], &var_uint(body.len() as u64)[..], &body].concat()
}

/// The mark is what the library answers; the years are those of the fields, counted by this crate.
#[test]
fn timestamps_out_of_calendar_are_marked() {
    let is_year = |year: i64| (1..=9999).contains(&year);
    let mut offsets = vec![None, Some(i64::MAX), Some(i64::MIN), Some(-i64::MAX)];
    for minutes in (0..=62).map(|bits| 1 << bits).chain([0, 59, 60, 720, 1439, 1440, 1441]) {
        offsets.extend([Some(minutes), Some(-minutes)]);
    }
    // from 2000-01-01T00:00 to the year 1 and to the year 10000
    for minutes in [-1_051_371_360, 4_207_593_600] {
        offsets.extend([Some(minutes - 1), Some(minutes), Some(minutes + 1)]);
    }
    let (mut marked, mut unmarked) = (0, 0);
    for year in [0, 1, 2, 4, 400, 1999, 2000, 9998, 9999, 10_000] {
        for (month, day) in [(1, 1), (2, 28), (6, 15), (12, 31)] {
            for (hour, minute) in [(0, 0), (0, 1), (12, 30), (23, 58), (23, 59)] {
                let fields = [year, month, day, hour, minute, 59];
                for count in [1, 2, 3, 5, 6] {
                    for offset in &offsets {
                        let stream = timestamp_stream(*offset, &fields[..count]);
                        let Value::Timestamp(read) = only(&stream).value else {
                            panic!("no timestamp")
                        };
                        assert_eq!((read.offset, read.utc.year), (*offset, year as i64));
                        let outside = !is_year(read.utc.year) || (count >= 5 && !is_year(read.local().year));
                        assert_eq!(read.out_of_calendar, outside, "{read:?}");
                        match outside {
                            true => marked += 1,
                            false => unmarked += 1,
                        }
                    }
                }
            }
        }
    }
    assert!(marked > 20_000 && unmarked > 20_000, "{marked} marked, {unmarked} not");
}

#[test]
fn the_ends_of_the_calendar() {
    let marked = |offset, fields: &[u64]| {
        let stream = timestamp_stream(offset, fields);
        match only(&stream).value {
            Value::Timestamp(read) => read.out_of_calendar,
            other => panic!("{other:?}"),
        }
    };
    for (offset, first, last) in [
        (None, false, false),
        (Some(0), false, false),
        (Some(1), false, true),
        (Some(-1), true, false),
        (Some(1439), false, true),
        (Some(-1439), true, false),
        (Some(i64::MAX), true, true),
        (Some(i64::MIN), true, true),
    ] {
        assert_eq!(marked(offset, &[1, 1, 1, 0, 0]), first, "{offset:?}");
        assert_eq!(marked(offset, &[9999, 12, 31, 23, 59, 59]), last, "{offset:?}");
        assert!(marked(offset, &[0, 2, 29]));
        assert!(marked(offset, &[0, 12, 31, 23, 59]));
        assert!(marked(offset, &[10_000]));
        assert!(!marked(offset, &[1, 1, 1]));
        assert!(!marked(offset, &[9999, 12, 31]));
    }
    // what is outside the grammar stays so
    for fields in [&[10_001][..], &[10_001, 1, 1, 0, 0], &[0, 2, 30], &[1, 2, 29]] {
        assert_eq!(
            items(&timestamp_stream(Some(-60), fields)),
            (0, Some(refused(Refusal::NotIon, 0)))
        );
    }
}

/// The first and the last minute of the years 1 and 9999 with every offset: refused, or read back in the calendar.
#[test]
fn what_is_written_is_never_out_of_calendar() {
    let mut buf = [0; 64];
    let mut refused = 0;
    for offset in [None].into_iter().chain((-1439..=1439).map(Some)) {
        for (year, month, day, hour, minute) in [
            (1, 1, 1, 0, 0),
            (1, 12, 31, 23, 59),
            (9999, 1, 1, 0, 0),
            (9999, 12, 31, 23, 59),
        ] {
            let mut value = Timestamp::minute(year, month, day, hour, minute);
            value.offset = offset;
            let mut writer = Writer::new(&mut buf).unwrap();
            match writer.write_timestamp(value) {
                Ok(()) => {
                    let Value::Timestamp(read) = only(&writer.finished()[4..]).value else {
                        panic!("no timestamp")
                    };
                    assert_eq!(
                        (read.out_of_calendar, read.local().year),
                        (false, i64::from(year)),
                        "{value:?}"
                    );
                }
                Err(refusal) => {
                    assert_eq!(refusal, Refusal::BadTimestamp, "{value:?}");
                    assert_eq!(writer.finished().len(), 4);
                    refused += 1;
                }
            }
        }
    }
    assert_eq!(refused, 2 * 1439);
}

#[test]
fn names_annotations_and_places() {
    // 20 ::{10: 1, pad, 11: $3::[]} behind a marker and a pad
    let stream = b"\xE0\x01\x00\xEA\x00\xEE\x8D\x81\x94\xDA\x8A\x21\x01\x8F\x00\x8B\xE3\x81\x83\xB0";
    let mut reader = Reader::new(stream);
    assert!(matches!(reader.next().unwrap().unwrap().value, Value::VersionMarker));
    let record = reader.next().unwrap().unwrap();
    assert_eq!((record.name, record.place), (None, 5));
    assert!(record.annotations.eq([20]));
    reader.step_in().unwrap();
    assert_eq!(reader.depth(), 1);
    let first = reader.next().unwrap().unwrap();
    assert_eq!((first.name, first.place, first.value.as_i64()), (Some(10), 10, Some(1)));
    assert!(first.annotations.is_empty());
    let second = reader.next().unwrap().unwrap();
    assert_eq!((second.name, second.place), (Some(11), 15));
    assert!(second.annotations.eq([3]));
    reader.step_in().unwrap();
    assert!(reader.next().is_none());
    assert!(reader.next().is_none());
    reader.step_out().unwrap();
    assert!(reader.next().is_none());
    reader.step_out().unwrap();
    assert_eq!((reader.depth(), reader.position()), (0, stream.len()));
    assert!(reader.next().is_none());
    assert_eq!(reader.refused(), None);
}

#[test]
fn a_container_that_is_passed_over_is_read_whole() {
    // [[0, 12]] and an int
    let stream = b"\xB3\xB2\x20\x12\x20";
    let end = Some(refused(Refusal::NotIon, 3));
    assert_eq!(items(stream), (1, end));
    assert_eq!(entered(stream), (3, end));
    assert_eq!(Reader::new(stream).check(), Err(refused(Refusal::NotIon, 3)));

    let mut reader = Reader::new(stream);
    reader.next().unwrap().unwrap();
    reader.step_in().unwrap();
    assert!(reader.next().unwrap().is_ok());
    assert_eq!(reader.step_out(), Err(refused(Refusal::NotIon, 3)));
    assert!(reader.next().is_none());
    assert_eq!(reader.step_out(), Err(refused(Refusal::NotIon, 3)));
    assert_eq!(reader.check(), Err(refused(Refusal::NotIon, 3)));
}

#[test]
fn leaving_reads_what_is_left() {
    // [1, 2, [3]] and 4
    let stream = b"\xB7\x21\x01\x21\x02\xB2\x21\x03\x21\x04";
    for steps in 0..=3 {
        let mut reader = Reader::new(stream);
        reader.next().unwrap().unwrap();
        reader.step_in().unwrap();
        for _ in 0..steps {
            reader.next().unwrap().unwrap();
        }
        reader.step_out().unwrap();
        assert_eq!(reader.next().unwrap().unwrap().value.as_i64(), Some(4));
    }
}

#[test]
fn sorted_structs_keep_their_order() {
    assert_eq!(entered(b"\xD1\x84\x8A\x20\x8A\x20"), (3, None));
    assert_eq!(entered(b"\xD1\x84\x8B\x20\x8A\x20"), (2, Some(refused(Refusal::NotIon, 4))));
    assert_eq!(entered(b"\xD1\x86\x8A\x20\x89\x00\x8A\x20"), (3, None));
    assert_eq!(entered(b"\xD4\x8B\x20\x8A\x20"), (3, None));
}

#[test]
fn steps_out_of_place_are_3_and_end_nothing() {
    let mut reader = Reader::new(b"\x20\xB0");
    assert_eq!(reader.step_in(), Err(refused(Refusal::Misplaced, 0)));
    assert_eq!(reader.step_out(), Err(refused(Refusal::Misplaced, 0)));
    reader.next().unwrap().unwrap();
    assert_eq!(reader.step_in(), Err(refused(Refusal::Misplaced, 1)));
    reader.next().unwrap().unwrap();
    reader.step_in().unwrap();
    assert_eq!(reader.step_in(), Err(refused(Refusal::Misplaced, 2)));
    reader.step_out().unwrap();
    assert!(reader.next().is_none());
    assert_eq!(reader.refused(), None);
}

#[test]
fn positions() {
    assert_eq!(items(b""), (0, None));
    let stream = b"\xB3\x21\x01\xB0";
    for (position, count, end) in [
        (0, 1, None),
        (1, 2, None),
        (2, 0, None),
        (4, 0, None),
        (5, 0, Some(refused(Refusal::StateUnfit, 5))),
        (usize::MAX, 0, Some(refused(Refusal::StateUnfit, usize::MAX))),
    ] {
        let mut reader = Reader::at(stream, position);
        assert_eq!(reader.check().err(), end);
        assert_eq!(reader.by_ref().filter(Result::is_ok).count(), count);
        assert_eq!(reader.refused(), end);
    }
}

#[test]
fn thirty_two_containers_are_entered() {
    let nested = |count: usize| {
        let mut stream = vec![];
        for _ in 0..count {
            let mut body = vec![0xBE, stream.len() as u8 | 0x80];
            body.append(&mut stream);
            stream = body;
        }
        stream
    };
    assert_eq!(entered(&nested(32)), (32, None));
    assert_eq!(entered(&nested(33)), (32, Some(refused(Refusal::TooDeep, 64))));
    assert_eq!(items(&nested(33)), (1, Some(refused(Refusal::TooDeep, 64))));
}

#[test]
fn refusals_have_words_and_place() {
    let words = |stream: &[u8], position| Reader::at(stream, position).next().unwrap().unwrap_err().to_string();
    assert_eq!(
        words(b"\x82a", 0),
        "the stream stops inside a value, a pad or a version marker (refusal 14) at byte 0"
    );
    assert_eq!(
        words(b"\x20\xFF", 1),
        "the bytes are outside the grammar of Ion 1.0 (refusal 13) at byte 1"
    );
    assert_eq!(words(b"", 1), "the position is past the stream's end (refusal 2) at byte 1");
}

/// A log of a few records, as the controller writes them.
fn log() -> Vec<u8> {
    let mut buf = [0; 512];
    let mut writer = Writer::new(&mut buf).unwrap();
    for i in 0..3 {
        let mut record = writer.with_annotations(&[20, 300]).struct_writer().unwrap();
        record.field_name(10).unwrap().write_i64(-812 * i).unwrap();
        record.field_name(11).unwrap().write_f64(0.1).unwrap();
        let at = Timestamp::second(2026, 3, 14, 20, 30, i as u32)
            .with_offset(60)
            .with_fraction(3, 7);
        record.field_name(12).unwrap().write_timestamp(at).unwrap();
        let mut list = record.field_name(13).unwrap().list_writer().unwrap();
        list.write_string("load").unwrap();
        list.write_symbol(1000).unwrap();
        list.close().unwrap();
        record.close().unwrap();
    }
    writer.finished().to_vec()
}

#[test]
fn a_log_cut_or_changed_at_every_byte_is_answered() {
    let log = log();
    assert_eq!(items(&log), (4, None));
    assert_eq!(entered(&log), (4 + 3 * 6, None));
    for cut in 0..log.len() {
        let part = &log[..cut];
        let (_, end) = entered(part);
        assert_eq!(items(part).1, end);
        assert!(end.is_none_or(|end| end.refusal == Refusal::CutShort && end.place < cut.max(1)));
    }
    for at in 0..log.len() {
        for byte in 0..=u8::MAX {
            let mut changed = log.clone();
            changed[at] = byte;
            let (_, end) = entered(&changed);
            assert_eq!(items(&changed).1, end);
            assert_eq!(Reader::new(&changed).check().err(), end);
        }
    }
}

#[test]
fn entries_answer_by_places() {
    let place = sys::Place::in_stream(b"\xB1\x20", 0);
    let parts = sys::read_item(b"\xB1\x20", place).unwrap();
    assert_eq!((parts.kind, parts.start, parts.stop), (0xB1, 1, 2));
    let far = sys::Place { end: 3, ..place };
    assert_eq!(sys::read_item(b"\xB1\x20", far), Err(Refusal::StateUnfit));
    assert_eq!(sys::read_rest(b"\xB1\x20", far), Err(refused(Refusal::StateUnfit, 0)));
    assert_eq!(sys::read_sid(b"\x0A\x8A", 0), Ok((1290, 2)));
    assert_eq!(sys::read_sid(b"\x0A\x8A", 1), Ok((10, 2)));
    assert_eq!(sys::read_sid(b"\x0A", 0), Err(Refusal::NotIon));
    assert_eq!(sys::read_symbol(&[1; 9]), Err(Refusal::NotIon));
    assert_eq!(sys::read_decimal(b""), Ok([0, 0, 0]));
    assert_eq!(sys::read_timestamp(b"\xC0"), Err(Refusal::NotIon));
    let early = sys::read_timestamp(b"\xBC\x80\x8C\x9F\x97\x9E").unwrap();
    assert_eq!((&early[..11], early[12]), (&[1, 0, 60, 5, 0, 12, 31, 23, 30, 0, 0][..], 1));
}
