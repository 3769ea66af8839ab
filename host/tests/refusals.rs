//! Each refusal of a call of the writer, with state and buffer as they were.
use goatminute::{sys, Decimal, Refusal, State, Timestamp, WriteValues, Writer, LONGEST_BUFFER, STATE_SIZE};

/// A state and a buffer of `room` bytes after a start, filled up with 0xEE.
fn started(room: usize) -> ([u8; STATE_SIZE], Vec<u8>) {
    let mut state = [0; STATE_SIZE];
    let mut buf = vec![0xEE; room];
    sys::start(&mut state, &mut buf).unwrap();
    (state, buf)
}

/// Every call, each with arguments that its own checks take.
type Call = fn(&mut [u8], &mut [u8]) -> Result<(), Refusal>;

const VALUES: [(&str, Call); 15] = [
    ("write_null", |s, b| sys::write_null(s, b, &[], 11)),
    ("write_bool", |s, b| sys::write_bool(s, b, &[], true)),
    ("write_i64", |s, b| sys::write_i64(s, b, &[], -5)),
    ("write_int", |s, b| sys::write_int(s, b, &[], true, &[5])),
    ("write_f32", |s, b| sys::write_f32(s, b, &[], 1)),
    ("write_f64", |s, b| sys::write_f64(s, b, &[], 1)),
    ("write_decimal", |s, b| sys::write_decimal(s, b, &[], false, &[1], -2)),
    ("write_timestamp", |s, b| {
        sys::write_timestamp(s, b, &[], Timestamp::year(2000))
    }),
    ("write_symbol", |s, b| sys::write_symbol(s, b, &[], 4)),
    ("write_string", |s, b| sys::write_string(s, b, &[], b"o")),
    ("write_clob", |s, b| sys::write_clob(s, b, &[], b"o")),
    ("write_blob", |s, b| sys::write_blob(s, b, &[], b"o")),
    ("open_list", |s, b| sys::open_list(s, b, &[])),
    ("open_sexp", |s, b| sys::open_sexp(s, b, &[])),
    ("open_struct", |s, b| sys::open_struct(s, b, &[])),
];

const OTHERS: [(&str, Call); 5] = [
    ("field_name", |s, b| sys::field_name(s, b, 4)),
    ("close", |s, b| sys::close(s, b).map(drop)),
    ("abandon", |s, b| sys::abandon(s, b)),
    ("version_marker", |s, b| sys::version_marker(s, b)),
    ("empty", |s, b| sys::empty(s, b)),
];

fn every_call() -> impl Iterator<Item = (&'static str, Call)> {
    VALUES.into_iter().chain(OTHERS)
}

/// The call is refused for this reason, and alters nothing.
#[track_caller]
fn refused(
    name: &str,
    state: &mut [u8],
    buf: &mut [u8],
    why: Refusal,
    call: impl Fn(&mut [u8], &mut [u8]) -> Result<(), Refusal>,
) {
    let before = (state.to_vec(), buf.to_vec());
    assert_eq!(call(state, buf), Err(why), "{name}");
    assert!(state == &before.0[..], "{name} altered the state");
    assert!(buf == &before.1[..], "{name} altered the buffer");
}

#[test]
fn buffer_past_the_longest_is_1() {
    let mut long = vec![0xEE; LONGEST_BUFFER + 1];
    assert_eq!(Writer::new(&mut long).err(), Some(Refusal::BufferTooLong));
    assert!(long.iter().all(|&byte| byte == 0xEE));
    let (mut state, mut buf) = started(LONGEST_BUFFER);
    sys::write_bool(&mut state, &mut buf, &[], true).unwrap();
    assert_eq!(sys::finished(&state, &buf), [0xE0, 0x01, 0x00, 0xEA, 0x11]);
    buf.push(0xEE);
    for (name, call) in every_call() {
        // not by `refused`: comparing copies of the whole buffer for each call would be slow
        let before = state;
        assert_eq!(call(&mut state, &mut buf), Err(Refusal::BufferTooLong), "{name}");
        assert_eq!(state, before);
        assert_eq!(buf[..6], [0xE0, 0x01, 0x00, 0xEA, 0x11, 0xEE]);
        // 1 comes before 2
        assert_eq!(call(&mut state[1..], &mut buf), Err(Refusal::BufferTooLong), "{name}");
        assert_eq!(call(&mut [0xFF; STATE_SIZE], &mut buf), Err(Refusal::BufferTooLong), "{name}");
    }
    assert!(buf[5..].iter().all(|&byte| byte == 0xEE));
    assert!(sys::finished(&state, &buf).is_empty());
}

#[test]
fn whole_longest_buffer_can_be_used() {
    let (mut state, mut buf) = started(LONGEST_BUFFER);
    // a blob's descriptor and its length take five bytes here
    let blob = vec![7; LONGEST_BUFFER - 9];
    sys::write_blob(&mut state, &mut buf, &[], &blob).unwrap();
    assert_eq!(sys::finished(&state, &buf).len(), LONGEST_BUFFER);
    assert_eq!(sys::write_bool(&mut state, &mut buf, &[], true), Err(Refusal::NoRoom));
}

#[test]
fn refused_start_answers_the_empty_state() {
    for room in 0..4 {
        let mut state = [0xFF; STATE_SIZE];
        let mut buf = vec![0xEE; room];
        assert_eq!(sys::start(&mut state, &mut buf), Err(Refusal::NoRoom));
        assert_eq!(state, [0; STATE_SIZE]);
        assert!(buf.iter().all(|&byte| byte == 0xEE));
    }
    let mut state = [0xFF; STATE_SIZE];
    assert_eq!(
        sys::start(&mut state, &mut vec![0; LONGEST_BUFFER + 1]),
        Err(Refusal::BufferTooLong)
    );
    assert_eq!(state, [0; STATE_SIZE]);
}

#[test]
fn state_of_another_length_is_2() {
    let (state, mut buf) = started(64);
    // 296 bytes are a state without members
    for length in [0, 1, 296, STATE_SIZE - 1, STATE_SIZE + 1, 2 * STATE_SIZE] {
        let mut other = state.to_vec();
        other.resize(length, 0);
        for (name, call) in every_call() {
            refused(name, &mut other, &mut buf, Refusal::StateUnfit, call);
        }
        refused("start", &mut other, &mut buf, Refusal::StateUnfit, sys::start);
        assert!(sys::finished(&other, &buf).is_empty());
    }
}

/// A state by its parts: used length, whether a name waits, and the open containers with start, header, type code and members.
fn state_of(used: u32, waiting: u8, containers: &[(u32, u32, u8, u32)]) -> [u8; STATE_SIZE] {
    let mut state = [0; STATE_SIZE];
    state[..4].copy_from_slice(&used.to_le_bytes());
    state[4] = containers.len() as u8;
    state[5] = waiting;
    for (i, &(start, header, code, members)) in containers.iter().enumerate() {
        let at = 8 + 13 * i;
        state[at..at + 4].copy_from_slice(&start.to_le_bytes());
        state[at + 4..at + 8].copy_from_slice(&header.to_le_bytes());
        state[at + 8] = code;
        state[at + 9..at + 13].copy_from_slice(&members.to_le_bytes());
    }
    state
}

#[test]
fn state_that_does_not_fit_is_2() {
    let mut depth_33 = state_of(60, 0, &[]);
    depth_33[4] = 33;
    let unfit = [
        ("used past the buffer", state_of(65, 0, &[])),
        ("used of 32 bits", state_of(u32::MAX, 0, &[])),
        ("33 containers", depth_33),
        ("type code 00", state_of(20, 0, &[(4, 4, 0, 0)])),
        ("type code E0", state_of(20, 0, &[(4, 4, 0xE0, 0)])),
        ("type code B1", state_of(20, 0, &[(4, 4, 0xB1, 0)])),
        ("header before start", state_of(20, 0, &[(4, 3, 0xB0, 0)])),
        ("header 1 beyond start", state_of(20, 0, &[(4, 5, 0xB0, 0)])),
        ("header 3 beyond start", state_of(20, 0, &[(4, 7, 0xB0, 0)])),
        ("header without its reserve", state_of(20, 0, &[(4, 19, 0xB0, 0)])),
        (
            "header past the next start",
            state_of(20, 0, &[(4, 8, 0xB0, 0), (9, 9, 0xC0, 0)]),
        ),
        ("start of 32 bits", state_of(20, 0, &[(u32::MAX, u32::MAX, 0xB0, 0)])),
        ("outer container unfit", state_of(20, 0, &[(4, 4, 0x10, 0), (6, 6, 0xB0, 0)])),
        ("name waits with none open", state_of(20, 1, &[])),
        ("name waits in a list", state_of(20, 1, &[(4, 4, 0xB0, 0)])),
        // no more members than bytes: 14 here, none, 10 behind annotations
        ("a member more than bytes", state_of(20, 0, &[(4, 4, 0xB0, 15)])),
        ("a member in no bytes", state_of(6, 0, &[(4, 4, 0xC0, 1)])),
        (
            "a member more than bytes behind annotations",
            state_of(20, 0, &[(4, 8, 0xD0, 11)]),
        ),
        ("a pair more than bytes, a name waits", state_of(20, 1, &[(4, 8, 0xD0, 11)])),
        ("members of 32 bits", state_of(20, 0, &[(4, 4, 0xB0, u32::MAX)])),
        (
            "members that wrap the header around",
            state_of(20, 0, &[(4, 4, 0xB0, u32::MAX - 5)]),
        ),
        // the bytes of an outer container end at the next start, not at the used length: 3 here
        (
            "a member more than bytes outside",
            state_of(20, 0, &[(4, 4, 0xB0, 4), (9, 9, 0xB0, 0)]),
        ),
        (
            "a member more than bytes in the middle",
            state_of(20, 0, &[(0, 0, 0xB0, 0), (4, 4, 0xC0, 4), (9, 9, 0xB0, 0)]),
        ),
        (
            "a member more than bytes inside",
            state_of(20, 0, &[(4, 4, 0xB0, 3), (9, 9, 0xB0, 10)]),
        ),
        (
            "name waits in a list in a struct",
            state_of(20, 1, &[(4, 4, 0xD0, 0), (7, 7, 0xB0, 0)]),
        ),
    ];
    for (which, mut state) in unfit {
        let mut buf = vec![0xEE; 64];
        for (name, call) in every_call() {
            refused(&format!("{name}, {which}"), &mut state, &mut buf, Refusal::StateUnfit, call);
        }
        assert!(sys::finished(&state, &buf).is_empty(), "{which}");
    }
}

#[test]
fn states_that_fit_are_taken() {
    let fit = [
        state_of(64, 0, &[(62, 62, 0xB0, 0)]),
        state_of(20, 0, &[(4, 8, 0xB0, 0)]),
        state_of(20, 0, &[(4, 4, 0xC0, 0), (6, 6, 0xC0, 0)]),
        state_of(20, 1, &[(4, 4, 0xC0, 0), (6, 10, 0xD0, 0)]),
        state_of(20, 0xFF, &[(0, 0, 0xD0, 0)]),
        // as many members as bytes
        state_of(20, 0, &[(4, 4, 0xB0, 14)]),
        state_of(20, 1, &[(4, 8, 0xD0, 10)]),
        state_of(20, 0, &[(4, 4, 0xB0, 3), (9, 9, 0xB0, 9)]),
    ];
    for mut state in fit {
        let mut buf = vec![0xEE; 64];
        assert_eq!(sys::abandon(&mut state, &mut buf), Ok(()));
    }
}

#[test]
fn calls_out_of_place_are_3() {
    let (mut state, mut buf) = started(64);
    for name in ["field_name", "close", "abandon"] {
        let call = OTHERS.iter().find(|other| other.0 == name).unwrap().1;
        refused(name, &mut state, &mut buf, Refusal::Misplaced, call);
    }
    sys::open_struct(&mut state, &mut buf, &[]).unwrap();
    for (name, call) in VALUES {
        refused(name, &mut state, &mut buf, Refusal::Misplaced, call);
    }
    refused("version_marker", &mut state, &mut buf, Refusal::Misplaced, |s, b| {
        sys::version_marker(s, b)
    });
    refused("empty", &mut state, &mut buf, Refusal::Misplaced, |s, b| sys::empty(s, b));
    sys::field_name(&mut state, &mut buf, 4).unwrap();
    for name in ["field_name", "close", "version_marker", "empty"] {
        let call = OTHERS.iter().find(|other| other.0 == name).unwrap().1;
        refused(name, &mut state, &mut buf, Refusal::Misplaced, call);
    }
    sys::open_list(&mut state, &mut buf, &[]).unwrap();
    for name in ["field_name", "version_marker", "empty"] {
        let call = OTHERS.iter().find(|other| other.0 == name).unwrap().1;
        refused(name, &mut state, &mut buf, Refusal::Misplaced, call);
    }
}

#[test]
fn opening_with_32_open_is_4() {
    let (mut state, mut buf) = started(128);
    for _ in 0..32 {
        sys::open_list(&mut state, &mut buf, &[]).unwrap();
    }
    for (name, call) in VALUES.into_iter().filter(|value| value.0.starts_with("open")) {
        refused(name, &mut state, &mut buf, Refusal::TooDeep, call);
    }
    // 4 comes before 10
    let mut short = buf[..4 + 64].to_vec();
    refused("open_list", &mut state, &mut short, Refusal::TooDeep, |s, b| {
        sys::open_list(s, b, &[])
    });
    // 14 lists inside each other take 14 bytes; those around them have headers of two
    for size in (1..=14).chain((16..=50).step_by(2)) {
        assert_eq!(sys::close(&mut state, &mut buf).unwrap().size, size);
    }
    let mut expected: Vec<u8> = (0..14).rev().map(|length| 0xB0 + length).collect();
    while expected.len() < 14 + 2 * 18 {
        let length = expected.len() as u8;
        expected.splice(0..0, [0xBE, 0x80 + length]);
    }
    assert_eq!(&sys::finished(&state, &buf)[4..], expected);
}

#[test]
fn misplaced_opening_with_32_open_is_3() {
    let (mut state, mut buf) = started(128);
    for _ in 0..31 {
        sys::open_list(&mut state, &mut buf, &[]).unwrap();
    }
    sys::open_struct(&mut state, &mut buf, &[]).unwrap();
    refused("open_list", &mut state, &mut buf, Refusal::Misplaced, |s, b| {
        sys::open_list(s, b, &[])
    });
    sys::field_name(&mut state, &mut buf, 1).unwrap();
    refused("open_list", &mut state, &mut buf, Refusal::TooDeep, |s, b| {
        sys::open_list(s, b, &[])
    });
}

#[test]
fn negative_zero_is_5() {
    for room in [4, 64] {
        let (mut state, mut buf) = started(room);
        for magnitude in [&[][..], &[0], &[0, 0, 0]] {
            refused("write_int", &mut state, &mut buf, Refusal::NegativeZero, |s, b| {
                sys::write_int(s, b, &[], true, magnitude)
            });
            let sids = sys::sid_bytes(&[10]);
            refused("write_int", &mut state, &mut buf, Refusal::NegativeZero, |s, b| {
                sys::write_int(s, b, sids, true, magnitude)
            });
        }
    }
}

#[test]
fn strings_that_are_not_utf_8_are_6() {
    let wrong: [&[u8]; 12] = [
        b"\xFF",
        b"\x80",
        b"\xC0\xAF",
        b"\xC1\xBF",
        b"\xC3",
        b"\xE0\x9F\xBF",
        b"\xED\xA0\x80",
        b"\xE2\x82",
        b"\xF0\x8F\xBF\xBF",
        b"\xF4\x90\x80\x80",
        b"\xF5\x80\x80\x80",
        b"a long text of letters before the wrong byte \x9F and after",
    ];
    for room in [4, 128] {
        let (mut state, mut buf) = started(room);
        for bytes in wrong {
            assert!(std::str::from_utf8(bytes).is_err());
            refused("write_string", &mut state, &mut buf, Refusal::NotUtf8, |s, b| {
                sys::write_string(s, b, &[], bytes)
            });
        }
    }
}

#[test]
fn timestamps_out_of_range_are_7() {
    let second = Timestamp::second(2000, 1, 1, 0, 0, 0);
    let wrong = [
        Timestamp::year(0),
        Timestamp::year(10_000),
        Timestamp::year(65_537),
        Timestamp::month(2000, 0),
        Timestamp::month(2000, 13),
        Timestamp::month(2000, 257),
        Timestamp::day(2000, 1, 0),
        Timestamp::day(2000, 1, 32),
        Timestamp::day(2000, 2, 30),
        Timestamp::day(2001, 2, 29),
        Timestamp::day(1900, 2, 29),
        Timestamp::day(2000, 4, 31),
        Timestamp::minute(2000, 1, 1, 24, 0),
        Timestamp::minute(2000, 1, 1, 0, 60),
        Timestamp::second(2000, 1, 1, 0, 0, 60),
        Timestamp::second(2000, 1, 1, 0, 0, u32::MAX),
        second.with_offset(1440),
        second.with_offset(-1440),
        second.with_offset(i32::MIN),
        second.with_offset(65_536),
        Timestamp::year(2000).with_offset(0),
        Timestamp::month(2000, 1).with_offset(0),
        Timestamp::day(2000, 1, 1).with_offset(60),
        second.with_fraction(0, 0),
        second.with_fraction(1, 10),
        second.with_fraction(18, 1_000_000_000_000_000_000),
        second.with_fraction(19, 0),
        second.with_fraction(u32::MAX, u64::MAX),
        Timestamp::minute(2000, 1, 1, 0, 0).with_fraction(3, 0),
        Timestamp::day(2000, 1, 1).with_fraction(3, 0),
        // the UTC years 0 and 10000, whatever the local year
        Timestamp::minute(1, 1, 1, 0, 0).with_offset(1),
        Timestamp::minute(1, 1, 1, 0, 30).with_offset(60),
        Timestamp::second(1, 1, 1, 23, 58, 59).with_offset(1439),
        Timestamp::minute(9999, 12, 31, 23, 59).with_offset(-1),
        Timestamp::minute(9999, 12, 31, 23, 30).with_offset(-60),
        Timestamp::second(9999, 12, 31, 0, 1, 0)
            .with_offset(-1439)
            .with_fraction(3, 7),
    ];
    for room in [4, 64] {
        let (mut state, mut buf) = started(room);
        for value in wrong {
            let name = format!("{value:?}");
            refused(&name, &mut state, &mut buf, Refusal::BadTimestamp, |s, b| {
                sys::write_timestamp(s, b, &[], value)
            });
        }
    }
}

#[test]
fn decimal_bodies_over_32_bytes_are_8() {
    for room in [4, 128] {
        let (mut state, mut buf) = started(room);
        for (coefficient, exponent) in [
            (&[0xFF; 31][..], 0),
            (&[0x7F; 32], 0),
            (&[0x7F; 31], 64),
            (&[1; 23], i64::MIN),
        ] {
            refused("write_decimal", &mut state, &mut buf, Refusal::DecimalTooLong, |s, b| {
                sys::write_decimal(s, b, &[], false, coefficient, exponent)
            });
        }
    }
    // leading zeros do not count
    let (mut state, mut buf) = started(64);
    let mut coefficient = [0; 100];
    coefficient[69..].fill(0x7F);
    sys::write_decimal(&mut state, &mut buf, &[], false, &coefficient, 0).unwrap();
}

#[test]
fn calls_without_room_are_10() {
    let sids = sys::sid_bytes(&[10]);
    // what each call puts
    let sizes = [1, 1, 2, 2, 5, 9, 3, 4, 2, 2, 2, 2, 2, 2, 2];
    for ((name, call), size) in VALUES.into_iter().zip(sizes) {
        for room in 4..4 + size {
            let (mut state, mut buf) = started(room);
            refused(name, &mut state, &mut buf, Refusal::NoRoom, call);
        }
        let (mut state, mut buf) = started(4 + size);
        assert_eq!(call(&mut state, &mut buf), Ok(()), "{name}");
        assert_eq!(
            u32::from_le_bytes(state[..4].try_into().unwrap()) as usize,
            4 + size,
            "{name}"
        );
    }
    for room in 4..8 {
        let (mut state, mut buf) = started(room);
        refused("annotated", &mut state, &mut buf, Refusal::NoRoom, |s, b| {
            sys::write_bool(s, b, sids, true)
        });
        refused("annotated list", &mut state, &mut buf, Refusal::NoRoom, |s, b| {
            sys::open_list(s, b, sids)
        });
        refused("version_marker", &mut state, &mut buf, Refusal::NoRoom, |s, b| {
            sys::version_marker(s, b)
        });
    }
    let (mut state, mut buf) = started(6);
    sys::open_struct(&mut state, &mut buf, &[]).unwrap();
    refused("field_name", &mut state, &mut buf, Refusal::NoRoom, |s, b| {
        sys::field_name(s, b, 4)
    });
}

#[test]
fn close_that_cannot_grow_is_10() {
    // a body of 128 bytes needs a header of three, one more than the reserve
    for (room, answer) in [(4 + 2 + 128, Err(Refusal::NoRoom)), (4 + 3 + 128, Ok(3 + 128))] {
        let (mut state, mut buf) = started(room);
        sys::open_list(&mut state, &mut buf, &[]).unwrap();
        sys::write_blob(&mut state, &mut buf, &[], &[1; 126]).unwrap();
        let before = (state, buf.clone());
        assert_eq!(sys::close(&mut state, &mut buf).map(|closed| closed.size), answer);
        if answer.is_err() {
            assert_eq!((state, buf), before);
        }
    }
    // the wrapper grows while the container does not: contents of 4 + 124
    for (room, answer) in [(4 + 2 + 128, Err(Refusal::NoRoom)), (4 + 3 + 128, Ok(3 + 128))] {
        let (mut state, mut buf) = started(room);
        sys::open_list(&mut state, &mut buf, sys::sid_bytes(&[10])).unwrap();
        sys::write_blob(&mut state, &mut buf, &[], &[1; 122]).unwrap();
        let before = (state, buf.clone());
        assert_eq!(sys::close(&mut state, &mut buf).map(|closed| closed.size), answer);
        if answer.is_err() {
            assert_eq!((state, buf), before);
        }
    }
}

#[test]
fn writer_refuses_as_the_entries_do() {
    let mut buf = [0; 16];
    let mut writer = Writer::new(&mut buf).unwrap();
    assert_eq!(writer.write_int(true, &[]), Err(Refusal::NegativeZero));
    assert_eq!(writer.write_string_bytes(b"\xFF"), Err(Refusal::NotUtf8));
    assert_eq!(writer.write_timestamp(Timestamp::year(0)), Err(Refusal::BadTimestamp));
    let early = Timestamp::minute(1, 1, 1, 0, 30).with_offset(60);
    assert_eq!(writer.write_timestamp(early), Err(Refusal::BadTimestamp));
    assert_eq!(
        writer.write_decimal(Decimal::from_bytes(false, &[1; 40], 0)),
        Err(Refusal::DecimalTooLong)
    );
    assert_eq!(writer.write_string("no room for this"), Err(Refusal::NoRoom));
    let mut fields = writer.struct_writer().unwrap();
    assert_eq!(fields.write_bool(true), Err(Refusal::Misplaced));
    assert_eq!(fields.field_name(1).map(drop), Ok(()));
    assert_eq!(fields.field_name(2).map(drop), Err(Refusal::Misplaced));
    drop(fields);
    assert_eq!(writer.finished(), [0xE0, 0x01, 0x00, 0xEA]);
    let unfit = State::from_bytes([0xFF; STATE_SIZE]);
    let mut writer = Writer::resume(unfit.clone(), &mut buf);
    assert_eq!(writer.write_bool(true), Err(Refusal::StateUnfit));
    assert!(writer.list_writer().is_err());
    assert!(writer.finished().is_empty());
    assert_eq!(writer.state(), &unfit);
}

#[test]
fn calls_of_the_stream_refuse_an_unfit_state() {
    let mut buf = [0xEE; 10];
    let unfit = State::from_bytes([0xFF; STATE_SIZE]);
    let mut writer = Writer::resume(unfit.clone(), &mut buf);
    assert_eq!(writer.empty(), Err(Refusal::StateUnfit));
    assert_eq!(writer.write_version_marker(), Err(Refusal::StateUnfit));
    assert_eq!(writer.close_innermost(), Err(Refusal::StateUnfit));
    assert_eq!(writer.abandon_innermost(), Err(Refusal::StateUnfit));
    assert_eq!(writer.state(), &unfit);
}

#[test]
fn marker_and_emptying_through_the_writer() {
    let mut buf = [0xEE; 7];
    let mut writer = Writer::new(&mut buf).unwrap();
    assert_eq!(writer.write_version_marker(), Err(Refusal::NoRoom));
    let mut writer = Writer::resume(State::from_bytes(state_of(6, 0, &[(4, 4, 0xB0, 0)])), &mut buf);
    assert_eq!(writer.write_version_marker(), Err(Refusal::Misplaced));
    assert_eq!(writer.empty(), Err(Refusal::Misplaced));
    assert_eq!(writer.used(), 6);
}
