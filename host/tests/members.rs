//! How many members closings answer (document 02, Item 3), through the safe writer, through the entry points and in the state's bytes.
use goatminute::{sys, Closed, Decimal, IonType, Refusal, State, Timestamp, WriteValues, Writer, MOST_OPEN, STATE_SIZE};

/// The size and the members of a closed container.
#[track_caller]
fn numbers(closed: Result<Closed, Refusal>) -> (u32, u32) {
    let closed = closed.unwrap();
    (closed.size, closed.members)
}

/// A state and a buffer of `room` bytes after a start, filled up with 0xEE.
fn started(room: usize) -> ([u8; STATE_SIZE], Vec<u8>) {
    let mut state = [0; STATE_SIZE];
    let mut buf = vec![0xEE; room];
    sys::start(&mut state, &mut buf).unwrap();
    (state, buf)
}

/// The members of the container at `index`, counted from the outermost, as the state has them.
fn kept(state: &[u8; STATE_SIZE], index: usize) -> u32 {
    let at = 8 + 13 * index + 9;
    u32::from_le_bytes(state[at..at + 4].try_into().unwrap())
}

fn alter(state: &mut [u8; STATE_SIZE], index: usize, members: u32) {
    let at = 8 + 13 * index + 9;
    state[at..at + 4].copy_from_slice(&members.to_le_bytes());
}

#[test]
fn three_scalars_are_three_members() {
    let mut buf = [0xEE; 64];
    let mut writer = Writer::new(&mut buf).unwrap();
    let mut list = writer.list_writer().unwrap();
    list.write_i64(0).unwrap();
    list.write_bool(true).unwrap();
    list.with_annotations(&[10]).write_null(IonType::Null).unwrap();
    assert_eq!(numbers(list.close()), (7, 3));
    let mut sexp = writer.sexp_writer().unwrap();
    sexp.write_symbol(4).unwrap();
    assert_eq!(numbers(sexp.close()), (3, 1));
    assert_eq!(numbers(writer.struct_writer().unwrap().close()), (1, 0));
}

#[test]
fn struct_counts_its_pairs() {
    let mut buf = [0xEE; 64];
    let mut writer = Writer::new(&mut buf).unwrap();
    let mut fields = writer.struct_writer().unwrap();
    fields.field_name(10).unwrap().write_bool(true).unwrap();
    fields.field_name(300).unwrap().write_bool(false).unwrap();
    // a name that stands twice is two pairs
    fields.field_name(10).unwrap().write_bool(true).unwrap();
    fields
        .field_name(11)
        .unwrap()
        .with_annotations(&[12])
        .write_bool(true)
        .unwrap();
    assert_eq!(numbers(fields.close()), (13, 4));
}

#[test]
fn annotated_container_counts_its_members_only() {
    let mut buf = [0xEE; 64];
    let mut writer = Writer::new(&mut buf).unwrap();
    let mut list = writer.with_annotations(&[10, 11, 12]).list_writer().unwrap();
    list.write_bool(true).unwrap();
    list.write_bool(true).unwrap();
    assert_eq!(numbers(list.close()), (8, 2));
    assert_eq!(numbers(writer.with_annotations(&[10]).sexp_writer().unwrap().close()), (4, 0));
}

#[test]
fn each_scalar_is_one_member() {
    type Write = fn(&mut [u8], &mut [u8]) -> Result<(), Refusal>;
    let scalars: [Write; 12] = [
        |s, b| sys::write_null(s, b, &[], 11),
        |s, b| sys::write_bool(s, b, &[], true),
        |s, b| sys::write_i64(s, b, &[], -5),
        |s, b| sys::write_int(s, b, &[], true, &[5]),
        |s, b| sys::write_f32(s, b, &[], 1),
        |s, b| sys::write_f64(s, b, &[], 1),
        |s, b| sys::write_decimal(s, b, &[], false, &[1], -2),
        |s, b| sys::write_timestamp(s, b, &[], Timestamp::year(2000)),
        |s, b| sys::write_symbol(s, b, &[], 4),
        |s, b| sys::write_string(s, b, &[], b"o"),
        |s, b| sys::write_clob(s, b, &[], b"o"),
        |s, b| sys::write_blob(s, b, &[], b"o"),
    ];
    let (mut state, mut buf) = started(128);
    sys::open_list(&mut state, &mut buf, &[]).unwrap();
    for (before, write) in scalars.into_iter().enumerate() {
        assert_eq!(kept(&state, 0), before as u32);
        write(&mut state, &mut buf).unwrap();
    }
    assert_eq!(kept(&state, 0), 12);
    assert_eq!(sys::close(&mut state, &mut buf).unwrap().members, 12);
}

#[test]
fn values_outside_count_nowhere() {
    let (mut state, mut buf) = started(64);
    sys::write_bool(&mut state, &mut buf, &[], true).unwrap();
    sys::version_marker(&mut state, &mut buf).unwrap();
    assert_eq!(state[8..], [0; STATE_SIZE - 8]);
    sys::open_list(&mut state, &mut buf, &[]).unwrap();
    assert_eq!(sys::close(&mut state, &mut buf).unwrap().members, 0);
    assert_eq!(kept(&state, 0), 0);
}

#[test]
fn closed_container_is_one_member_and_an_open_one_none() {
    let (mut state, mut buf) = started(64);
    sys::open_list(&mut state, &mut buf, &[]).unwrap();
    sys::write_bool(&mut state, &mut buf, &[], true).unwrap();
    sys::open_struct(&mut state, &mut buf, &[]).unwrap();
    assert_eq!((kept(&state, 0), kept(&state, 1)), (1, 0));
    sys::field_name(&mut state, &mut buf, 4).unwrap();
    sys::open_sexp(&mut state, &mut buf, &[]).unwrap();
    for _ in 0..3 {
        sys::write_bool(&mut state, &mut buf, &[], true).unwrap();
    }
    assert_eq!((kept(&state, 0), kept(&state, 1), kept(&state, 2)), (1, 0, 3));
    assert_eq!(numbers(sys::close(&mut state, &mut buf)), (4, 3));
    assert_eq!((kept(&state, 0), kept(&state, 1)), (1, 1));
    assert_eq!(numbers(sys::close(&mut state, &mut buf)), (6, 1));
    assert_eq!(kept(&state, 0), 2);
    // the place that the struct had is taken by another container, with no members yet
    sys::open_list(&mut state, &mut buf, &[]).unwrap();
    assert_eq!((kept(&state, 0), kept(&state, 1)), (2, 0));
    assert_eq!(numbers(sys::close(&mut state, &mut buf)), (1, 0));
    assert_eq!(numbers(sys::close(&mut state, &mut buf)), (9, 3));
    assert_eq!(
        sys::finished(&state, &buf)[4..],
        [0xB8, 0x11, 0xD5, 0x84, 0xC3, 0x11, 0x11, 0x11, 0xB0]
    );
}

#[test]
fn abandoned_container_takes_and_adds_nothing() {
    let mut buf = [0xEE; 64];
    let mut writer = Writer::new(&mut buf).unwrap();
    let mut outer = writer.list_writer().unwrap();
    outer.write_bool(true).unwrap();
    let mut inner = outer.list_writer().unwrap();
    inner.write_bool(true).unwrap();
    assert_eq!(numbers(inner.sexp_writer().unwrap().close()), (1, 0));
    drop(inner);
    // the same place again: what was counted in the abandoned one is gone
    let mut inner = outer.list_writer().unwrap();
    inner.write_bool(true).unwrap();
    assert_eq!(numbers(inner.close()), (2, 1));
    assert_eq!(numbers(outer.close()), (4, 2));
    let mut fields = writer.struct_writer().unwrap();
    drop(fields.field_name(4).unwrap().list_writer().unwrap());
    fields.write_bool(true).unwrap();
    assert_eq!(numbers(fields.close()), (3, 1));
}

#[test]
fn container_whose_close_is_refused_is_no_member() {
    let mut buf = [0xEE; 64];
    let mut writer = Writer::new(&mut buf).unwrap();
    let mut outer = writer.list_writer().unwrap();
    let mut inner = outer.struct_writer().unwrap();
    inner.field_name(4).unwrap();
    assert_eq!(inner.close(), Err(Refusal::Misplaced));
    assert_eq!(numbers(outer.close()), (1, 0));
}

#[test]
fn refused_call_counts_nothing() {
    let (mut state, mut buf) = started(16);
    sys::open_list(&mut state, &mut buf, &[]).unwrap();
    sys::write_bool(&mut state, &mut buf, &[], true).unwrap();
    sys::open_struct(&mut state, &mut buf, &[]).unwrap();
    let before = state;
    assert_eq!(sys::write_bool(&mut state, &mut buf, &[], true), Err(Refusal::Misplaced));
    sys::field_name(&mut state, &mut buf, 4).unwrap();
    assert_eq!(sys::field_name(&mut state, &mut buf, 4), Err(Refusal::Misplaced));
    let sids = sys::sid_bytes(&[10; 9]);
    for refused in [
        sys::write_int(&mut state, &mut buf, &[], true, &[]).unwrap_err(),
        sys::write_string(&mut state, &mut buf, &[], b"\xFF").unwrap_err(),
        sys::write_timestamp(&mut state, &mut buf, &[], Timestamp::year(0)).unwrap_err(),
        sys::write_decimal(&mut state, &mut buf, &[], false, &[1; 40], 0).unwrap_err(),
        sys::write_blob(&mut state, &mut buf, &[], &[1; 40]).unwrap_err(),
        sys::open_list(&mut state, &mut buf, sids).unwrap_err(),
        sys::close(&mut state, &mut buf).unwrap_err(),
        sys::empty(&mut state, &buf).unwrap_err(),
    ] {
        assert_eq!(state[8..], before[8..], "{refused:?}");
    }
    sys::write_bool(&mut state, &mut buf, &[], true).unwrap();
    assert_eq!(numbers(sys::close(&mut state, &mut buf)), (3, 1));
    assert_eq!(numbers(sys::close(&mut state, &mut buf)), (5, 2));
}

#[test]
fn waiting_name_does_not_count() {
    let (mut state, mut buf) = started(64);
    sys::open_struct(&mut state, &mut buf, &[]).unwrap();
    sys::field_name(&mut state, &mut buf, 4).unwrap();
    assert_eq!(kept(&state, 0), 0);
    assert_eq!(sys::close(&mut state, &mut buf), Err(Refusal::Misplaced));
    sys::write_bool(&mut state, &mut buf, &[], true).unwrap();
    assert_eq!(kept(&state, 0), 1);
    sys::field_name(&mut state, &mut buf, 5).unwrap();
    assert_eq!(kept(&state, 0), 1);
}

#[test]
fn close_without_room_answers_nothing_and_counts_nothing() {
    // a body of 128 bytes needs a header of three, one more than the reserve
    let (mut state, mut buf) = started(4 + 2 + 2 + 128);
    sys::open_list(&mut state, &mut buf, &[]).unwrap();
    sys::open_list(&mut state, &mut buf, &[]).unwrap();
    sys::write_blob(&mut state, &mut buf, &[], &[1; 126]).unwrap();
    assert_eq!(sys::close(&mut state, &mut buf), Err(Refusal::NoRoom));
    assert_eq!((kept(&state, 0), kept(&state, 1)), (0, 1));
    buf.extend([0xEE; 2]);
    assert_eq!(numbers(sys::close(&mut state, &mut buf)), (131, 1));
    assert_eq!(numbers(sys::close(&mut state, &mut buf)), (134, 1));
}

#[test]
fn emptying_between_containers() {
    let mut buf = [0xEE; 64];
    let mut writer = Writer::new(&mut buf).unwrap();
    for members in [3, 0, 2] {
        let mut samples = writer.list_writer().unwrap();
        for _ in 0..members {
            samples.write_decimal(Decimal::new(8125, -1)).unwrap();
        }
        assert_eq!(numbers(samples.close()), (1 + 4 * members, members));
        writer.empty().unwrap();
    }
}

#[test]
fn each_of_thirty_two_has_the_next_as_its_member() {
    let (mut state, mut buf) = started(128);
    for depth in 0..MOST_OPEN {
        if depth % 2 == 1 {
            sys::field_name(&mut state, &mut buf, 4).unwrap();
            sys::open_list(&mut state, &mut buf, &[]).unwrap();
        } else {
            sys::open_struct(&mut state, &mut buf, &[]).unwrap();
        }
    }
    assert_eq!(sys::open_list(&mut state, &mut buf, &[]), Err(Refusal::TooDeep));
    assert_eq!(sys::close(&mut state, &mut buf).unwrap().members, 0);
    for _ in 1..MOST_OPEN {
        assert_eq!(sys::close(&mut state, &mut buf).unwrap().members, 1);
    }
    assert_eq!(sys::close(&mut state, &mut buf), Err(Refusal::Misplaced));
}

#[test]
fn more_members_than_a_byte_or_two_hold() {
    let (mut state, mut buf) = started(80_000);
    sys::open_list(&mut state, &mut buf, &[]).unwrap();
    for members in 1..=70_000 {
        sys::write_bool(&mut state, &mut buf, &[], true).unwrap();
        assert_eq!(kept(&state, 0), members);
    }
    // 70,000 is 11170 in hex
    assert_eq!(state[8 + 9..8 + 13], [0x70, 0x11, 0x01, 0x00]);
    assert_eq!(numbers(sys::close(&mut state, &mut buf)), (70_004, 70_000));
}

#[test]
fn resumed_state_counts_on() {
    let mut buf = [0xEE; 64];
    let mut writer = Writer::new(&mut buf).unwrap();
    let mut list = writer.list_writer().unwrap();
    list.write_bool(true).unwrap();
    std::mem::forget(list);
    let bytes = *writer.state().as_bytes();
    let mut writer = Writer::resume(State::from_bytes(bytes), &mut buf);
    writer.write_bool(true).unwrap();
    let (mut state, buf) = writer.into_parts();
    assert_eq!(numbers(sys::close(state.as_mut_bytes(), buf)), (3, 2));
}

#[test]
fn number_in_a_state_that_fits_is_answered_as_it_stands() {
    let (mut state, mut buf) = started(64);
    sys::open_list(&mut state, &mut buf, &[]).unwrap();
    sys::write_string(&mut state, &mut buf, &[], b"load").unwrap();
    // one member of five bytes
    for members in [0, 1, 3, 5] {
        let mut altered = state;
        let mut buf = buf.clone();
        alter(&mut altered, 0, members);
        assert_eq!(numbers(sys::close(&mut altered, &mut buf)), (6, members));
    }
    for members in [6, 256 + 1, 1 << 24, u32::MAX] {
        let mut altered = state;
        let before = buf.clone();
        alter(&mut altered, 0, members);
        let kept = altered;
        assert_eq!(sys::close(&mut altered, &mut buf), Err(Refusal::StateUnfit));
        let mut writer = Writer::resume(State::from_bytes(altered), &mut buf);
        assert_eq!(writer.write_bool(true), Err(Refusal::StateUnfit));
        assert!(writer.finished().is_empty());
        assert_eq!(writer.state().as_bytes(), &kept);
        assert_eq!(buf, before);
    }
}

#[test]
fn number_of_an_outer_container_is_limited_by_the_next_start() {
    let (mut state, mut buf) = started(64);
    sys::open_list(&mut state, &mut buf, sys::sid_bytes(&[10])).unwrap();
    sys::write_string(&mut state, &mut buf, &[], b"load").unwrap();
    sys::open_list(&mut state, &mut buf, &[]).unwrap();
    sys::write_string(&mut state, &mut buf, &[], b"brake").unwrap();
    // five bytes before the inner list, whose two of reserve and six of string do not count for the outer one
    let mut altered = state;
    alter(&mut altered, 0, 6);
    assert_eq!(sys::close(&mut altered, &mut buf.clone()), Err(Refusal::StateUnfit));
    assert_eq!(sys::abandon(&mut altered, &mut buf.clone()), Err(Refusal::StateUnfit));
    alter(&mut altered, 0, 5);
    alter(&mut altered, 1, 6);
    let mut copy = buf.clone();
    assert_eq!(numbers(sys::close(&mut altered, &mut copy)), (7, 6));
    // a body of 12 behind its header, two bytes of annotations, and a header of two for these 15
    assert_eq!(numbers(sys::close(&mut altered, &mut copy)), (17, 6));
    alter(&mut state, 1, 7);
    assert_eq!(sys::close(&mut state, &mut buf), Err(Refusal::StateUnfit));
}

#[test]
fn number_of_a_container_that_is_not_open_means_nothing() {
    let (mut state, mut buf) = started(64);
    sys::open_list(&mut state, &mut buf, &[]).unwrap();
    alter(&mut state, 1, u32::MAX);
    sys::write_bool(&mut state, &mut buf, &[], true).unwrap();
    assert_eq!(kept(&state, 1), u32::MAX);
    sys::open_list(&mut state, &mut buf, &[]).unwrap();
    assert_eq!(numbers(sys::close(&mut state, &mut buf)), (1, 0));
    assert_eq!(numbers(sys::close(&mut state, &mut buf)), (3, 2));
}
