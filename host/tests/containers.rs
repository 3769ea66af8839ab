//! Openings, closings, abandonments, takings and emptyings, through the safe writer.
use goatminute::{sys, Refusal, State, WriteValues, Writer, MOST_OPEN, STATE_SIZE};

const MARKER: [u8; 4] = [0xE0, 0x01, 0x00, 0xEA];

#[test]
fn dropped_container_is_abandoned() {
    let mut buf = [0xEE; 64];
    let mut writer = Writer::new(&mut buf).unwrap();
    let mut list = writer.with_annotations(&[10, 11]).list_writer().unwrap();
    list.write_string("gone").unwrap();
    drop(list);
    assert_eq!(writer.finished(), MARKER);
    writer.write_bool(true).unwrap();
    assert_eq!(writer.finished(), [0xE0, 0x01, 0x00, 0xEA, 0x11]);
    // two reserves, the annotations and the string were freed; the bool took the first of these bytes
    assert_eq!(buf[5..16], [0; 11]);
    assert!(buf[16..].iter().all(|&byte| byte == 0xEE));
}

#[test]
fn name_waits_again_after_an_abandonment() {
    let mut buf = [0xEE; 64];
    let mut writer = Writer::new(&mut buf).unwrap();
    let mut fields = writer.struct_writer().unwrap();
    let mut list = fields.field_name(4).unwrap().list_writer().unwrap();
    list.write_bool(true).unwrap();
    drop(list);
    assert_eq!(fields.field_name(5).map(drop), Err(Refusal::Misplaced));
    fields.write_bool(false).unwrap();
    fields.close().unwrap();
    assert_eq!(writer.finished()[4..], [0xD2, 0x84, 0x10]);
}

#[test]
fn abandonment_drops_a_name_inside() {
    let mut buf = [0xEE; 64];
    let mut writer = Writer::new(&mut buf).unwrap();
    let mut outer = writer.struct_writer().unwrap();
    let mut inner = outer.field_name(4).unwrap().struct_writer().unwrap();
    inner.field_name(5).unwrap();
    drop(inner);
    // the name 4 waits, not the name 5
    outer.write_i64(0).unwrap();
    outer.close().unwrap();
    assert_eq!(writer.finished()[4..], [0xD2, 0x84, 0x20]);
}

#[test]
fn outer_container_dropped_with_its_inner_ones() {
    let mut buf = [0xEE; 64];
    let mut writer = Writer::new(&mut buf).unwrap();
    let fill = |writer: &mut Writer| -> Result<(), Refusal> {
        let mut outer = writer.list_writer()?;
        let mut inner = outer.sexp_writer()?;
        inner.write_bool(true)?;
        // refused: the early return drops both writers, the inner one first
        inner.write_string_bytes(b"\xFF")?;
        inner.close()?;
        outer.close()?;
        Ok(())
    };
    assert_eq!(fill(&mut writer), Err(Refusal::NotUtf8));
    assert_eq!(writer.finished(), MARKER);
    assert_eq!(writer.state().as_bytes()[..8], [4, 0, 0, 0, 0, 0, 0, 0]);
}

#[test]
fn refused_close_abandons() {
    let mut buf = [0xEE; 64];
    let mut writer = Writer::new(&mut buf).unwrap();
    let mut fields = writer.struct_writer().unwrap();
    fields.field_name(4).unwrap();
    assert_eq!(fields.close(), Err(Refusal::Misplaced));
    assert_eq!(writer.finished(), MARKER);
}

#[test]
fn leaked_container_stays_open() {
    let mut buf = [0xEE; 64];
    let mut writer = Writer::new(&mut buf).unwrap();
    std::mem::forget(writer.list_writer().unwrap());
    assert!(writer.finished().is_empty());
    writer.write_bool(true).unwrap();
    let (mut state, buf) = writer.into_parts();
    assert_eq!(sys::close(state.as_mut_bytes(), buf).unwrap().size, 2);
    assert_eq!(sys::finished(state.as_bytes(), buf)[4..], [0xB1, 0x11]);
}

#[test]
fn annotations_need_not_outlive_the_opening() {
    let mut buf = [0xEE; 64];
    let mut writer = Writer::new(&mut buf).unwrap();
    for sid in 10..12 {
        let mut list = writer.with_annotations(&[sid, sid + 2]).list_writer().unwrap();
        list.write_symbol(sid).unwrap();
        assert_eq!(list.close().unwrap().size, 7);
    }
    let expected = [0xE6, 0x82, 0x8A, 0x8C, 0xB2, 0x71, 10, 0xE6, 0x82, 0x8B, 0x8D, 0xB2, 0x71, 11];
    assert_eq!(writer.finished()[4..], expected);
}

#[test]
fn thirty_two_deep() {
    fn open(outer: &mut impl WriteValues, left: usize) -> Result<(), Refusal> {
        if left == 0 {
            assert_eq!(outer.list_writer().err(), Some(Refusal::TooDeep));
            return outer.write_bool(true);
        }
        let mut list = outer.list_writer()?;
        open(&mut list, left - 1)?;
        list.close()?;
        Ok(())
    }
    let mut buf = [0xEE; 128];
    let mut writer = Writer::new(&mut buf).unwrap();
    open(&mut writer, MOST_OPEN).unwrap();
    assert_eq!(writer.finished().len(), 4 + 1 + 13 + 2 * 19);
    assert_eq!(writer.finished()[4..8], [0xBE, 0xB2, 0xBE, 0xB0]);
}

#[test]
fn nothing_is_finished_while_a_container_is_open_or_a_name_waits() {
    let mut state = [0; STATE_SIZE];
    let mut buf = [0xEE; 64];
    sys::start(&mut state, &mut buf).unwrap();
    assert_eq!(sys::finished(&state, &buf), MARKER);
    sys::open_struct(&mut state, &mut buf, &[]).unwrap();
    assert!(sys::finished(&state, &buf).is_empty());
    sys::field_name(&mut state, &mut buf, 4).unwrap();
    assert!(sys::finished(&state, &buf).is_empty());
    sys::write_bool(&mut state, &mut buf, &[], true).unwrap();
    assert!(sys::finished(&state, &buf).is_empty());
    sys::close(&mut state, &mut buf).unwrap();
    assert_eq!(sys::finished(&state, &buf)[4..], [0xD2, 0x84, 0x11]);
}

#[test]
fn emptying_alters_no_byte_and_writes_no_marker() {
    let mut buf = [0xEE; 32];
    let mut writer = Writer::new(&mut buf).unwrap();
    writer.write_i64(-5).unwrap();
    let before = writer.finished().to_vec();
    writer.empty().unwrap();
    assert!(writer.finished().is_empty());
    writer.write_bool(true).unwrap();
    assert_eq!(writer.finished(), [0x11]);
    assert_eq!(buf[1..before.len()], before[1..]);
    assert!(buf[before.len()..].iter().all(|&byte| byte == 0xEE));
}

#[test]
fn state_can_be_kept_and_resumed() {
    let mut buf = [0xEE; 32];
    let mut writer = Writer::new(&mut buf).unwrap();
    writer.write_bool(true).unwrap();
    let kept: [u8; STATE_SIZE] = *writer.state().as_bytes();
    let mut writer = Writer::resume(State::from_bytes(kept), &mut buf);
    writer.write_bool(false).unwrap();
    assert_eq!(writer.finished(), [0xE0, 0x01, 0x00, 0xEA, 0x11, 0x10]);
}

#[test]
fn last_group_of_sid_bytes_is_filled_up() {
    let mut state = [0; STATE_SIZE];
    let mut buf = [0xEE; 32];
    sys::start(&mut state, &mut buf).unwrap();
    sys::write_bool(&mut state, &mut buf, &[10, 0, 0, 0, 0, 0, 0, 0, 11], true).unwrap();
    assert_eq!(sys::finished(&state, &buf)[4..], [0xE4, 0x82, 0x8A, 0x8B, 0x11]);
    assert_eq!(sys::sid_bytes(&[1, 0x0102]), [1, 0, 0, 0, 0, 0, 0, 0, 2, 1, 0, 0, 0, 0, 0, 0]);
}
