//! What the safe writers add to the entry points: an end of containers whose writer is gone, what each can be asked, closes that are
//! refused, and buffers that it owns.
use goatminute::{Coefficient, Decimal, ListWriter, Refusal, State, StreamWriter, WriteValues, Writer, STATE_SIZE};
use std::mem;

const MARKER: [u8; 4] = [0xE0, 0x01, 0x00, 0xEA];

// ---- containers that no writer of their own can end

#[test]
fn leaked_containers_can_be_closed() {
    let mut buf = [0xEE; 64];
    let mut writer = Writer::new(&mut buf).unwrap();
    let mut fields = writer.struct_writer().unwrap();
    let mut list = fields.field_name(4).unwrap().list_writer().unwrap();
    list.write_bool(true).unwrap();
    mem::forget(list);
    mem::forget(fields);
    assert_eq!(writer.depth(), 2);
    assert!(writer.finished().is_empty());
    let closed = writer.close_innermost().unwrap();
    assert_eq!((closed.size, closed.members), (2, 1));
    let closed = writer.close_innermost().unwrap();
    assert_eq!((closed.size, closed.members), (4, 1));
    assert_eq!(writer.close_innermost(), Err(Refusal::Misplaced));
    writer.write_bool(false).unwrap();
    assert_eq!(writer.finished()[4..], [0xD3, 0x84, 0xB1, 0x11, 0x10]);
}

#[test]
fn leaked_containers_can_be_abandoned() {
    let mut buf = [0xEE; 64];
    let mut writer = Writer::new(&mut buf).unwrap();
    let mut outer = writer.list_writer().unwrap();
    outer.write_bool(true).unwrap();
    mem::forget(outer.list_writer().unwrap());
    mem::forget(outer);
    writer.abandon_innermost().unwrap();
    assert_eq!(writer.depth(), 1);
    writer.abandon_innermost().unwrap();
    assert_eq!(writer.abandon_innermost(), Err(Refusal::Misplaced));
    assert_eq!(writer.finished(), MARKER);
    let mut list = writer.list_writer().unwrap();
    list.write_bool(true).unwrap();
    list.close().unwrap();
    assert_eq!(writer.finished()[4..], [0xB1, 0x11]);
}

#[test]
fn resumed_writer_stands_in_the_innermost_container() {
    let mut buf = [0xEE; 64];
    let mut writer = Writer::new(&mut buf).unwrap();
    let mut outer = writer.list_writer().unwrap();
    mem::forget(outer.sexp_writer().unwrap());
    mem::forget(outer);
    let (state, buf) = writer.into_parts();
    let mut writer = Writer::resume(state, buf);
    writer.write_bool(true).unwrap();
    mem::forget(writer.list_writer().unwrap());
    // the leaked list is ended: the writer stands in the s-expression again, then in the list around it, then in none
    writer.abandon_innermost().unwrap();
    writer.write_bool(false).unwrap();
    writer.close_innermost().unwrap();
    writer.write_i64(0).unwrap();
    writer.close_innermost().unwrap();
    writer.write_i64(1).unwrap();
    assert_eq!(writer.finished()[4..], [0xB4, 0xC2, 0x11, 0x10, 0x20, 0x21, 0x01]);
}

// ---- queries

/// Capacity, used length, what remains, and depth.
macro_rules! asked {
    ($writer:expr) => {{
        let writer = &$writer;
        (writer.capacity(), writer.used(), writer.remaining(), writer.depth())
    }};
}

#[test]
fn every_writer_can_be_asked() {
    let mut buf = [0xEE; 300];
    let mut writer = Writer::new(&mut buf).unwrap();
    assert_eq!(asked!(writer), (300, 4, 296, 0));
    assert_eq!(asked!(writer.value_writer()), (300, 4, 296, 0));
    // a reserve of two bytes; two around an annotation of two
    let mut list = writer.list_writer().unwrap();
    assert_eq!(asked!(list), (300, 6, 294, 1));
    let mut sexp = list.with_annotations(&[10]).sexp_writer().unwrap();
    assert_eq!(asked!(sexp), (300, 12, 288, 2));
    let mut fields = sexp.struct_writer().unwrap();
    fields.field_name(4).unwrap();
    assert_eq!(asked!(fields), (300, 15, 285, 3));
    assert_eq!(asked!(fields.value_writer()), (300, 15, 285, 3));
    assert_eq!(format!("{fields:?}"), "StructWriter { used: 15, capacity: 300, depth: 3 }");
    assert_eq!(
        format!("{:?}", fields.value_writer()),
        "ValueWriter { used: 15, capacity: 300, depth: 3 }"
    );
    // a used length of more than a byte
    fields.write_blob(&[1; 250]).unwrap();
    assert_eq!(asked!(fields), (300, 268, 32, 3));
    drop(fields);
    assert_eq!(format!("{sexp:?}"), "SexpWriter { used: 12, capacity: 300, depth: 2 }");
    drop(sexp);
    assert_eq!(format!("{list:?}"), "ListWriter { used: 6, capacity: 300, depth: 1 }");
    drop(list);
    assert_eq!(format!("{writer:?}"), "StreamWriter { used: 4, capacity: 300, depth: 0 }");
    writer.empty().unwrap();
    assert_eq!(asked!(writer), (300, 0, 300, 0));
}

#[test]
fn what_remains_can_be_filled() {
    let mut buf = [0xEE; 20];
    let mut writer = Writer::new(&mut buf).unwrap();
    let blob = [1; 20];
    let room = writer.remaining();
    assert_eq!(writer.write_blob(&blob[..room - 1]), Err(Refusal::NoRoom));
    // its header takes two bytes
    writer.write_blob(&blob[..room - 2]).unwrap();
    assert_eq!(writer.remaining(), 0);
    // states that do not fit
    let (state, buf) = writer.into_parts();
    assert_eq!(asked!(Writer::resume(state, &mut buf[..19])), (19, 20, 0, 0));
    let unfit = State::from_bytes([0xFF; STATE_SIZE]);
    assert_eq!(asked!(Writer::resume(unfit, buf)), (20, u32::MAX as usize, 0, 255));
}

// ---- refused closes

#[test]
fn refused_close_lets_the_caller_go_on_inside() {
    let mut buf = [0xEE; 64];
    let mut writer = Writer::new(&mut buf).unwrap();
    let mut fields = writer.struct_writer().unwrap();
    fields.field_name(4).unwrap();
    let refused = fields.try_close().unwrap_err();
    assert_eq!(refused.to_string(), Refusal::Misplaced.to_string());
    let mut fields = refused.into_writer();
    fields.write_bool(true).unwrap();
    let closed = fields.try_close().unwrap();
    assert_eq!((closed.size, closed.members, closed.moved), (3, 1, 2));
    assert_eq!(writer.finished()[4..], [0xD2, 0x84, 0x11]);
}

/// A list whose body of 128 bytes needs a header of three, where two are left.
fn without_room<'w>(writer: &'w mut Writer) -> ListWriter<'w> {
    let mut list = writer.list_writer().unwrap();
    list.write_blob(&[1; 126]).unwrap();
    list
}

#[test]
fn refused_close_that_is_given_up_abandons() {
    let mut buf = [0xEE; 4 + 2 + 128];
    let mut writer = Writer::new(&mut buf).unwrap();
    let refused = without_room(&mut writer).try_close().unwrap_err();
    assert_eq!(refused.refusal, Refusal::NoRoom);
    drop(refused);
    assert_eq!(writer.finished(), MARKER);
    let closed = |writer: &mut Writer| -> Result<u32, Refusal> { Ok(without_room(writer).try_close()?.size) };
    assert_eq!(closed(&mut writer), Err(Refusal::NoRoom));
    assert_eq!(without_room(&mut writer).close(), Err(Refusal::NoRoom));
    assert_eq!(writer.finished(), MARKER);
}

// ---- buffers and states

/// Writes a value in each of two containers, keeping the writer between them.
#[track_caller]
fn keeps_writing<B: AsRef<[u8]> + AsMut<[u8]>>(buf: B) -> B {
    struct Logger<B>(StreamWriter<B>);
    let mut logger = Logger(StreamWriter::new(buf).unwrap());
    for value in [true, false] {
        let mut list = logger.0.list_writer().unwrap();
        list.write_bool(value).unwrap();
        list.close().unwrap();
    }
    assert_eq!(logger.0.finished(), [0xE0, 0x01, 0x00, 0xEA, 0xB1, 0x11, 0xB1, 0x10]);
    let (state, buf) = logger.0.into_parts();
    assert_eq!(state.as_bytes()[..8], [8, 0, 0, 0, 0, 0, 0, 0]);
    buf
}

#[test]
fn writer_owns_whatever_lends_bytes() {
    assert_eq!(keeps_writing([0; 16])[..4], MARKER);
    assert_eq!(keeps_writing(vec![0; 16])[..4], MARKER);
    assert_eq!(keeps_writing(vec![0; 16].into_boxed_slice())[..4], MARKER);
    assert_eq!(keeps_writing(&mut [0; 16])[..4], MARKER);
    assert_eq!(StreamWriter::new([0; 3]).unwrap_err(), Refusal::NoRoom);
}

#[test]
fn default_state_is_empty() {
    let mut writer = StreamWriter::resume(State::default(), [0xEE; 2]);
    assert_eq!(asked!(writer), (2, 0, 2, 0));
    writer.write_bool(true).unwrap();
    assert_eq!(writer.finished(), [0x11]);
}

#[test]
fn decimals_are_equal_by_sign_coefficient_and_exponent() {
    let wide = Decimal {
        negative: false,
        coefficient: Coefficient::Number(1 << 64),
        exponent: 0,
    };
    assert_eq!(Decimal::new(150, -2), Decimal::from_bytes(false, &[0, 0x96], -2));
    assert_eq!(Decimal::from_bytes(true, &[], 0), Decimal::negative_zero(0));
    assert_eq!(wide, Decimal::from_bytes(false, &[1, 0, 0, 0, 0, 0, 0, 0, 0], 0));
    for (one, other) in [
        (Decimal::new(0, 0), Decimal::negative_zero(0)),
        (Decimal::new(150, -2), Decimal::new(15, -1)),
        (Decimal::new(150, -2), Decimal::new(-150, -2)),
        (Decimal::new(150, -2), Decimal::from_bytes(false, &[0x96, 0], -2)),
        (Decimal::new(150, -2), Decimal::new(256 + 150, -2)),
        (wide, Decimal::new(0, 0)),
    ] {
        assert_ne!(one, other);
    }
}
