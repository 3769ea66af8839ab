//! The bytes of each call, at the edges that document 01 names and beside them.
use goatminute::{
    sys, Closed, Coefficient, Decimal, IonType, Refusal, StreamWriter, Timestamp, ValueWriter, WriteValues, Writer, STATE_SIZE,
};

const MARKER: [u8; 4] = [0xE0, 0x01, 0x00, 0xEA];

fn hex(bytes: &[u8]) -> String {
    bytes.iter().map(|byte| format!("{byte:02X}")).collect::<Vec<_>>().join(" ")
}

/// What `write` puts behind the marker, in hex. The bytes past it must stay as they were.
fn bytes(write: impl FnOnce(&mut Writer) -> Result<(), Refusal>) -> String {
    let mut buf = [0xEE; 512];
    let mut writer = Writer::new(&mut buf).unwrap();
    write(&mut writer).unwrap();
    let length = writer.finished().len();
    assert_eq!(writer.finished()[..4], MARKER);
    assert!(buf[length..].iter().all(|&byte| byte == 0xEE));
    hex(&buf[4..length])
}

/// The same of calls that write and close one container: its size is that of the bytes, and what a close frees is zero.
fn closed(write: impl FnOnce(&mut Writer) -> Result<Closed, Refusal>) -> String {
    let mut buf = [0xEE; 512];
    let mut writer = Writer::new(&mut buf).unwrap();
    let size = write(&mut writer).unwrap().size as usize;
    let length = writer.finished().len();
    assert_eq!(size, length - 4);
    let mut past = buf[length..].iter().skip_while(|&&byte| byte == 0);
    assert!(past.all(|&byte| byte == 0xEE));
    hex(&buf[4..length])
}

fn i64_of(value: i64) -> String {
    bytes(|w| w.write_i64(value))
}

fn int(negative: bool, magnitude: &[u8]) -> String {
    bytes(|w| w.write_int(negative, magnitude))
}

fn f64_of(value: f64) -> String {
    bytes(|w| w.write_f64(value))
}

fn f32_of(value: f32) -> String {
    bytes(|w| w.write_f32(value))
}

fn decimal(value: Decimal) -> String {
    bytes(|w| w.write_decimal(value))
}

fn timestamp(value: Timestamp) -> String {
    bytes(|w| w.write_timestamp(value))
}

#[test]
fn start_writes_the_marker() {
    assert_eq!(bytes(|_| Ok(())), "");
    let mut exact = [0; 4];
    assert_eq!(Writer::new(&mut exact).unwrap().finished(), MARKER);
}

#[test]
fn nulls() {
    let all = [
        (IonType::Null, "0F"),
        (IonType::Bool, "1F"),
        (IonType::Int, "2F"),
        (IonType::Float, "4F"),
        (IonType::Decimal, "5F"),
        (IonType::Timestamp, "6F"),
        (IonType::Symbol, "7F"),
        (IonType::String, "8F"),
        (IonType::Clob, "9F"),
        (IonType::Blob, "AF"),
        (IonType::List, "BF"),
        (IonType::SExp, "CF"),
        (IonType::Struct, "DF"),
    ];
    for (ion_type, expected) in all {
        assert_eq!(bytes(|w| w.write_null(ion_type)), expected);
    }
}

/// A host that calls the entry points with numbers: 3, the code of negative ints, is int, and codes past 13 are null.
#[test]
fn null_by_every_code() {
    for code in 0..=255 {
        let mut state = [0; STATE_SIZE];
        let mut buf = [0xEE; 2];
        sys::write_null(&mut state, &mut buf, &[], code).unwrap();
        let expected = match code {
            3 => 0x2F,
            0..=13 => 16 * code + 15,
            _ => 0x0F,
        };
        assert_eq!(buf, [expected, 0xEE]);
    }
}

#[test]
fn bools() {
    assert_eq!(bytes(|w| w.write_bool(true)), "11");
    assert_eq!(bytes(|w| w.write_bool(false)), "10");
}

#[test]
fn ints_of_64_bits() {
    assert_eq!(i64_of(0), "20");
    assert_eq!(i64_of(-1), "31 01");
    assert_eq!(i64_of(255), "21 FF");
    assert_eq!(i64_of(256), "22 01 00");
    assert_eq!(i64_of(-256), "32 01 00");
    assert_eq!(i64_of(i64::MAX), "28 7F FF FF FF FF FF FF FF");
    assert_eq!(i64_of(i64::MIN), "38 80 00 00 00 00 00 00 00");
}

/// As `write_i64` where an i64 holds it, and as `write_int` beyond.
#[test]
fn ints_of_64_bits_without_sign() {
    for (value, expected) in [
        (0, "20"),
        (1, "21 01"),
        (i64::MAX as u64, "28 7F FF FF FF FF FF FF FF"),
        (i64::MAX as u64 + 1, "28 80 00 00 00 00 00 00 00"),
        (u64::MAX, "28 FF FF FF FF FF FF FF FF"),
    ] {
        assert_eq!(bytes(|w| w.write_u64(value)), expected);
    }
}

#[test]
fn ints_of_any_size() {
    assert_eq!(int(false, &[]), "21 00");
    assert_eq!(int(false, &[0]), "21 00");
    assert_eq!(int(false, &[0, 0, 0]), "21 00");
    assert_eq!(int(true, &[0, 0xFF]), "31 FF");
    assert_eq!(int(false, &[1; 13]), format!("2D{}", " 01".repeat(13)));
    assert_eq!(int(false, &[1; 14]), format!("2E 8E{}", " 01".repeat(14)));
    assert_eq!(int(true, &[0xAB; 128]), format!("3E 01 80{}", " AB".repeat(128)));
}

#[test]
fn floats() {
    assert_eq!(f64_of(0.0), "40");
    assert_eq!(f64_of(-0.0), "44 80 00 00 00");
    assert_eq!(f64_of(1.5), "44 3F C0 00 00");
    assert_eq!(f64_of(0.1), "48 3F B9 99 99 99 99 99 9A");
    assert_eq!(f64_of(2f64.powi(-149)), "44 00 00 00 01");
    assert_eq!(f64_of(2f64.powi(-150)), "48 36 90 00 00 00 00 00 00");
    assert_eq!(f64_of(f64::INFINITY), "44 7F 80 00 00");
    assert_eq!(f64_of(f64::NEG_INFINITY), "44 FF 80 00 00");
    assert_eq!(f64_of(f32::MAX as f64), "44 7F 7F FF FF");
    assert_eq!(f64_of(2f64.powi(128)), "48 47 F0 00 00 00 00 00 00");
    assert_eq!(f64_of(f64::from_bits(1)), "48 00 00 00 00 00 00 00 01");
    assert_eq!(f64_of(f64::from_bits(0x7FF8000000000000)), "48 7F F8 00 00 00 00 00 00");
    assert_eq!(f64_of(f64::from_bits(0x7FF0000000000001)), "48 7F F0 00 00 00 00 00 01");
    assert_eq!(f64_of(f64::from_bits(0xFFF8000020000000)), "48 FF F8 00 00 20 00 00 00");
    assert_eq!(f32_of(0.0), "40");
    assert_eq!(f32_of(-0.0), "44 80 00 00 00");
    assert_eq!(f32_of(1.5), "44 3F C0 00 00");
    assert_eq!(f32_of(f32::from_bits(0x7F800001)), "44 7F 80 00 01");
    assert_eq!(f32_of(f32::from_bits(0xFFC00000)), "44 FF C0 00 00");
}

#[test]
fn decimals() {
    assert_eq!(decimal(Decimal::new(0, 0)), "50");
    assert_eq!(decimal(Decimal::negative_zero(0)), "52 80 80");
    assert_eq!(decimal(Decimal::new(150, -2)), "53 C2 00 96");
    assert_eq!(decimal(Decimal::new(-128, 0)), "53 80 80 80");
    assert_eq!(decimal(Decimal::new(127, 0)), "52 80 7F");
    assert_eq!(decimal(Decimal::new(-127, 0)), "52 80 FF");
    assert_eq!(decimal(Decimal::new(0, 5)), "51 85");
    assert_eq!(decimal(Decimal::negative_zero(5)), "52 85 80");
    assert_eq!(decimal(Decimal::new(1, 63)), "52 BF 01");
    assert_eq!(decimal(Decimal::new(1, 64)), "53 00 C0 01");
    assert_eq!(decimal(Decimal::new(1, -64)), "53 40 C0 01");
    assert_eq!(decimal(Decimal::new(1, i64::MIN)), "5B 41 00 00 00 00 00 00 00 00 80 01");
    assert_eq!(decimal(Decimal::new(i64::MIN, 0)), "5A 80 80 80 00 00 00 00 00 00 00");
    assert_eq!(decimal(Decimal::from_bytes(false, &[0, 0, 0x96], -2)), "53 C2 00 96");
    assert_eq!(decimal(Decimal::from_bytes(false, &[], 0)), "50");
    assert_eq!(decimal(Decimal::from_bytes(true, &[], 0)), "52 80 80");
    // a body of 32 bytes, the longest
    assert_eq!(
        decimal(Decimal::from_bytes(false, &[0x7F; 31], 0)),
        format!("5E A0 80{}", " 7F".repeat(31))
    );
}

#[test]
fn coefficients_past_64_bits() {
    for (negative, number, exponent, expected) in [
        (false, 1 << 64, 0, format!("5A 80 01{}", " 00".repeat(8))),
        (true, 1 << 120, -1, format!("5E 91 C1 81{}", " 00".repeat(15))),
        // the sign takes a byte of its own
        (true, u128::MAX, 0, format!("5E 92 80 80{}", " FF".repeat(16))),
    ] {
        let coefficient = Coefficient::Number(number);
        let number = Decimal {
            negative,
            coefficient,
            exponent,
        };
        assert_eq!(decimal(number), expected);
    }
}

#[test]
fn timestamps() {
    assert_eq!(timestamp(Timestamp::year(2000)), "63 C0 0F D0");
    assert_eq!(timestamp(Timestamp::month(2000, 2)), "64 C0 0F D0 82");
    assert_eq!(timestamp(Timestamp::day(2000, 2, 29)), "65 C0 0F D0 82 9D");
    assert_eq!(
        timestamp(Timestamp::minute(2000, 1, 1, 0, 30).with_offset(60)),
        "67 BC 0F CF 8C 9F 97 9E"
    );
    assert_eq!(timestamp(Timestamp::minute(2000, 1, 1, 0, 0)), "67 C0 0F D0 81 81 80 80");
    assert_eq!(
        timestamp(Timestamp::minute(2000, 1, 1, 0, 0).with_offset(0)),
        "67 80 0F D0 81 81 80 80"
    );
    assert_eq!(
        timestamp(Timestamp::second(2000, 1, 1, 0, 0, 0)),
        "68 C0 0F D0 81 81 80 80 80"
    );
    assert_eq!(
        timestamp(Timestamp::second(2000, 1, 1, 0, 0, 0).with_fraction(18, 0)),
        "69 C0 0F D0 81 81 80 80 80 D2"
    );
    assert_eq!(
        timestamp(Timestamp::second(2000, 1, 1, 0, 0, 0).with_fraction(1, 1)),
        "6A C0 0F D0 81 81 80 80 80 C1 01"
    );
    assert_eq!(
        timestamp(Timestamp::second(2000, 1, 1, 0, 0, 0).with_fraction(3, 128)),
        "6B C0 0F D0 81 81 80 80 80 C3 00 80"
    );
    // the first UTC minute that is written, and the last
    assert_eq!(
        timestamp(Timestamp::minute(1, 1, 1, 1, 0).with_offset(60)),
        "66 BC 81 81 81 80 80"
    );
    assert_eq!(
        timestamp(Timestamp::minute(9999, 12, 31, 22, 59).with_offset(-60)),
        "67 FC 4E 8F 8C 9F 97 BB"
    );
    // the longest body
    assert_eq!(
        timestamp(
            Timestamp::second(9999, 12, 31, 23, 59, 59)
                .with_fraction(18, 999_999_999_999_999_999)
                .with_offset(1439)
        ),
        "6E 92 0B 9F 4E 8F 8C 9F 80 80 BB D2 0D E0 B6 B3 A7 63 FF FF"
    );
}

#[test]
fn symbols() {
    assert_eq!(bytes(|w| w.write_symbol(0)), "70");
    assert_eq!(bytes(|w| w.write_symbol(255)), "71 FF");
    assert_eq!(bytes(|w| w.write_symbol(256)), "72 01 00");
    assert_eq!(bytes(|w| w.write_symbol(u64::MAX)), format!("78{}", " FF".repeat(8)));
}

#[test]
fn strings_clobs_and_blobs() {
    assert_eq!(bytes(|w| w.write_string("")), "80");
    assert_eq!(bytes(|w| w.write_string("o")), "81 6F");
    assert_eq!(bytes(|w| w.write_string("é€😀")), "89 C3 A9 E2 82 AC F0 9F 98 80");
    assert_eq!(bytes(|w| w.write_string_bytes(b"o")), "81 6F");
    assert_eq!(bytes(|w| w.write_clob(&[])), "90");
    assert_eq!(bytes(|w| w.write_clob(&[0xFF])), "91 FF");
    assert_eq!(bytes(|w| w.write_blob(&[0x00, 0xFF])), "A2 00 FF");
    for (length, header) in [(13, "8D"), (14, "8E 8E"), (127, "8E FF"), (128, "8E 01 80")] {
        let text = "a".repeat(length);
        assert_eq!(bytes(|w| w.write_string(&text)), format!("{header}{}", " 61".repeat(length)));
    }
}

#[test]
fn lengths_of_four_var_uint_sizes() {
    for (length, header) in [
        (16_383, &[0xAE, 0x7F, 0xFF][..]),
        (16_384, &[0xAE, 0x01, 0x00, 0x80]),
        (2_097_151, &[0xAE, 0x7F, 0x7F, 0xFF]),
        (2_097_152, &[0xAE, 0x01, 0x00, 0x00, 0x80]),
    ] {
        let mut buf = vec![0xEE; length + 16];
        let blob = vec![0x5A; length];
        let mut writer = Writer::new(&mut buf).unwrap();
        writer.write_blob(&blob).unwrap();
        assert_eq!(writer.finished().len(), 4 + header.len() + length);
        assert_eq!(&buf[4..4 + header.len()], header);
        assert_eq!(&buf[4 + header.len()..4 + header.len() + length], blob);
        assert!(buf[4 + header.len() + length..].iter().all(|&byte| byte == 0xEE));
    }
}

#[test]
fn used_counts_headers_of_every_size() {
    for (length, header) in [(16_383, 3), (16_384, 4), (2_097_151, 4), (2_097_152, 5)] {
        let mut writer = StreamWriter::new(vec![0xEE; length + 16]).unwrap();
        writer.write_blob(&vec![0x5A; length]).unwrap();
        assert_eq!(writer.used(), 4 + header + length);
    }
}

#[test]
fn annotated_scalars() {
    assert_eq!(bytes(|w| w.with_annotations(&[10]).write_bool(true)), "E3 81 8A 11");
    assert_eq!(bytes(|w| w.with_annotations(&[]).write_bool(true)), "11");
    assert_eq!(bytes(|w| w.with_annotations(&[10, 12]).write_i64(-5)), "E5 82 8A 8C 31 05");
    assert_eq!(bytes(|w| w.with_annotations(&[0]).write_i64(0)), "E3 81 80 20");
    assert_eq!(
        bytes(|w| w.with_annotations(&[127, 128]).write_symbol(0)),
        "E5 83 FF 01 80 70"
    );
    assert_eq!(
        bytes(|w| w.with_annotations(&[u64::MAX]).write_null(IonType::Null)),
        "EC 8A 01 7F 7F 7F 7F 7F 7F 7F 7F FF 0F"
    );
    // a later list replaces an earlier one, as in the Rust
    assert_eq!(
        bytes(|w| w.with_annotations(&[10]).with_annotations(&[11]).write_bool(true)),
        "E3 81 8B 11"
    );
    // contents of 13 and 14 bytes; a wrapper of 128
    assert_eq!(
        bytes(|w| w.with_annotations(&[10]).write_blob(&[1; 10])),
        format!("ED 81 8A AA{}", " 01".repeat(10))
    );
    assert_eq!(
        bytes(|w| w.with_annotations(&[10]).write_blob(&[1; 11])),
        format!("EE 8E 81 8A AB{}", " 01".repeat(11))
    );
    assert_eq!(
        bytes(|w| w.with_annotations(&[10]).write_blob(&[1; 124])),
        format!("EE 01 80 81 8A AE FC{}", " 01".repeat(124))
    );
    // many sids: their length takes two bytes
    let sids = [1; 128];
    assert_eq!(
        bytes(|w| w.with_annotations(&sids).write_bool(false)),
        format!("EE 01 83 01 80{} 10", " 81".repeat(128))
    );
}

/// Each call of a value writer, and the bytes of its value.
type Call = fn(ValueWriter) -> Result<(), Refusal>;

const CALLS: [(Call, &str); 19] = [
    (|v| v.write_null(IonType::List), "BF"),
    (|v| v.write_bool(true), "11"),
    (|v| v.write_i64(-5), "31 05"),
    (|v| v.write_u64(5), "21 05"),
    (|v| v.write_u64(u64::MAX), "28 FF FF FF FF FF FF FF FF"),
    (|v| v.write_int(true, &[5]), "31 05"),
    (|v| v.write_f32(1.5), "44 3F C0 00 00"),
    (|v| v.write_f64(0.1), "48 3F B9 99 99 99 99 99 9A"),
    (|v| v.write_decimal(Decimal::new(150, -2)), "53 C2 00 96"),
    (|v| v.write_decimal(Decimal::from_bytes(false, &[0x96], -2)), "53 C2 00 96"),
    (|v| v.write_timestamp(Timestamp::year(2000)), "63 C0 0F D0"),
    (|v| v.write_symbol(4), "71 04"),
    (|v| v.write_string("o"), "81 6F"),
    (|v| v.write_string_bytes(b"o"), "81 6F"),
    (|v| v.write_clob(b"o"), "91 6F"),
    (|v| v.write_blob(b"o"), "A1 6F"),
    (|v| v.list_writer()?.close().map(drop), "B0"),
    (|v| v.sexp_writer()?.close().map(drop), "C0"),
    (|v| v.struct_writer()?.close().map(drop), "D0"),
];

/// A list, so that the zeros that a close leaves behind it do not count.
fn in_a_list(write: impl FnOnce(ValueWriter) -> Result<(), Refusal>) -> String {
    closed(|w| {
        let mut list = w.list_writer()?;
        write(list.value_writer())?;
        list.close()
    })
}

#[test]
fn annotations_stand_before_the_value_of_each_call() {
    for (call, value) in CALLS {
        let length = value.split(' ').count();
        assert_eq!(in_a_list(call), format!("B{length:X} {value}"));
        // a wrapper around the sids' length, the sids and the value
        assert_eq!(
            in_a_list(|v| call(v.with_annotations(&[10]))),
            format!("B{:X} E{:X} 81 8A {value}", length + 3, length + 2)
        );
    }
}

#[test]
fn containers() {
    assert_eq!(closed(|w| w.list_writer()?.close()), "B0");
    assert_eq!(closed(|w| w.sexp_writer()?.close()), "C0");
    assert_eq!(closed(|w| w.struct_writer()?.close()), "D0");
    assert_eq!(closed(|w| w.with_annotations(&[10]).list_writer()?.close()), "E3 81 8A B0");
    assert_eq!(closed(|w| w.with_annotations(&[10]).sexp_writer()?.close()), "E3 81 8A C0");
    let list = |w: &mut Writer| {
        let mut list = w.list_writer()?;
        list.write_i64(0)?;
        list.write_int(false, &[])?;
        list.close()
    };
    assert_eq!(closed(list), "B3 20 21 00");
    let annotated_struct = |w: &mut Writer| {
        let mut fields = w.with_annotations(&[10]).struct_writer()?;
        fields.field_name(4)?.write_bool(true)?;
        fields.close()
    };
    assert_eq!(closed(annotated_struct), "E5 81 8A D2 84 11");
    let repeated_names = |w: &mut Writer| {
        let mut fields = w.struct_writer()?;
        fields.field_name(4)?.write_bool(true)?;
        fields.field_name(4)?.with_annotations(&[200]).write_bool(false)?;
        let mut inner = fields.field_name(128)?.sexp_writer()?;
        inner.write_symbol(1)?;
        inner.close()?;
        fields.close()
    };
    assert_eq!(closed(repeated_names), "DD 84 11 84 E4 82 01 C8 10 01 80 C2 71 01");
    // D1 would be the sorted form: a struct's body has no single byte
    let nested = |w: &mut Writer| {
        let mut outer = w.with_annotations(&[5]).list_writer()?;
        let mut inner = outer.with_annotations(&[6, 7]).struct_writer()?;
        inner.field_name(1)?.list_writer()?.close()?;
        inner.close()?;
        outer.write_string("x")?;
        outer.close()
    };
    assert_eq!(closed(nested), "EC 81 85 B9 E6 82 86 87 D2 81 B0 81 78");
}

#[test]
fn field_names() {
    for (sid, name) in [
        (0, "80"),
        (127, "FF"),
        (128, "01 80"),
        (16_383, "7F FF"),
        (16_384, "01 00 80"),
        (u64::MAX, "01 7F 7F 7F 7F 7F 7F 7F 7F FF"),
    ] {
        let field = |w: &mut Writer| {
            let mut fields = w.struct_writer()?;
            fields.field_name(sid)?.write_bool(true)?;
            fields.close()
        };
        let length = name.len() / 3 + 2;
        assert_eq!(closed(field), format!("D{length:X} {name} 11"));
    }
}

#[test]
fn marker_stands_at_the_place_of_the_call() {
    let marked = |w: &mut Writer| {
        w.write_bool(true)?;
        w.write_version_marker()?;
        w.write_bool(false)
    };
    assert_eq!(bytes(marked), "11 E0 01 00 EA 10");
}

#[test]
fn list_of_every_body_size_near_the_limits() {
    for (length, header) in [
        (0, &[0xB0][..]),
        (13, &[0xBD]),
        (14, &[0xBE, 0x8E]),
        (127, &[0xBE, 0xFF]),
        (128, &[0xBE, 0x01, 0x80]),
        (16_383, &[0xBE, 0x7F, 0xFF]),
        (16_384, &[0xBE, 0x01, 0x00, 0x80]),
        (2_097_151, &[0xBE, 0x7F, 0x7F, 0xFF]),
        (2_097_152, &[0xBE, 0x01, 0x00, 0x00, 0x80]),
    ] {
        let mut buf = vec![0xEE; length + 32];
        let mut writer = Writer::new(&mut buf).unwrap();
        let mut list = writer.list_writer().unwrap();
        fill(&mut list, length);
        let size = list.close().unwrap().size as usize;
        assert_eq!(size, header.len() + length);
        let end = 4 + size;
        assert_eq!(writer.finished().len(), end);
        assert_eq!(&buf[4..4 + header.len()], header, "body of {length} bytes");
        assert_body(&buf[4 + header.len()..end]);
        // one byte less than the reserve becomes zero, the rest stays
        let freed = (4 + 2 + length).saturating_sub(end);
        assert!(buf[end..end + freed].iter().all(|&byte| byte == 0));
        assert!(buf[end + freed..].iter().all(|&byte| byte == 0xEE));
    }
}

#[test]
fn annotated_lists_of_every_body_size_near_the_limits() {
    for length in [
        0, 2, 6, 7, 8, 9, 10, 13, 14, 120, 121, 122, 123, 124, 125, 127, 128, 16_376, 16_378, 16_379, 16_380, 16_383, 16_384,
        2_097_143, 2_097_145, 2_097_146, 2_097_147, 2_097_151, 2_097_152,
    ] {
        let mut buf = vec![0xEE; length + 32];
        let mut writer = Writer::new(&mut buf).unwrap();
        let mut list = writer.with_annotations(&[300, 10]).list_writer().unwrap();
        fill(&mut list, length);
        let size = list.close().unwrap().size as usize;
        let mut expected = header(0xB0, length);
        let inner = expected.len();
        let annotations = [0x83, 0x02, 0xAC, 0x8A];
        expected.splice(0..0, annotations);
        expected.splice(0..0, header(0xE0, annotations.len() + inner + length));
        assert_eq!(size, expected.len() + length);
        let end = 4 + size;
        assert_eq!(writer.finished().len(), end);
        assert_eq!(&buf[4..4 + expected.len()], expected, "body of {length} bytes");
        assert_body(&buf[4 + expected.len()..end]);
        let freed = (4 + 2 + 4 + 2 + length).saturating_sub(end);
        assert!(buf[end..end + freed].iter().all(|&byte| byte == 0));
        assert!(buf[end + freed..].iter().all(|&byte| byte == 0xEE));
    }
}

/// Type code and length by document 01: up to 13 in the first byte, else a VarUInt behind it.
fn header(code: u8, length: usize) -> Vec<u8> {
    if length <= 13 {
        return vec![code + length as u8];
    }
    let mut digits = vec![0x80 + (length % 128) as u8];
    let mut rest = length / 128;
    while rest > 0 {
        digits.insert(0, (rest % 128) as u8);
        rest /= 128;
    }
    digits.insert(0, code + 0x0E);
    digits
}

/// Nulls that count in the low bits, so that a byte moved to a wrong place shows.
fn fill(list: &mut goatminute::ListWriter, length: usize) {
    for i in 0..length {
        list.write_null(NULLS[i % NULLS.len()]).unwrap();
    }
}

const NULLS: [IonType; 7] = [
    IonType::Null,
    IonType::Bool,
    IonType::Int,
    IonType::Float,
    IonType::Decimal,
    IonType::Blob,
    IonType::List,
];

fn assert_body(body: &[u8]) {
    for (i, &byte) in body.iter().enumerate() {
        assert_eq!(byte, 16 * NULLS[i % NULLS.len()] as u8 + 15, "byte {i} of the body");
    }
}
