//! What the program `show` prints.
#[path = "../examples/show/text.rs"]
mod text;

use goatminute::{ReadRefusal, Refusal};

/// The text of a stream, and how the walk ended.
fn shown(stream: &[u8]) -> (String, Result<(), ReadRefusal>) {
    let mut out = Vec::new();
    let read = text::print(&mut out, stream).expect("a vector takes all");
    (String::from_utf8(out).expect("text"), read)
}

fn line(stream: &[u8]) -> String {
    let (text, read) = shown(stream);
    assert_eq!(read, Ok(()), "{text}");
    text.strip_suffix('\n').expect("a line").to_string()
}

#[test]
fn scalars() {
    for (stream, text) in [
        (&b"\xE0\x01\x00\xEA"[..], "$ion_1_0"),
        (b"\x0F", "null"),
        (b"\x3F", "null.int"),
        (b"\xCF", "null.sexp"),
        (b"\x11", "true"),
        (b"\x20", "0"),
        (b"\x31\x05", "-5"),
        (b"\x29\x01\0\0\0\0\0\0\0\0", "18446744073709551616"),
        (b"\x40", "0e0"),
        (b"\x44\x3F\xC0\0\0", "1.5e0"),
        (b"\x44\x80\0\0\0", "-0e0"),
        (b"\x44\x7F\xC0\0\0", "nan"),
        (b"\x44\xFF\x80\0\0", "-inf"),
        (b"\x48\x7F\xF0\0\0\0\0\0\0", "+inf"),
        (b"\x48\x3F\xB9\x99\x99\x99\x99\x99\x9A", "1e-1"),
        (b"\x50", "0d0"),
        (b"\x53\xC1\x1F\xBD", "8125d-1"),
        (b"\x52\xC1\x80", "-0d-1"),
        (b"\x52\x83\x81", "-1d3"),
        (b"\x5A\x41\0\0\0\0\0\0\0\0\x80", "0d-9223372036854775808"),
        (b"\x71\x0A", "$10"),
        (b"\x83a\"\\", "\"a\\\"\\\\\""),
        (b"\x86\n\t\0\x1B\xC2\x9B", "\"\\n\\t\\x00\\x1b\\x9b\""),
        (b"\x85\xC3\xA9\xE2\x80\xAE", "\"\u{e9}\\u202e\""),
        (b"\x95a\"\\\n\xFF", "{{\"a\\\"\\\\\\n\\xff\"}}"),
        (b"\xA0", "{{}}"),
        (b"\xA1\xFF", "{{/w==}}"),
        (b"\xA2\x01\x02", "{{AQI=}}"),
        (b"\xA3abc", "{{YWJj}}"),
    ] {
        assert_eq!(line(stream), text);
    }
}

#[test]
fn timestamps() {
    for (stream, text) in [
        (&b"\x63\xC0\x0F\xD0"[..], "2000T"),
        (b"\x64\xC0\x0F\xD0\x82", "2000-02T"),
        (b"\x65\xC0\x0F\xD0\x82\x9D", "2000-02-29"),
        (b"\x67\xC0\x0F\xD0\x81\x81\x80\x80", "2000-01-01T00:00-00:00"),
        (b"\x67\x80\x0F\xD0\x81\x81\x80\x80", "2000-01-01T00:00Z"),
        (b"\x67\xFC\x0F\xD0\x81\x81\x80\x80", "1999-12-31T23:00-01:00"),
        (b"\x69\xBC\x0F\xEA\x83\x8E\x93\x9E\x87\xC3", "2026-03-14T20:30:07.000+01:00"),
        (
            b"\x6A\xBC\x0F\xEA\x83\x8E\x93\x9E\x87\xC3\x07",
            "2026-03-14T20:30:07.007+01:00",
        ),
        // what the text has no form for
        (b"\x63\x80\x0F\xD0", "2000T /* offset 0 minutes */"),
        (b"\x63\xC0\x4E\x90", "10000T /* out of calendar: UTC year 10000 */"),
        (
            b"\x68\x0B\xA0\x0F\xD0\x81\x81\x80\x80",
            "2000-01-01T00:00Z /* offset 1440 minutes */",
        ),
        (
            b"\x6E\x90\x41\0\0\0\0\0\0\0\0\x80\x0F\xD0\x81\x81\x80\x80",
            "2000-01-01T00:00Z /* offset -9223372036854775808 minutes */ /* out of calendar: local year -17536621475616 */",
        ),
        (
            b"\x6E\x90\x00\x7F\x7F\x7F\x7F\x7F\x7F\x7F\x7F\xFF\x0F\xD0\x81\x81\x80\x80",
            "2000-01-01T00:00Z /* offset 9223372036854775807 minutes */ /* out of calendar: local year 17536621479615 */",
        ),
        (
            b"\x66\xFC\x81\x81\x81\x80\x80",
            "0001-01-01T00:00Z /* offset -60 minutes */ /* out of calendar: local year 0 */",
        ),
        (
            b"\x66\xBC\x80\x8C\x9F\x97\xBB",
            "0001-01-01T00:59+01:00 /* out of calendar: UTC year 0 */",
        ),
        (
            b"\x6E\x93\x80\x0F\xD0\x81\x81\x80\x80\x80\x41\0\0\0\0\0\0\0\0\x80\x07",
            "2000-01-01T00:00:00Z /* fraction 7d-9223372036854775808 */",
        ),
    ] {
        assert_eq!(line(stream), text);
    }
}

/// Exactly what is out of the calendar has the comment.
#[test]
fn years_outside_the_calendar() {
    for (stream, text) in [
        // the first minute and the last of the calendar, and those beyond
        (&b"\x66\x80\x81\x81\x81\x80\x80"[..], "0001-01-01T00:00Z"),
        (b"\x67\x80\x4E\x8F\x8C\x9F\x97\xBB", "9999-12-31T23:59Z"),
        (b"\x67\xC1\x4E\x8F\x8C\x9F\x97\xBB", "9999-12-31T23:58-00:01"),
        (
            b"\x67\x81\x4E\x8F\x8C\x9F\x97\xBB",
            "9999-12-31T23:59Z /* offset 1 minutes */ /* out of calendar: local year 10000 */",
        ),
        (
            b"\x68\x0B\xA0\x4E\x90\x81\x81\x80\x80",
            "10000-01-01T00:00Z /* offset 1440 minutes */ /* out of calendar: UTC year 10000, local year 10000 */",
        ),
        (
            b"\x68\x4B\xA0\x4E\x90\x81\x81\x80\x80",
            "10000-01-01T00:00Z /* offset -1440 minutes */ /* out of calendar: UTC year 10000 */",
        ),
        (
            b"\x68\xFC\x80\x81\x81\x80\x80\xBB\xC1",
            "0000-01-01T00:00:59.0Z /* offset -60 minutes */ /* out of calendar: UTC year 0, local year -1 */",
        ),
        // the local year is that of UTC
        (
            b"\x66\xC0\x80\x82\x9D\x80\x80",
            "0000-02-29T00:00-00:00 /* out of calendar: UTC year 0 */",
        ),
        (
            b"\x66\x80\x80\x82\x9D\x80\x80",
            "0000-02-29T00:00Z /* offset 0 minutes */ /* out of calendar: UTC year 0 */",
        ),
        // a date alone is not judged by its offset
        (b"\x64\xC1\x81\x81\x81", "0001-01-01 /* offset -1 minutes */"),
        (
            b"\x6E\x8E\x00\x7F\x7F\x7F\x7F\x7F\x7F\x7F\x7F\xFF\x4E\x8F\x8C\x9F",
            "9999-12-31 /* offset 9223372036854775807 minutes */",
        ),
        (
            b"\x64\x81\x80\x82\x9D",
            "0000-02-29 /* offset 1 minutes */ /* out of calendar: UTC year 0 */",
        ),
        // in a container
        (b"\xB5\x62\xC0\x80\x21\x05", "[0000T /* out of calendar: UTC year 0 */, 5]"),
    ] {
        assert_eq!(line(stream), text);
    }
}

#[test]
fn numbers_of_any_length() {
    // ten to the power of 60, and one less
    let power = b"\x9F\x4F\x27\x26\x17\x9A\x22\x45\x01\xD7\x62\x42\x2C\x94\x65\x90\xD9\x10\0\0\0\0\0\0\0";
    let int = [&[0x2E, 0x80 | power.len() as u8], &power[..]].concat();
    assert_eq!(line(&int), format!("1{}", "0".repeat(60)));
    let mut less = power.to_vec();
    less[17] = 0x0F;
    less[18..].fill(0xFF);
    let int = [&[0x2E, 0x80 | less.len() as u8], &less[..]].concat();
    assert_eq!(line(&int), "9".repeat(60));
    let long = [&[0x3E, 0x20, 0x81], &[0xAB; 4097][..]].concat();
    assert_eq!(line(&long), format!("-0x{}", "ab".repeat(4097)));
}

#[test]
fn containers() {
    let record = b"\xEE\x96\x82\x94\x95\xDE\x91\x8A\x21\x01\x8B\xB5\x20\xE3\x81\x84\x0F\x8C\xC3\x11\x71\x0A\x8D\xD0";
    assert_eq!(
        line(record),
        "$20::$21::{$10: 1, $11: [0, $4::null], $12: (true $10), $13: {}}"
    );
    assert_eq!(line(b"\xB0"), "[]");
    assert_eq!(shown(b"\x20\x00\x10").0, "0\nfalse\n");
    assert_eq!(shown(b"").0, "");
}

#[test]
fn a_refusal_ends_the_text() {
    let refused = |refusal, place| Err(ReadRefusal { refusal, place });
    assert_eq!(
        shown(b"\x20\xB3\x20\x12\x20"),
        ("0\n[0\n".to_string(), refused(Refusal::NotIon, 3))
    );
    assert_eq!(shown(b"\x20\x82a"), ("0\n".to_string(), refused(Refusal::CutShort, 1)));
    assert_eq!(shown(b"\xE0\x02"), (String::new(), refused(Refusal::NotIon, 0)));
}
