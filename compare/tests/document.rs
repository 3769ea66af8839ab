//! The model of the refusals held to document 01: its table, its trial program and its edges.

use compare::form;
use compare::refusal::{faults, number, Fault};
use compare::value::{Annotated, Signed, Symbol, Timestamp, Type, Value};

fn plain(line: &str) -> Value {
    let Annotated { annotations, value } = form::parse(line.as_bytes()).expect(line);
    assert_eq!(annotations, []);
    value
}

/// The lines must be answered with this number.
fn refused(want: u8, lines: &[&str]) {
    for line in lines {
        assert_eq!(number(line.as_bytes()), Some(want), "{line}");
    }
}

fn accepted(lines: &[&str]) {
    for line in lines {
        assert_eq!(number(line.as_bytes()), None, "{line}");
    }
}

fn nested(depth: usize, inner: &str) -> String {
    format!("{}{inner}{}", "(list ".repeat(depth), ")".repeat(depth))
}

#[test]
fn the_example() {
    accepted(&["(list (i64 0) (int 0))", "(ann (10) (struct (4 (bool 1))))"]);
    refused(11, &["(symbol \"go\")"]);
}

#[test]
fn the_forms() {
    assert_eq!(plain("(null list)"), Value::Null(Type::List));
    assert_eq!(plain("(bool 1)"), Value::Bool(true));
    assert_eq!(plain("(i64 -5)"), Value::I64(-5));
    let minus_255 = Signed { negative: true, magnitude: vec![0xff] };
    assert_eq!(plain("(int -ff)"), Value::Int(minus_255));
    assert_eq!(plain("(f32 3fc00000)"), Value::F32(0x3fc0_0000));
    assert_eq!(plain("(f64 3ff8000000000000)"), Value::F64(0x3ff8_0000_0000_0000));
    let coefficient = Signed { negative: true, magnitude: vec![0x96] };
    assert_eq!(plain("(dec -96 -2)"), Value::Decimal { coefficient, exponent: -2 });
    let year = Timestamp { offset: None, fields: vec![2000], fraction: None };
    assert_eq!(plain("(ts ? 2000)"), Value::Timestamp(year));
    assert_eq!(plain("(symbol 4)"), Value::Symbol(Symbol::Sid(4)));
    assert_eq!(plain("(string 6f)"), Value::String(vec![0x6f]));
    assert_eq!(plain("(clob)"), Value::Clob(vec![]));
    assert_eq!(plain("(blob 00ff)"), Value::Blob(vec![0x00, 0xff]));
    assert_eq!(plain("(list)"), Value::List(vec![]));
    let field = Annotated { annotations: vec![], value: Value::Bool(true) };
    assert_eq!(plain("(struct (4 (bool 1)))"), Value::Struct(vec![(Symbol::Sid(4), field)]));
    let annotated = form::parse(b"(ann (10 \"go\") (bool 1))").expect("of the form");
    assert_eq!(annotated.annotations, [Symbol::Sid(10), Symbol::Text]);
}

#[test]
fn every_type_name() {
    for kind in Type::ALL {
        accepted(&[&format!("(null {})", kind.name())]);
    }
    refused(12, &["(null)", "(null i64)", "(null List)", "(null ann)"]);
}

#[test]
fn not_of_the_form() {
    refused(12, &["", " ", "(bool 01)", "(bool 1) ", " (bool 1)", "(bool 1)\r", "(bool  1)"]);
    refused(12, &["(list )", "(clob )", "(blob 0)", "(blob 00 00)", "(int FF)", "(int)", "(int -)"]);
    refused(12, &["(i64 +5)", "(i64 --5)", "(f32 3fc0000)", "(f64 -3ff8000000000000)"]);
    refused(12, &["(symbol \"\")", "(symbol \"Go\")", "(symbol \"g1\")", "(symbol -0)"]);
    refused(12, &["(ann (10) (ann (11) (bool 1)))", "(ann () (ann () (bool 1)))", "(ann (10))"]);
    refused(12, &["(struct (4 (bool 1))(5 (bool 1)))", "(struct (-0 (bool 1)))"]);
    refused(12, &["(ts ?)", "(ts ? 2000 1 1 0)", "(ts ? 2000 1 1 0 0 0 1)"]);
    refused(12, &["(ts ? -0)", "(ts ? 2000 1 1 0 0 0 1 -0)", "(ts ? 2000 1 1 0 0 0 1 0 0)"]);
    accepted(&["(list)", "(sexp)", "(struct)", "(clob)", "(ann () (bool 1))"]);
    accepted(&["(ann (10) (list (ann (11) (bool 1))))"]);
}

#[test]
fn floats_of_too_many_digits_or_too_few() {
    refused(12, &["(f32 3fc000000)", "(f64 3ff80000000000000)", "(f32)", "(f64 3ff800000000000)"]);
}

#[test]
fn numbers_past_their_limits() {
    accepted(&["(i64 9223372036854775807)", "(i64 -9223372036854775808)", "(i64 -0)", "(i64 007)"]);
    refused(12, &["(i64 9223372036854775808)", "(i64 -9223372036854775809)"]);
    accepted(&["(dec 1 9223372036854775807)", "(dec 1 -9223372036854775808)"]);
    refused(12, &["(dec 1 9223372036854775808)", "(dec 1 -9223372036854775809)"]);
    accepted(&["(symbol 18446744073709551615)", "(ann (18446744073709551615) (bool 1))"]);
    refused(12, &["(symbol 18446744073709551616)", "(ann (18446744073709551616) (bool 1))"]);
    refused(12, &["(struct (18446744073709551616 (bool 1)))"]);
    refused(7, &["(ts ? 2147483647)", "(ts ? 2000 1 1 0 0 0 1 18446744073709551615)"]);
    refused(12, &["(ts ? 2147483648)", "(ts ? 2000 1 1 0 0 0 1 18446744073709551616)"]);
    refused(7, &["(ts -2147483648 2000 1 1 0 0)", "(ts 2147483647 2000 1 1 0 0)"]);
    refused(12, &["(ts -2147483649 2000 1 1 0 0)", "(ts 2147483648 2000 1 1 0 0)"]);
    refused(7, &["(ts ? 2000 1 1 0 0 0 2147483647 0)"]);
    refused(12, &["(ts ? 2000 1 1 0 0 0 2147483648 0)"]);
}

#[test]
fn lines_over_4096_bytes() {
    let int = |digits: usize| format!("(int {})", "0".repeat(digits));
    assert_eq!(int(4090).len(), 4096);
    accepted(&[&int(4090)]);
    refused(12, &[&int(4091)]);
    assert_eq!(faults(int(4091).as_bytes()), [Fault::Length]);
    refused(12, &[&"(".repeat(5000)]);
}

/// The faults behind the length count too: the Rust has no limit.
#[test]
fn faults_of_lines_over_4096_bytes() {
    let long = format!("(list (int -0) (int {}))", "0".repeat(4091));
    assert_eq!(faults(long.as_bytes()), [Fault::Length, Fault::NegativeZero]);
}

#[test]
fn thirty_two_open() {
    accepted(&[&nested(32, "(bool 1)"), &nested(32, "(null list)"), &nested(31, "(list) (list)")]);
    refused(4, &[&nested(33, "(bool 1)"), &nested(32, "(list)"), &nested(584, "(bool 1)")]);
    // Wrappers do not count.
    accepted(&[&format!("{}(bool 1){}", "(ann (10) (sexp ".repeat(32), "))".repeat(32))]);
}

#[test]
fn siblings_of_each_kind_are_not_open_together() {
    for empty in [" (list)", " (sexp)", " (struct)"] {
        accepted(&[&format!("(list{})", empty.repeat(40))]);
    }
}

#[test]
fn integers_strings_and_decimals() {
    accepted(&["(int 0)", "(int 000)", "(int -1)", "(dec -0 0)"]);
    refused(5, &["(int -0)", "(int -000)"]);
    // RFC 3629: no surrogates, no overlong forms, nothing past 10FFFF; NUL is fine.
    accepted(&["(string)", "(string 00)", "(string ed9fbf)", "(string ee8080)", "(string f48fbfbf)"]);
    refused(6, &["(string ff)", "(string 80)", "(string c3)", "(string c080)", "(string eda080)"]);
    refused(6, &["(string f4908080)", "(string e08080)", "(string f0808080)", "(string f88080)"]);
    accepted(&["(clob ff)", "(blob ff)"]);
    let dec = |first: &str, bytes: usize, exponent: i64| format!("(dec {first}{} {exponent})", "ff".repeat(bytes - 1));
    accepted(&[&dec("7f", 31, 0), &dec("7f", 31, 63), &dec("7f", 31, -63), &dec("ff", 30, 0)]);
    refused(8, &[&dec("ff", 31, 0), &dec("7f", 32, 0), &dec("7f", 31, 64), &dec("7f", 31, -64)]);
    // The exponent -2^63 takes ten bytes.
    accepted(&[&dec("7f", 22, i64::MIN), &dec("00ff", 22, 0)]);
    refused(8, &[&dec("ff", 22, i64::MIN), &dec("7f", 23, i64::MIN)]);
}

#[test]
fn timestamps() {
    accepted(&["(ts ? 1)", "(ts ? 9999)", "(ts ? 2000 12)", "(ts ? 2000 2 29)"]);
    refused(7, &["(ts ? 0)", "(ts ? 10000)", "(ts ? 70000)", "(ts ? 2000 0)", "(ts ? 2000 13)"]);
    refused(7, &["(ts ? 1900 2 29)", "(ts ? 2100 2 29)", "(ts ? 2001 2 29)", "(ts ? 2000 2 30)"]);
    refused(7, &["(ts ? 2000 4 31)", "(ts ? 2000 1 0)", "(ts ? 2000 1 32)"]);
    accepted(&["(ts ? 2000 1 31 23 59 59)", "(ts 1439 9999 12 31 23 59)", "(ts -1439 1 1 1 0 0)"]);
    refused(7, &["(ts ? 2000 1 1 24 0)", "(ts ? 2000 1 1 0 60)", "(ts ? 2000 1 1 0 0 60)"]);
    refused(7, &["(ts 1440 2000 1 1 0 0)", "(ts -1440 2000 1 1 0 0)"]);
    accepted(&["(ts -0 2000 1 1 0 0)", "(ts 0 2000 1 1 0 0)"]);
    refused(7, &["(ts 0 2000)", "(ts -0 2000 1)", "(ts 60 2000 1 1)"]);
    accepted(&["(ts ? 2000 1 1 0 0 0 1 0)", "(ts ? 2000 1 1 0 0 0 18 999999999999999999)"]);
    refused(7, &["(ts ? 2000 1 1 0 0 0 19 0)", "(ts ? 2000 1 1 0 0 0 1 10)"]);
    refused(7, &["(ts ? 2000 1 1 0 0 0 0 0)", "(ts ? 2000 1 1 0 0 0 0 1)"]);
    assert_eq!(faults(b"(ts ? 2000 1 1 0 0 0 0 0)"), [Fault::NoFractionDigits]);
    assert_eq!(faults(b"(ts ? 2000 1 1 0 0 0 0 1)"), [Fault::Timestamp]);
    assert_eq!(faults(b"(ts ? 2000 1 1 0 0 60 0 0)"), [Fault::Timestamp]);
}

#[test]
fn each_month_has_its_last_day() {
    refused(7, &["(ts ? 2000 12 32)"]);
    for month in 1..=12 {
        let last_is_31 = [1, 3, 5, 7, 8, 10, 12].contains(&month);
        assert_eq!(number(format!("(ts ? 2000 {month} 31)").as_bytes()), (!last_is_31).then_some(7), "{month}");
    }
}

/// Document 02, Item 2: 7 covers a UTC year outside 1 to 9999, after the local fields.
#[test]
fn utc_years() {
    accepted(&["(ts ? 1 1 1 0 0)", "(ts 0 1 1 1 0 0)", "(ts -1 1 1 1 0 0)", "(ts -1439 1 1 1 0 0 0)"]);
    refused(7, &["(ts 1 1 1 1 0 0)", "(ts 60 1 1 1 0 0)", "(ts 1439 1 1 1 0 0 0)"]);
    accepted(&["(ts 60 1 1 1 1 0)", "(ts 1439 1 1 1 23 59)", "(ts 1439 1 1 2 0 0)"]);
    refused(7, &["(ts 60 1 1 1 0 59)", "(ts 60 1 1 1 0 59 59)", "(ts 1439 1 1 1 23 58)"]);
    accepted(&["(ts ? 9999 12 31 23 59)", "(ts 0 9999 12 31 23 59)", "(ts 1 9999 12 31 23 59)", "(ts 1439 9999 12 31 23 59 59)"]);
    refused(7, &["(ts -1 9999 12 31 23 59)", "(ts -60 9999 12 31 23 30)", "(ts -1439 9999 12 31 23 59 59 18 0)"]);
    accepted(&["(ts -60 9999 12 31 22 59)", "(ts -1439 9999 12 31 0 0)", "(ts -1439 9999 12 30 23 59)"]);
    refused(7, &["(ts -60 9999 12 31 23 0)", "(ts -1439 9999 12 31 0 1)"]);
    // A year of its own among the faults, the last of its timestamp's.
    assert_eq!(faults(b"(ts 60 1 1 1 0 0)"), [Fault::UtcYear]);
    assert_eq!(faults(b"(ts 60 1 1 1 0 0 0 0 0)"), [Fault::NoFractionDigits, Fault::UtcYear]);
    assert_eq!(faults(b"(ts 60 1 1 1 0 0 0 19 0)"), [Fault::Timestamp, Fault::UtcYear]);
    assert_eq!(faults(b"(ts 60 1 1 1 0 60)"), [Fault::Timestamp]);
    assert_eq!(faults(b"(ts 60 1 1 1)"), [Fault::Timestamp]);
    assert_eq!(faults(b"(ts 1440 1 1 1 0 0)"), [Fault::Timestamp]);
    assert_eq!(faults(b"(ts ? 0 12 31 23 0)"), [Fault::Timestamp]);
}

#[test]
fn the_first_refusal_answers() {
    // The form over the whole line first.
    refused(12, &["(list (symbol \"go\") (bool 2))", &nested(40, "(bool 2)")]);
    // Then from left to right.
    refused(5, &["(list (int -0) (symbol \"go\"))", "(struct (4 (int -0)) (\"go\" (string ff)))"]);
    refused(11, &["(list (symbol \"go\") (int -0))", "(struct (\"go\" (int -0)))"]);
    refused(6, &["(list (string ff) (ts ? 0))"]);
    refused(7, &["(list (ts ? 0) (string ff))", "(list (ts 60 1 1 1 0 0) (string ff))"]);
    refused(6, &["(list (string ff) (ts 60 1 1 1 0 0))"]);
    // A call that meets text is 11 before its other checks.
    refused(11, &["(ann (\"go\") (int -0))", "(ann (10 \"go\") (string ff))", "(ann (\"go\") (ts 60 1 1 1 0 0))"]);
    refused(11, &[&nested(32, "(ann (\"go\") (list))"), &nested(32, "(symbol \"go\")")]);
    refused(4, &[&nested(32, "(struct (\"go\" (bool 1)))"), &nested(33, "(symbol \"go\")")]);
    refused(11, &["(ann (\"go\") (list (int -0)))"]);
}

/// The lines that docs/TRIAL-LINES.md shows are of the form, and only a text in quotes is refused in them.
#[test]
fn lines_of_the_page_are_of_the_form() {
    let page = std::fs::read_to_string(concat!(env!("CARGO_MANIFEST_DIR"), "/../docs/TRIAL-LINES.md")).expect("the page");
    let lines: Vec<&str> = page.split('`').filter(|code| code.starts_with('(') && code.ends_with(')')).collect();
    assert!(lines.len() > 15, "{lines:?}");
    for line in lines {
        let text = line.contains('"').then_some(11);
        assert_eq!(number(line.as_bytes()), text, "{line}");
    }
}
