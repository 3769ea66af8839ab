//! How many bytes a value takes where it is written (document 01), and how many the closing of a container moves (document 02,
//! Item 10). For values that document 01 accepts.

use crate::reading::written::{sid, utc};
use crate::refusal::{decimal_body_len, var_int_len};
use crate::value::{Annotated, Signed, Symbol, Timestamp, Value};

/// What an opening keeps free for each header.
const RESERVE: usize = 2;

/// A value with its annotations.
pub fn encoded(annotated: &Annotated) -> usize {
    let value = with_header(body(&annotated.value));
    match annotation_part(&annotated.annotations) {
        0 => value,
        part => with_header(part + value),
    }
}

/// What the closing of a container moves: its annotation part and its body, each if it lies elsewhere than before.
pub fn moved(container: &Annotated) -> usize {
    let part = annotation_part(&container.annotations);
    let body = body(&container.value);
    // Places from the container's start on.
    let if_elsewhere = |before: usize, after: usize, length: usize| if before == after { 0 } else { length };
    if part == 0 {
        return if_elsewhere(RESERVE, header(body), body);
    }
    let wrapper = header(part + with_header(body));
    let part_moved = if_elsewhere(RESERVE, wrapper, part);
    part_moved + if_elsewhere(RESERVE + part + RESERVE, wrapper + part + header(body), body)
}

/// A byte up to a body of 13 bytes, then a byte and the length as a VarUInt.
fn header(body: usize) -> usize {
    match body {
        0..=13 => 1,
        _ => 1 + var_uint_len(body as u64),
    }
}

fn with_header(body: usize) -> usize {
    header(body) + body
}

/// The sum of the sids' lengths and the sids, or nothing.
fn annotation_part(annotations: &[Symbol]) -> usize {
    if annotations.is_empty() {
        return 0;
    }
    let sum: usize = annotations.iter().map(|symbol| var_uint_len(sid(symbol))).sum();
    var_uint_len(sum as u64) + sum
}

/// What stands behind the header. A null and a bool are their header alone.
fn body(value: &Value) -> usize {
    match value {
        Value::Null(_) | Value::Bool(_) => 0,
        Value::I64(value) => uint_len(value.unsigned_abs()),
        // Zero has a byte here.
        Value::Int(int) => int.magnitude.len().max(1),
        Value::F32(0) | Value::F64(0) => 0,
        Value::F32(_) => 4,
        Value::F64(bits) => {
            let wide = f64::from_bits(*bits);
            // A NaN is equal to nothing.
            match f64::from(wide as f32) == wide {
                true => 4,
                false => 8,
            }
        }
        Value::Decimal { coefficient, exponent } => decimal_body_len(coefficient, *exponent),
        Value::Timestamp(local) => timestamp_body_len(local),
        Value::Symbol(symbol) => uint_len(sid(symbol)),
        Value::String(bytes) | Value::Clob(bytes) | Value::Blob(bytes) => bytes.len(),
        Value::List(members) | Value::Sexp(members) => members.iter().map(encoded).sum(),
        Value::Struct(fields) => fields.iter().map(|(name, member)| var_uint_len(sid(name)) + encoded(member)).sum(),
    }
}

fn timestamp_body_len(local: &Timestamp) -> usize {
    let utc = utc(local);
    let offset = utc.offset.map_or(1, var_int_len);
    let fields: usize = utc.fields.iter().map(|field| var_uint_len(*field)).sum();
    let fraction = utc.fraction.map_or(0, |fraction| {
        let coefficient = Signed { negative: false, magnitude: fraction.coefficient };
        decimal_body_len(&coefficient, -(fraction.digits as i64))
    });
    offset + fields + fraction
}

/// No byte for zero.
fn uint_len(value: u64) -> usize {
    (u64::BITS - value.leading_zeros()).div_ceil(8) as usize
}

/// Seven bits a byte, and a byte for zero.
fn var_uint_len(value: u64) -> usize {
    (u64::BITS - value.leading_zeros()).div_ceil(7).max(1) as usize
}

#[cfg(test)]
mod tests {
    use super::*;
    use crate::form;

    fn value(line: &str) -> Annotated {
        form::parse(line.as_bytes()).expect(line)
    }

    /// A list whose annotation part and body have these lengths; a part of 0 bytes is no annotations.
    fn list(part: usize, body: usize) -> Annotated {
        let sids = " 10".repeat(part.saturating_sub(1));
        let list = value(&format!("(ann ({}) (list{}))", sids.trim_start(), " (bool 1)".repeat(body)));
        assert_eq!(annotation_part(&list.annotations), part);
        list
    }

    #[test]
    fn lengths() {
        for (line, length) in [
            ("(null list)", 1),
            ("(i64 0)", 1),
            ("(int 0)", 2),
            ("(i64 -256)", 3),
            ("(i64 -9223372036854775808)", 9),
            ("(f32 80000000)", 5),
            ("(f64 0000000000000000)", 1),
            ("(f64 3690000000000000)", 9),
            ("(f64 36a0000000000000)", 5),
            ("(f64 fff0000000000000)", 5),
            ("(f64 7ff8000000000000)", 9),
            ("(dec 0 0)", 1),
            ("(dec -0 0)", 3),
            ("(dec 96 -2)", 4),
            ("(ts ? 2000)", 4),
            // The UTC year is 127, which takes one byte.
            ("(ts 60 128 1 1 0 30)", 7),
            ("(ts 60 128 1 1 1 0)", 8),
            ("(ts ? 2000 1 1 0 0 0 3 128)", 12),
            ("(symbol 255)", 2),
            ("(blob 00ff)", 3),
            ("(list (i64 0) (int 0))", 4),
            ("(struct (128 (bool 1)))", 4),
            ("(ann (10) (struct (4 (bool 1))))", 6),
        ] {
            assert_eq!(encoded(&value(line)), length, "{line}");
        }
        assert_eq!(encoded(&value(&format!("(clob {})", "61".repeat(13)))), 14);
        assert_eq!(encoded(&value(&format!("(clob {})", "61".repeat(14)))), 16);
        assert_eq!(encoded(&value(&format!("(clob {})", "61".repeat(128)))), 131);
    }

    #[test]
    fn lengths_at_further_edges() {
        for (line, length) in [
            ("(f32 00000000)", 1),
            ("(f64 8000000000000000)", 5),
            ("(dec 0 5)", 2),
            ("(ts 63 2000 1 1 0 0)", 8),
            ("(ts 64 2000 1 1 0 0)", 9),
            ("(symbol 0)", 1),
            ("(struct (0 (bool 1)))", 3),
            ("(ann (0) (bool 1))", 4),
        ] {
            assert_eq!(encoded(&value(line)), length, "{line}");
        }
        assert_eq!(encoded(&value(&format!("(ann (0{}) (bool 1))", " 0".repeat(126)))), 132);
        assert_eq!(encoded(&value(&format!("(ann (0{}) (bool 1))", " 0".repeat(127)))), 134);
    }

    #[test]
    fn bytes_moved() {
        for (body, bytes) in [(0, 0), (1, 1), (13, 13), (14, 0), (127, 0), (128, 128)] {
            assert_eq!(moved(&list(0, body)), bytes, "a body of {body} bytes");
        }
        for (part, body, bytes) in [
            (2, 0, 2),
            (2, 10, 12),
            (2, 11, 11),
            (2, 13, 13),
            (2, 14, 0),
            (2, 123, 0),
            (2, 124, 126),
            (2, 128, 130),
            (113, 13, 13),
            // The wrapper's header grows by what the inner one shrinks: the body stays.
            (114, 13, 114),
            (113, 14, 127),
            (126, 0, 0),
            (127, 0, 127),
        ] {
            assert_eq!(moved(&list(part, body)), bytes, "a part of {part} bytes, a body of {body}");
        }
    }
}
