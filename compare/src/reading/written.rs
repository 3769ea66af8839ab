//! What a value that was written reads as.

use super::{Container, Event, Float, Fraction, Scalar, Timestamp};
use crate::value::{self, Annotated, Signed, Symbol, Value};

/// The events of a value that document 01 accepts. Floats are as `by_value` has them.
pub fn events(annotated: &Annotated) -> Vec<Event> {
    let mut events = Vec::new();
    add(&mut events, None, annotated);
    events
}

/// Events with each float as binary64: the writer chooses the width.
pub fn by_value(events: Vec<Event>) -> Vec<Event> {
    let widened = |event| match event {
        Event::Scalar { name, annotations, value: Scalar::Float(float) } => {
            Event::Scalar { name, annotations, value: Scalar::Float(Float::Binary64(float.value())) }
        }
        other => other,
    };
    events.into_iter().map(widened).collect()
}

fn add(events: &mut Vec<Event>, name: Option<u64>, annotated: &Annotated) {
    let annotations: Vec<u64> = annotated.annotations.iter().map(sid).collect();
    let (container, fields) = match &annotated.value {
        Value::List(members) => (Container::List, members.iter().map(|member| (None, member)).collect()),
        Value::Sexp(members) => (Container::Sexp, members.iter().map(|member| (None, member)).collect()),
        Value::Struct(fields) => {
            (Container::Struct, fields.iter().map(|(name, member)| (Some(sid(name)), member)).collect::<Vec<_>>())
        }
        other => {
            let value = scalar(other);
            return events.push(Event::Scalar { name, annotations, value });
        }
    };
    events.push(Event::Begin { name, annotations, container });
    for (name, member) in fields {
        add(events, name, member);
    }
    events.push(Event::End);
}

fn scalar(value: &Value) -> Scalar {
    match value {
        Value::Null(kind) => Scalar::Null(*kind),
        Value::Bool(value) => Scalar::Bool(*value),
        Value::I64(value) => {
            let magnitude = value.unsigned_abs().to_be_bytes();
            Scalar::Int(Signed { negative: *value < 0, magnitude: super::fields::significant(&magnitude).to_vec() })
        }
        Value::Int(int) => Scalar::Int(int.clone()),
        Value::F32(bits) => Scalar::Float(Float::Binary64(Float::Binary32(*bits).value())),
        Value::F64(bits) => Scalar::Float(Float::Binary64(Float::Binary64(*bits).value())),
        Value::Decimal { coefficient, exponent } => Scalar::Decimal { coefficient: coefficient.clone(), exponent: *exponent },
        // What document 01 accepts is never out of the calendar.
        Value::Timestamp(local) => Scalar::Timestamp { value: utc(local), out_of_calendar: false },
        Value::Symbol(symbol) => Scalar::Symbol(sid(symbol)),
        Value::String(bytes) => Scalar::String(bytes.clone()),
        Value::Clob(bytes) => Scalar::Clob(bytes.clone()),
        Value::Blob(bytes) => Scalar::Blob(bytes.clone()),
        Value::List(_) | Value::Sexp(_) | Value::Struct(_) => unreachable!("a container is no scalar"),
    }
}

pub(crate) fn sid(symbol: &Symbol) -> u64 {
    match symbol {
        Symbol::Sid(sid) => *sid,
        Symbol::Text => panic!("document 01 accepts no text"),
    }
}

/// The local fields an offset earlier, minute by minute through the calendar.
pub(crate) fn utc(local: &value::Timestamp) -> Timestamp {
    let mut fields: Vec<i32> = local.fields.clone();
    if let (Some(minutes), true) = (local.offset, fields.len() >= 5) {
        fields[4] -= minutes;
        carry(&mut fields);
    }
    let fraction = local.fraction.map(|fraction| Fraction {
        digits: fraction.digits as u64,
        coefficient: super::fields::significant(&fraction.coefficient.to_be_bytes()).to_vec(),
    });
    Timestamp { offset: local.offset.map(i64::from), fields: fields.iter().map(|field| *field as u64).collect(), fraction }
}

/// Brings minutes, hours, days and months back into their ranges.
fn carry(fields: &mut [i32]) {
    fields[3] += fields[4].div_euclid(60);
    fields[4] = fields[4].rem_euclid(60);
    fields[2] += fields[3].div_euclid(24);
    fields[3] = fields[3].rem_euclid(24);
    while fields[2] < 1 {
        fields[1] -= 1;
        if fields[1] < 1 {
            fields[1] = 12;
            fields[0] -= 1;
        }
        fields[2] += days_in_month(fields[0], fields[1]);
    }
    while fields[2] > days_in_month(fields[0], fields[1]) {
        fields[2] -= days_in_month(fields[0], fields[1]);
        fields[1] += 1;
        if fields[1] > 12 {
            fields[1] = 1;
            fields[0] += 1;
        }
    }
}

fn days_in_month(year: i32, month: i32) -> i32 {
    match month {
        2 if year % 4 == 0 && (year % 100 != 0 || year % 400 == 0) => 29,
        2 => 28,
        4 | 6 | 9 | 11 => 30,
        _ => 31,
    }
}

#[cfg(test)]
mod tests {
    use super::super::{text, Ending};
    use super::*;
    use crate::form;

    fn fields(line: &str) -> Vec<u64> {
        let parsed = form::parse(line.as_bytes()).expect("of the form");
        match &events(&parsed)[..] {
            [Event::Scalar { value: Scalar::Timestamp { value, .. }, .. }] => value.fields.clone(),
            other => panic!("{other:?}"),
        }
    }

    #[test]
    fn local_times_become_utc() {
        assert_eq!(fields("(ts 60 2026 3 14 20 30)"), [2026, 3, 14, 19, 30]);
        assert_eq!(fields("(ts 1 2000 3 1 0 0 7)"), [2000, 2, 29, 23, 59, 7]);
        assert_eq!(fields("(ts -1439 1999 12 31 0 1)"), [2000, 1, 1, 0, 0]);
        assert_eq!(fields("(ts 1439 1 1 1 0 0)"), [0, 12, 31, 0, 1]);
        assert_eq!(fields("(ts -1439 9999 12 31 23 59 59 3 7)"), [10_000, 1, 1, 23, 58, 59]);
        assert_eq!(fields("(ts ? 2026 3)"), [2026, 3]);
    }

    #[test]
    fn a_century_without_leap_day() {
        assert_eq!(fields("(ts 1 1900 3 1 0 0)"), [1900, 2, 28, 23, 59]);
    }

    #[test]
    fn values_become_events() {
        for (line, want) in [
            ("(i64 0)", "i+ whole"),
            ("(i64 -256)", "i-0100 whole"),
            ("(int -ff)", "i-ff whole"),
            ("(null sexp)", "n12 whole"),
            ("(f32 3fc00000)", "f3ff8000000000000 whole"),
            ("(f64 8000000000000000)", "f8000000000000000 whole"),
            ("(dec -0 5)", "d-:5 whole"),
            ("(ts 60 2026 3 14 20 30 1 3 7)", "t60:2026,3,14,19,30,1:3,07 whole"),
            ("(list (symbol 300) (string 61) (clob 62) (blob 63))", "[ s300 u61 c62 o63 . whole"),
            (
                "(ann (10 70000) (struct (4 (list (bool 1))) (70000 (ann (12) (sexp))) (5 (ann (6) (bool 0)))))",
                "10::70000::{ 4=[ b1 . 70000=12::( . 5=6::b0 . whole",
            ),
        ] {
            let parsed = form::parse(line.as_bytes()).expect("of the form");
            assert_eq!(text::line(&events(&parsed), Ending::Whole), want, "{line}");
        }
        let narrow = Event::Scalar { name: Some(4), annotations: vec![5], value: Scalar::Float(Float::Binary32(0x3fc0_0000)) };
        assert_eq!(text::line(&by_value(vec![narrow, Event::End]), Ending::Whole), "4=5::f3ff8000000000000 . whole");
    }
}
