//! The refusals of a trial line (document 01, "Checks by place" and "Trial program"; document 02, Item 2).
//!
//! 1, 2 and 3 are out of a line's reach. So is 10: a line of 4,096 bytes spells less than 4,096
//! bytes, reserves of open containers counted, and the buffer has 16,384.

use crate::form;
use crate::value::{Annotated, Fraction, Signed, Symbol, Timestamp, Value};

pub const LINE_LIMIT: usize = 4096;
pub const DEPTH_LIMIT: usize = 32;
const DECIMAL_BODY_LIMIT: usize = 32;

/// One way for a line to be refused. Document 01's numbers 12 and 7 are parted by what the Rust
/// makes of them.
#[derive(Clone, Copy, Debug, PartialEq, Eq)]
pub enum Fault {
    /// Not of the form.
    Form,
    /// Of the form, but over 4,096 bytes.
    Length,
    /// A text symbol, name or annotation.
    Text,
    /// An opening with 32 open.
    Depth,
    /// Negative sign, magnitude zero.
    NegativeZero,
    NotUtf8,
    Timestamp,
    /// No fraction digits and a fraction of zero, the local fields and the offset in order.
    NoFractionDigits,
    /// A UTC year outside 1 to 9999, the local fields and the offset in order.
    UtcYear,
    DecimalBody,
}

impl Fault {
    /// The number in document 01's table.
    pub fn number(self) -> u8 {
        match self {
            Fault::Depth => 4,
            Fault::NegativeZero => 5,
            Fault::NotUtf8 => 6,
            Fault::Timestamp | Fault::NoFractionDigits | Fault::UtcYear => 7,
            Fault::DecimalBody => 8,
            Fault::Text => 11,
            Fault::Form | Fault::Length => 12,
        }
    }
}

/// All faults of a line in the order in which document 01 meets them: the first one answers, and a
/// line without faults is accepted.
pub fn faults(line: &[u8]) -> Vec<Fault> {
    let Some(value) = form::parse(line) else {
        return vec![Fault::Form];
    };
    let mut calls = Calls { open: 0, faults: Vec::new() };
    if line.len() > LINE_LIMIT {
        calls.faults.push(Fault::Length);
    }
    calls.write(&value);
    calls.faults
}

/// The number that document 01 answers, or `None` for bytes.
pub fn number(line: &[u8]) -> Option<u8> {
    faults(line).first().map(|fault| fault.number())
}

/// The calls of a line from left to right. They go on after a refusal, to find all faults.
struct Calls {
    open: usize,
    faults: Vec<Fault>,
}

impl Calls {
    fn write(&mut self, annotated: &Annotated) {
        let Annotated { annotations, value } = annotated;
        // Text comes before the call's other checks.
        let is_text = |symbol: &Symbol| *symbol == Symbol::Text;
        if annotations.iter().any(is_text) || *value == Value::Symbol(Symbol::Text) {
            self.faults.push(Fault::Text);
        }
        match value {
            Value::List(members) | Value::Sexp(members) => {
                self.open();
                members.iter().for_each(|member| self.write(member));
                self.open -= 1;
            }
            Value::Struct(fields) => {
                self.open();
                for (name, member) in fields {
                    if is_text(name) {
                        self.faults.push(Fault::Text);
                    }
                    self.write(member);
                }
                self.open -= 1;
            }
            Value::Timestamp(timestamp) => self.faults.extend(timestamp_faults(timestamp)),
            scalar => self.faults.extend(scalar_fault(scalar)),
        }
    }

    fn open(&mut self) {
        if self.open >= DEPTH_LIMIT {
            self.faults.push(Fault::Depth);
        }
        self.open += 1;
    }
}

fn scalar_fault(value: &Value) -> Option<Fault> {
    match value {
        Value::Int(int) if int.negative && int.is_zero() => Some(Fault::NegativeZero),
        Value::String(bytes) if std::str::from_utf8(bytes).is_err() => Some(Fault::NotUtf8),
        Value::Decimal { coefficient, exponent } => {
            let body = decimal_body_len(coefficient, *exponent);
            (body > DECIMAL_BODY_LIMIT).then_some(Fault::DecimalBody)
        }
        _ => None,
    }
}

pub(crate) fn decimal_body_len(coefficient: &Signed, exponent: i64) -> usize {
    let coefficient_len = match coefficient.magnitude.first() {
        Some(first) => coefficient.magnitude.len() + usize::from(*first >= 0x80),
        None => usize::from(coefficient.negative),
    };
    if exponent == 0 && coefficient_len == 0 {
        return 0;
    }
    var_int_len(exponent) + coefficient_len
}

/// Six bits of magnitude in the first byte, seven in each other.
pub(crate) fn var_int_len(value: i64) -> usize {
    let mut rest = value.unsigned_abs() >> 6;
    let mut len = 1;
    while rest > 0 {
        rest >>= 7;
        len += 1;
    }
    len
}

/// In the order of document 02, Item 13: the fields from year to second, the offset, the fraction, the UTC year.
fn timestamp_faults(timestamp: &Timestamp) -> Vec<Fault> {
    let Timestamp { offset, fields, fraction } = timestamp;
    let year = fields[0];
    let month = fields.get(1).copied().unwrap_or(1);
    let day = fields.get(2).copied().unwrap_or(1);
    let hour = fields.get(3).copied().unwrap_or(0);
    let minute = fields.get(4).copied().unwrap_or(0);
    let second = fields.get(5).copied().unwrap_or(0);
    let in_order = (1..=9999).contains(&year)
        && (1..=12).contains(&month)
        && (1..=days_in_month(year, month)).contains(&day)
        && (0..=23).contains(&hour)
        && (0..=59).contains(&minute)
        && (0..=59).contains(&second)
        && offset.is_none_or(|o| fields.len() >= 5 && (-1439..=1439).contains(&o));
    if !in_order {
        return vec![Fault::Timestamp];
    }
    // An offset is below a day: the UTC year is another than the local one on the year's first and last day alone.
    let utc_minute = 60 * hour + minute - offset.unwrap_or(0);
    let in_year_0 = (year, month, day) == (1, 1, 1) && utc_minute < 0;
    let in_year_10000 = (year, month, day) == (9999, 12, 31) && utc_minute >= 1440;
    let utc_year = (in_year_0 || in_year_10000).then_some(Fault::UtcYear);
    fraction.and_then(fraction_fault).into_iter().chain(utc_year).collect()
}

fn fraction_fault(fraction: Fraction) -> Option<Fault> {
    match (fraction.digits, fraction.coefficient) {
        (0, 0) => Some(Fault::NoFractionDigits),
        (digits @ 1..=18, coefficient) if coefficient < 10u64.pow(digits as u32) => None,
        _ => Some(Fault::Timestamp),
    }
}

fn days_in_month(year: i32, month: i32) -> i32 {
    match month {
        2 if year % 4 == 0 && (year % 100 != 0 || year % 400 == 0) => 29,
        2 => 28,
        4 | 6 | 9 | 11 => 30,
        _ => 31,
    }
}
