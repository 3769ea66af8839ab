//! A walk as one line of words, for vectors and for what is printed of a difference.
//!
//! `m` is a marker; `[`, `(` and `{` begin a list, an s-expression and a struct, and `.` ends one. A scalar is a letter and what
//! it holds: `n` null, by its type code; `b` bool; `i` int, sign and magnitude in hex; `f` float, its bytes in hex; `d` decimal,
//! sign and coefficient in hex, `:`, exponent; `t` timestamp, offset or `?`, `:`, UTC fields, `:`, digits of the fraction and
//! their number in hex, or nothing, and the word `out-of-calendar` behind one that is; `s` symbol; `u` string, `c` clob and `o` blob, their bytes in hex. Magnitudes and coefficients
//! are without leading zero bytes. A name stands before its value with `=`, each annotation with `::`. The last word is how the walk
//! ended: `whole`, or `!`, the number, `@` and the place.

use std::fmt::{self, Display, Formatter, Write};

use super::{Container, Ending, Event, Float, Fraction, Scalar, Timestamp};
use crate::value::{Signed, Type};

pub fn line(events: &[Event], ending: Ending) -> String {
    let mut line = String::new();
    for event in events {
        write!(line, "{event} ").expect("a string takes all");
    }
    write!(line, "{ending}").expect("a string takes all");
    line
}

impl Display for Event {
    fn fmt(&self, f: &mut Formatter) -> fmt::Result {
        match self {
            Event::Marker => f.write_char('m'),
            Event::Scalar { name, annotations, value } => {
                before(f, *name, annotations)?;
                write!(f, "{value}")
            }
            Event::Begin { name, annotations, container } => {
                before(f, *name, annotations)?;
                f.write_char(match container {
                    Container::List => '[',
                    Container::Sexp => '(',
                    Container::Struct => '{',
                })
            }
            Event::End => f.write_char('.'),
        }
    }
}

fn before(f: &mut Formatter, name: Option<u64>, annotations: &[u64]) -> fmt::Result {
    if let Some(name) = name {
        write!(f, "{name}=")?;
    }
    annotations.iter().try_for_each(|sid| write!(f, "{sid}::"))
}

impl Display for Ending {
    fn fmt(&self, f: &mut Formatter) -> fmt::Result {
        match self {
            Ending::Whole => f.write_str("whole"),
            Ending::Refused { refusal, place } => write!(f, "!{}@{place}", refusal.number()),
        }
    }
}

impl Display for Scalar {
    fn fmt(&self, f: &mut Formatter) -> fmt::Result {
        match self {
            Scalar::Null(kind) => write!(f, "n{}", type_code(*kind)),
            Scalar::Bool(value) => write!(f, "b{}", u8::from(*value)),
            Scalar::Int(int) => write!(f, "i{}", SignedHex(int)),
            Scalar::Float(Float::Zero) => f.write_char('f'),
            Scalar::Float(Float::Binary32(bits)) => write!(f, "f{bits:08x}"),
            Scalar::Float(Float::Binary64(bits)) => write!(f, "f{bits:016x}"),
            Scalar::Decimal { coefficient, exponent } => write!(f, "d{}:{exponent}", SignedHex(coefficient)),
            Scalar::Timestamp { value, out_of_calendar } => {
                write!(f, "t{value}{}", if *out_of_calendar { " out-of-calendar" } else { "" })
            }
            Scalar::Symbol(sid) => write!(f, "s{sid}"),
            Scalar::String(bytes) => write!(f, "u{}", Hex(bytes)),
            Scalar::Clob(bytes) => write!(f, "c{}", Hex(bytes)),
            Scalar::Blob(bytes) => write!(f, "o{}", Hex(bytes)),
        }
    }
}

impl Display for Timestamp {
    fn fmt(&self, f: &mut Formatter) -> fmt::Result {
        match self.offset {
            Some(minutes) => write!(f, "{minutes}:")?,
            None => f.write_str("?:")?,
        }
        for (at, field) in self.fields.iter().enumerate() {
            let comma = if at == 0 { "" } else { "," };
            write!(f, "{comma}{field}")?;
        }
        match &self.fraction {
            Some(Fraction { digits, coefficient }) => write!(f, ":{digits},{}", Hex(coefficient)),
            None => f.write_char(':'),
        }
    }
}

fn type_code(kind: Type) -> usize {
    // The list has one place for the two codes of ints.
    let at = Type::ALL.iter().position(|t| *t == kind).expect("every type is listed");
    at + usize::from(at > 2)
}

struct SignedHex<'a>(&'a Signed);

impl Display for SignedHex<'_> {
    fn fmt(&self, f: &mut Formatter) -> fmt::Result {
        write!(f, "{}{}", if self.0.negative { '-' } else { '+' }, Hex(&self.0.magnitude))
    }
}

pub struct Hex<'a>(pub &'a [u8]);

impl Display for Hex<'_> {
    fn fmt(&self, f: &mut Formatter) -> fmt::Result {
        self.0.iter().try_for_each(|byte| write!(f, "{byte:02x}"))
    }
}
