//! What the host crate and the entry points below it answer, in the model's words.

pub mod judge;

use compare::reading::{self, fields, Container, Ending, Event, Item, Place, Refusal, Scalar};
use compare::value::{Signed, Type};
use goatminute::{sys, Float, Fraction, IonType, Magnitude, Precision, ReadRefusal, ReadTimestamp, Reader, Value};

/// An answer that the model has no word for.
pub type Odd = String;

/// The type byte of no item.
const NOTHING: u8 = 0xff;

/// A walk through the host crate's reader, every container entered.
pub fn walk(stream: &[u8], position: usize) -> Result<(Vec<Event>, Ending), Odd> {
    let mut reader = Reader::at(stream, position);
    let mut events = Vec::new();
    loop {
        match reader.next() {
            Some(Ok(item)) => {
                let event = event(&item)?;
                if item.value.is_container() {
                    reader.step_in().map_err(|refused| format!("a step into a container: {refused}"))?;
                }
                events.push(event);
            }
            Some(Err(refused)) => return Ok((events, ending(Err(refused))?)),
            None if reader.depth() == 0 => return Ok((events, Ending::Whole)),
            None => {
                reader.step_out().map_err(|refused| format!("a step out of a container: {refused}"))?;
                events.push(Event::End);
            }
        }
    }
}

/// A walk whose containers are not entered: how it ended.
pub fn pass_over(stream: &[u8], position: usize) -> Result<Ending, Odd> {
    ending(Reader::at(stream, position).try_for_each(|item| item.map(drop)))
}

pub fn rest(stream: &[u8], place: Place) -> Result<Ending, Odd> {
    ending(sys::read_rest(stream, lent(place)))
}

pub fn item(stream: &[u8], place: Place) -> Result<Result<Option<Item>, Refusal>, Odd> {
    let parts = match sys::read_item(stream, lent(place)) {
        Ok(parts) => parts,
        Err(why) => return refusal(why).map(Err),
    };
    Ok(Ok((parts.kind != NOTHING).then_some(Item {
        name: parts.name,
        sids: parts.sids..parts.sids_end,
        kind: parts.kind,
        body: parts.start..parts.stop,
    })))
}

fn lent(place: Place) -> sys::Place {
    let Place { end, parent, least, depth, position } = place;
    sys::Place { end, parent, least, depth, position }
}

fn refusal(why: goatminute::Refusal) -> Result<Refusal, Odd> {
    let all = [Refusal::PastTheEnd, Refusal::TooDeep, Refusal::NotIon, Refusal::CutShort];
    let named = all.into_iter().find(|refusal| refusal.number() == why.number());
    named.ok_or_else(|| format!("refusal {}", why.number()))
}

fn ending(read: Result<(), ReadRefusal>) -> Result<Ending, Odd> {
    match read {
        Ok(()) => Ok(Ending::Whole),
        Err(refused) => Ok(Ending::Refused { refusal: refusal(refused.refusal)?, place: refused.place }),
    }
}

fn event(item: &goatminute::Item) -> Result<Event, Odd> {
    let name = item.name;
    let annotations = item.annotations.collect();
    let scalar = |value| Ok(Event::Scalar { name, annotations: item.annotations.collect(), value });
    let begin = |container| Ok(Event::Begin { name, annotations, container });
    match item.value {
        Value::VersionMarker => Ok(Event::Marker),
        Value::Null(kind) => scalar(Scalar::Null(ion_type(kind))),
        Value::Bool(value) => scalar(Scalar::Bool(value)),
        Value::Int { negative, magnitude } => {
            scalar(Scalar::Int(Signed { negative, magnitude: fields::significant(magnitude).to_vec() }))
        }
        Value::Float(float) => scalar(Scalar::Float(match float {
            Float::Zero => reading::Float::Zero,
            Float::Binary32(bits) => reading::Float::Binary32(bits),
            Float::Binary64(bits) => reading::Float::Binary64(bits),
        })),
        Value::Decimal(decimal) => scalar(Scalar::Decimal {
            coefficient: Signed { negative: decimal.negative, magnitude: bytes(decimal.coefficient) },
            exponent: decimal.exponent,
        }),
        Value::Timestamp(read) => scalar(Scalar::Timestamp { value: timestamp(read), out_of_calendar: read.out_of_calendar }),
        Value::Symbol(sid) => scalar(Scalar::Symbol(sid)),
        Value::String(text) => scalar(Scalar::String(text.as_bytes().to_vec())),
        Value::Clob(bytes) => scalar(Scalar::Clob(bytes.to_vec())),
        Value::Blob(bytes) => scalar(Scalar::Blob(bytes.to_vec())),
        Value::List => begin(Container::List),
        Value::SExp => begin(Container::Sexp),
        Value::Struct => begin(Container::Struct),
        other => Err(format!("{other:?}")),
    }
}

fn bytes(magnitude: Magnitude) -> Vec<u8> {
    magnitude.bytes().collect()
}

fn timestamp(read: ReadTimestamp) -> reading::Timestamp {
    let count = match read.precision {
        Precision::Year => 1,
        Precision::Month => 2,
        Precision::Day => 3,
        Precision::Minute => 5,
        Precision::Second => 6,
    };
    let utc = read.utc;
    let fields = [utc.year as u64, utc.month.into(), utc.day.into(), utc.hour.into(), utc.minute.into(), utc.second.into()];
    reading::Timestamp {
        offset: read.offset,
        fields: fields[..count].to_vec(),
        fraction: read
            .fraction
            .map(|Fraction { digits, coefficient, .. }| reading::Fraction { digits, coefficient: bytes(coefficient) }),
    }
}

fn ion_type(kind: IonType) -> Type {
    match kind {
        IonType::Null => Type::Null,
        IonType::Bool => Type::Bool,
        IonType::Int => Type::Int,
        IonType::Float => Type::Float,
        IonType::Decimal => Type::Decimal,
        IonType::Timestamp => Type::Timestamp,
        IonType::Symbol => Type::Symbol,
        IonType::String => Type::String,
        IonType::Clob => Type::Clob,
        IonType::Blob => Type::Blob,
        IonType::List => Type::List,
        IonType::SExp => Type::Sexp,
        IonType::Struct => Type::Struct,
    }
}

/// A decimal's body by its entry point.
pub fn decimal(body: &[u8]) -> Result<Result<Scalar, Refusal>, Odd> {
    let [negative, exponent, start] = match sys::read_decimal(body) {
        Ok(numbers) => numbers,
        Err(why) => return refusal(why).map(Err),
    };
    let coefficient = body.get(start as usize..).ok_or("a coefficient past the body")?;
    Ok(Ok(Scalar::Decimal { coefficient: fields::int(coefficient), exponent: signed(negative, exponent) }))
}

/// A timestamp's body by its entry point. Numbers of fields that are not there must be 0.
pub fn timestamp_body(body: &[u8]) -> Result<Result<Scalar, Refusal>, Odd> {
    let numbers = match sys::read_timestamp(body) {
        Ok(numbers) => numbers,
        Err(why) => return refusal(why).map(Err),
    };
    let [known, negative, minutes, count] = [numbers[0], numbers[1], numbers[2], numbers[3]];
    let (fields, absent) = numbers[4..10].split_at(count.min(6) as usize);
    let mark = numbers[12];
    if absent.iter().any(|field| *field != 0) || known > 1 || negative > 1 || mark > 1 {
        return Err(format!("{numbers:?}"));
    }
    let fraction = match numbers[10] {
        0 => None,
        digits => {
            let coefficient = body.get(numbers[11] as usize..).ok_or("a coefficient past the body")?;
            Some(reading::Fraction { digits, coefficient: fields::int(coefficient).magnitude })
        }
    };
    let offset = (known == 1).then(|| signed(negative, minutes));
    let value = reading::Timestamp { offset, fields: fields.to_vec(), fraction };
    Ok(Ok(Scalar::Timestamp { value, out_of_calendar: mark == 1 }))
}

pub fn symbol(body: &[u8]) -> Result<Result<Scalar, Refusal>, Odd> {
    match sys::read_symbol(body) {
        Ok(sid) => Ok(Ok(Scalar::Symbol(sid))),
        Err(why) => refusal(why).map(Err),
    }
}

/// A sid at a position, and the position behind it.
pub fn sid(part: &[u8], position: usize) -> Result<Result<(u64, usize), Refusal>, Odd> {
    match sys::read_sid(part, position) {
        Ok(sid) => Ok(Ok(sid)),
        Err(why) => refusal(why).map(Err),
    }
}

fn signed(negative: u64, magnitude: u64) -> i64 {
    match negative {
        0 => magnitude as i64,
        _ => 0i64.wrapping_sub_unsigned(magnitude),
    }
}
