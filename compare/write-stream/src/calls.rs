//! The calls that spell a value.

use compare::length;
use compare::value::{Annotated, Symbol, Timestamp, Type, Value};
use goatminute::{Closed, Decimal, IonType, Precision, Refusal, WriteValues};

use crate::noise::Noise;

/// Writes a value with its annotations, and noise before each of its calls.
pub fn write(values: &mut dyn WriteValues, annotated: &Annotated, noise: &mut Noise) -> Result<(), Refusal> {
    noise.make(values);
    let sids: Vec<u64> = annotated.annotations.iter().map(sid).collect();
    let writer = values.with_annotations(&sids);
    match &annotated.value {
        Value::Null(kind) => writer.write_null(ion_type(*kind)),
        Value::Bool(value) => writer.write_bool(*value),
        Value::I64(value) => writer.write_i64(*value),
        Value::Int(int) => writer.write_int(int.negative, &int.magnitude),
        Value::F32(bits) => writer.write_f32(f32::from_bits(*bits)),
        Value::F64(bits) => writer.write_f64(f64::from_bits(*bits)),
        Value::Decimal { coefficient, exponent } => {
            writer.write_decimal(Decimal::from_bytes(coefficient.negative, &coefficient.magnitude, *exponent))
        }
        Value::Timestamp(value) => writer.write_timestamp(timestamp(value)),
        Value::Symbol(symbol) => writer.write_symbol(sid(symbol)),
        Value::String(bytes) => writer.write_string_bytes(bytes),
        Value::Clob(bytes) => writer.write_clob(bytes),
        Value::Blob(bytes) => writer.write_blob(bytes),
        Value::List(members) => {
            let mut list = writer.list_writer()?;
            members.iter().try_for_each(|member| write(&mut list, member, noise))?;
            noise.make(&mut list);
            closed(list.close(), annotated, members.len(), noise)
        }
        Value::Sexp(members) => {
            let mut sexp = writer.sexp_writer()?;
            members.iter().try_for_each(|member| write(&mut sexp, member, noise))?;
            noise.make(&mut sexp);
            closed(sexp.close(), annotated, members.len(), noise)
        }
        Value::Struct(fields) => {
            let mut record = writer.struct_writer()?;
            for (name, member) in fields {
                noise.misplaced_in(&mut record);
                record.field_name(sid(name))?;
                write(&mut record, member, noise)?;
            }
            closed(record.close(), annotated, fields.len(), noise)
        }
    }
}

/// A closing, which answers what follows from the value: its size, its members and the bytes moved. Noise is in none of them.
fn closed(answer: Result<Closed, Refusal>, container: &Annotated, members: usize, noise: &mut Noise) -> Result<(), Refusal> {
    let Closed { size, members: counted, moved, .. } = answer?;
    let want = [length::encoded(container), members, length::moved(container)];
    assert_eq!([size, counted, moved].map(|n| n as usize), want, "size, members and bytes moved of a closed container");
    noise.counts.closed += 1;
    Ok(())
}

/// Streams have no text: document 01 would not accept it.
fn sid(symbol: &Symbol) -> u64 {
    match symbol {
        Symbol::Sid(sid) => *sid,
        Symbol::Text => panic!("a text symbol in a stream"),
    }
}

fn ion_type(kind: Type) -> IonType {
    match kind {
        Type::Null => IonType::Null,
        Type::Bool => IonType::Bool,
        Type::Int => IonType::Int,
        Type::Float => IonType::Float,
        Type::Decimal => IonType::Decimal,
        Type::Timestamp => IonType::Timestamp,
        Type::Symbol => IonType::Symbol,
        Type::String => IonType::String,
        Type::Clob => IonType::Clob,
        Type::Blob => IonType::Blob,
        Type::List => IonType::List,
        Type::Sexp => IonType::SExp,
        Type::Struct => IonType::Struct,
    }
}

/// Fields past the precision have odd values, since they mean nothing.
fn timestamp(value: &Timestamp) -> goatminute::Timestamp {
    let field = |at: usize| value.fields.get(at).map_or(0xffff, |field| *field as u32);
    goatminute::Timestamp {
        precision: match value.fields.len() {
            1 => Precision::Year,
            2 => Precision::Month,
            3 => Precision::Day,
            5 => Precision::Minute,
            _ => Precision::Second,
        },
        year: field(0),
        month: field(1),
        day: field(2),
        hour: field(3),
        minute: field(4),
        second: field(5),
        offset: value.offset,
        fraction: value.fraction.map(|fraction| (fraction.digits as u32, fraction.coefficient)),
    }
}

#[cfg(test)]
mod tests {
    use super::*;
    use std::panic::catch_unwind;

    use compare::form;
    use compare::rng::Rng;
    use goatminute::Writer;

    #[test]
    fn a_closing_that_answers_another_number() {
        let list = form::parse(b"(list (bool 1))").expect("of the form");
        let mut buf = [0; 16];
        let mut writer = Writer::new(&mut buf).expect("a start");
        let mut open = writer.list_writer().expect("a list");
        open.write_bool(true).expect("a bool");
        let answer = open.close().expect("a closing");
        let is_taken = |change: fn(&mut Closed)| {
            let mut answer = answer;
            change(&mut answer);
            catch_unwind(|| closed(Ok(answer), &list, 1, &mut Noise::new(Rng::new(1))).is_ok()).unwrap_or(false)
        };
        assert!(is_taken(|_| {}));
        assert!(!is_taken(|answer| answer.size += 1));
        assert!(!is_taken(|answer| answer.members += 1));
        assert!(!is_taken(|answer| answer.moved += 1));
        assert_eq!(closed(Err(Refusal::NoRoom), &list, 1, &mut Noise::new(Rng::new(1))), Err(Refusal::NoRoom));
    }
}
