use crate::sys::{self, ItemParts, Place};
use crate::{
    Annotations, Fields, Float, Fraction, IonType, Item, Magnitude, Precision, ReadDecimal, ReadRefusal, ReadTimestamp, Refusal,
    Value, MOST_OPEN,
};

/// Reads a lent stream item by item. NOP pads are passed over.
///
/// As an iterator it hands out the items of the stream, or, after [`step_in`](Reader::step_in), those of a container, and ends where
/// that ends; [`step_out`](Reader::step_out) goes on behind the container. A container that is not entered is passed over by the next
/// call, which reads it whole: so what is refused in it is met all the same, and a walk never gets past bytes that do not read.
/// The first refusal is handed out with its place, and is the last item.
///
/// ```
/// use goatminute::{Reader, Value};
///
/// # fn main() -> Result<(), goatminute::ReadRefusal> {
/// // $ion_1_0 $20::{$10: 8125d-1, $11: [true]}
/// let mut reader = Reader::new(b"\xE0\x01\x00\xEA\xEB\x81\x94\xD8\x8A\x53\xC1\x1F\xBD\x8B\xB1\x11");
/// while let Some(item) = reader.next() {
///     let item = item?;
///     if let Value::Struct = item.value {
///         assert!(item.annotations.eq([20]));
///         reader.step_in()?;
///         for field in reader.by_ref() {
///             let field = field?;
///             match field.value {
///                 Value::Decimal(load) => assert_eq!((field.name, load.exponent), (Some(10), -1)),
///                 _ => assert_eq!(field.name, Some(11)),
///             }
///         }
///         reader.step_out()?;
///     }
/// }
/// assert_eq!(reader.position(), 16);
/// # Ok(())
/// # }
/// ```
#[derive(Clone, Debug)]
pub struct Reader<'a> {
    stream: &'a [u8],
    place: Place,
    /// The last item's inside, if that is a container and was neither entered nor passed over.
    inside: Option<Place>,
    /// Behind each container that was entered, in what holds it.
    outside: [Place; MOST_OPEN],
    entered: usize,
    refused: Option<ReadRefusal>,
}

impl<'a> Reader<'a> {
    /// From the stream's first byte on.
    #[must_use]
    pub fn new(stream: &'a [u8]) -> Self {
        Reader::at(stream, 0)
    }

    /// From a position on, read as a stream's beginning. One past the stream's end is refused by 2 at the first item.
    #[must_use]
    pub fn at(stream: &'a [u8], position: usize) -> Self {
        let place = Place::in_stream(stream, position);
        Reader {
            stream,
            place,
            inside: None,
            outside: [place; MOST_OPEN],
            entered: 0,
            refused: None,
        }
    }

    /// Where the next item stands, or a pad before it.
    #[must_use]
    pub fn position(&self) -> usize {
        self.place.position
    }

    /// How many containers were entered and not left.
    #[must_use]
    pub fn depth(&self) -> usize {
        self.entered
    }

    /// The refusal that ended the walk.
    #[must_use]
    pub fn refused(&self) -> Option<ReadRefusal> {
        self.refused
    }

    /// Goes into the container that was the last item: the next item is its first. Refused by 3 if the last item was none.
    pub fn step_in(&mut self) -> Result<(), ReadRefusal> {
        self.ended()?;
        let (Some(inside), Some(outside)) = (self.inside.take(), self.outside.get_mut(self.entered)) else {
            return Err(self.misplaced());
        };
        *outside = self.place;
        self.place = inside;
        self.entered += 1;
        Ok(())
    }

    /// Leaves the container that was entered last: the next item is the one behind it. What is left of it is read, so that no refusal is
    /// lost. Refused by 3 if none was entered.
    pub fn step_out(&mut self) -> Result<(), ReadRefusal> {
        self.ended()?;
        let Some(entered) = self.entered.checked_sub(1) else {
            return Err(self.misplaced());
        };
        let read = self.check();
        self.keep(read)?;
        self.inside = None;
        self.place = self.outside[entered];
        self.entered = entered;
        Ok(())
    }

    /// Reads all that is left of the stream, or of the container that was entered last, and stays where it is.
    pub fn check(&self) -> Result<(), ReadRefusal> {
        self.ended()?;
        if let Some(inside) = self.inside {
            sys::read_rest(self.stream, inside)?;
        }
        sys::read_rest(self.stream, self.place)
    }

    fn ended(&self) -> Result<(), ReadRefusal> {
        self.refused.map_or(Ok(()), Err)
    }

    fn misplaced(&self) -> ReadRefusal {
        ReadRefusal {
            refusal: Refusal::Misplaced,
            place: self.place.position,
        }
    }

    /// The answer; a refusal in it ends the walk.
    fn keep<T>(&mut self, answer: Result<T, ReadRefusal>) -> Result<T, ReadRefusal> {
        if let Err(refused) = answer {
            self.refused = Some(refused);
        }
        answer
    }

    fn read(&mut self) -> Result<Option<Item<'a>>, ReadRefusal> {
        if let Some(inside) = self.inside.take() {
            sys::read_rest(self.stream, inside)?;
        }
        loop {
            let place = self.place.position;
            let here = |refusal| ReadRefusal { refusal, place };
            let parts = sys::read_item(self.stream, self.place).map_err(here)?;
            if parts.kind == NOTHING {
                return Ok(None);
            }
            self.place.position = parts.stop;
            if parts.kind < NULL {
                continue;
            }
            return self.item(parts, place).map(Some).map_err(here);
        }
    }

    fn item(&mut self, parts: ItemParts, place: usize) -> Result<Item<'a>, Refusal> {
        let has_names = is_struct(self.place.parent);
        self.place.least = parts.name;
        let value = value(parts.kind, part(self.stream, parts.start, parts.stop)?)?;
        if value.is_container() {
            self.inside = Some(Place {
                end: parts.stop,
                parent: parts.kind,
                least: 0,
                depth: self.place.depth + 1,
                position: parts.start,
            });
        }
        Ok(Item {
            name: has_names.then_some(parts.name),
            annotations: Annotations::new(part(self.stream, parts.sids, parts.sids_end)?),
            value,
            place,
        })
    }
}

impl<'a> Iterator for Reader<'a> {
    type Item = Result<Item<'a>, ReadRefusal>;

    fn next(&mut self) -> Option<Self::Item> {
        if self.refused.is_some() {
            return None;
        }
        let read = self.read();
        self.keep(read).transpose()
    }
}

// The type bytes that are no type descriptor, and the least that is no pad.
const NOTHING: u8 = 0xFF;
const MARKER: u8 = 0xE0;
const NULL: u8 = 0x0F;

fn is_struct(kind: u8) -> bool {
    kind >> 4 == 13 && kind != 0xDF
}

/// The library answers places inside the stream.
fn part(stream: &[u8], start: usize, stop: usize) -> Result<&[u8], Refusal> {
    stream.get(start..stop).ok_or(Refusal::NotIon)
}

/// What a type byte and its body stand for. The item was read, so none is refused.
fn value(kind: u8, body: &[u8]) -> Result<Value<'_>, Refusal> {
    let code = kind >> 4;
    if kind == MARKER {
        return Ok(Value::VersionMarker);
    }
    if kind & 15 == 15 {
        return ion_type(code).map(Value::Null).ok_or(Refusal::NotIon);
    }
    Ok(match code {
        1 => Value::Bool(kind & 15 == 1),
        2 | 3 => Value::Int {
            negative: code == 3,
            magnitude: body,
        },
        4 => Value::Float(float(body)?),
        5 => Value::Decimal(decimal(body)?),
        6 => Value::Timestamp(timestamp(body)?),
        7 => Value::Symbol(sys::read_symbol(body)?),
        8 => Value::String(core::str::from_utf8(body).map_err(|_| Refusal::NotIon)?),
        9 => Value::Clob(body),
        10 => Value::Blob(body),
        11 => Value::List,
        12 => Value::SExp,
        13 => Value::Struct,
        _ => return Err(Refusal::NotIon),
    })
}

fn ion_type(code: u8) -> Option<IonType> {
    Some(match code {
        0 => IonType::Null,
        1 => IonType::Bool,
        2 | 3 => IonType::Int,
        4 => IonType::Float,
        5 => IonType::Decimal,
        6 => IonType::Timestamp,
        7 => IonType::Symbol,
        8 => IonType::String,
        9 => IonType::Clob,
        10 => IonType::Blob,
        11 => IonType::List,
        12 => IonType::SExp,
        13 => IonType::Struct,
        _ => return None,
    })
}

fn float(body: &[u8]) -> Result<Float, Refusal> {
    if body.is_empty() {
        return Ok(Float::Zero);
    }
    if let Ok(bytes) = body.try_into() {
        return Ok(Float::Binary32(u32::from_be_bytes(bytes)));
    }
    let bytes = body.try_into().map_err(|_| Refusal::NotIon)?;
    Ok(Float::Binary64(u64::from_be_bytes(bytes)))
}

/// The number of a sign and a magnitude of signed 64 bits.
fn signed(negative: u64, magnitude: u64) -> i64 {
    match negative {
        0 => magnitude as i64,
        _ => 0i64.wrapping_sub_unsigned(magnitude),
    }
}

fn decimal(body: &[u8]) -> Result<ReadDecimal<'_>, Refusal> {
    let [below_zero, exponent, start] = sys::read_decimal(body)?;
    let (negative, coefficient) = Magnitude::of_int(part(body, start as usize, body.len())?);
    Ok(ReadDecimal {
        negative,
        coefficient,
        exponent: signed(below_zero, exponent),
    })
}

fn timestamp(body: &[u8]) -> Result<ReadTimestamp<'_>, Refusal> {
    let [known, west, minutes, count, year, month, day, hour, minute, second, digits, start, mark] = sys::read_timestamp(body)?;
    let precision = match count {
        1 => Precision::Year,
        2 => Precision::Month,
        3 => Precision::Day,
        5 => Precision::Minute,
        _ => Precision::Second,
    };
    let fraction = match digits {
        0 => None,
        _ => Some(Fraction {
            digits,
            coefficient: Magnitude::of_int(part(body, start as usize, body.len())?).1,
        }),
    };
    Ok(ReadTimestamp {
        precision,
        offset: (known != 0).then(|| signed(west, minutes)),
        utc: Fields {
            year: year as i64,
            // those that are not given are 0
            month: (month as u32).max(1),
            day: (day as u32).max(1),
            hour: hour as u32,
            minute: minute as u32,
            second: second as u32,
        },
        fraction,
        out_of_calendar: mark != 0,
    })
}
