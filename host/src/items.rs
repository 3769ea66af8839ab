use core::fmt;

use crate::{sys, IonType, Precision};

/// What a reader hands out: a version marker, or a value with its name and its annotations. Nothing is copied: what it holds are numbers
/// and parts of the stream.
#[derive(Clone, Copy, Debug)]
#[non_exhaustive]
pub struct Item<'a> {
    /// The sid of its name; only what stands in a struct has one.
    pub name: Option<u64>,
    /// Its annotations.
    pub annotations: Annotations<'a>,
    /// The value, or the marker.
    pub value: Value<'a>,
    /// Where it begins in the stream: its name in a struct, its wrapper if it is annotated.
    pub place: usize,
}

/// What an item is, by its type.
#[derive(Clone, Copy, Debug)]
#[non_exhaustive]
pub enum Value<'a> {
    /// A version marker, which is no value.
    VersionMarker,
    /// A null of a type.
    Null(IonType),
    /// A bool.
    Bool(bool),
    /// An int of any size.
    Int {
        /// Its sign.
        negative: bool,
        /// From its highest byte on; there may be leading zeros, and no bytes are zero.
        magnitude: &'a [u8],
    },
    /// A float.
    Float(Float),
    /// A decimal.
    Decimal(ReadDecimal<'a>),
    /// A timestamp.
    Timestamp(ReadTimestamp<'a>),
    /// A symbol by its sid.
    Symbol(u64),
    /// A string.
    String(&'a str),
    /// A clob.
    Clob(&'a [u8]),
    /// A blob.
    Blob(&'a [u8]),
    /// A list: `Reader::step_in` goes into it.
    List,
    /// An s-expression: `Reader::step_in` goes into it.
    SExp,
    /// A struct, sorted or not: `Reader::step_in` goes into it.
    Struct,
}

impl Value<'_> {
    /// The number of an int, if signed 64 bits hold it.
    #[must_use]
    pub fn as_i64(&self) -> Option<i64> {
        let Value::Int { negative, magnitude } = *self else {
            return None;
        };
        let magnitude = Magnitude::from(magnitude).to_u64()?;
        match negative {
            true => 0i64.checked_sub_unsigned(magnitude),
            false => i64::try_from(magnitude).ok(),
        }
    }

    /// Whether `Reader::step_in` goes into it.
    #[must_use]
    pub fn is_container(&self) -> bool {
        matches!(self, Value::List | Value::SExp | Value::Struct)
    }
}

/// A float by its bits, in the width that the stream has.
#[derive(Clone, Copy, Debug, PartialEq, Eq, Hash)]
pub enum Float {
    /// No bits are 0e0.
    Zero,
    /// The bits of binary32.
    Binary32(u32),
    /// The bits of binary64.
    Binary64(u64),
}

impl Float {
    /// The number; every binary32 is one of binary64.
    #[must_use]
    pub fn value(self) -> f64 {
        match self {
            Float::Zero => 0.0,
            Float::Binary32(bits) => f64::from(f32::from_bits(bits)),
            Float::Binary64(bits) => f64::from_bits(bits),
        }
    }
}

/// A number without sign: its bytes are those of a part of the stream, the sign bit aside.
#[derive(Clone, Copy)]
pub struct Magnitude<'a> {
    first: u8,
    rest: &'a [u8],
}

impl<'a> Magnitude<'a> {
    /// The sign and the magnitude of an Int: the top bit of its first byte is the sign.
    pub(crate) fn of_int(bytes: &'a [u8]) -> (bool, Self) {
        match bytes.split_first() {
            Some((first, rest)) => (
                first & 0x80 != 0,
                Magnitude {
                    first: first & 0x7F,
                    rest,
                },
            ),
            None => (false, Magnitude { first: 0, rest: &[] }),
        }
    }

    /// Its bytes from the highest on, without leading zeros; zero has none.
    pub fn bytes(self) -> impl Iterator<Item = u8> + 'a {
        core::iter::once(self.first)
            .chain(self.rest.iter().copied())
            .skip_while(|byte| *byte == 0)
    }

    /// Whether it is 0.
    #[must_use]
    pub fn is_zero(self) -> bool {
        self.bytes().next().is_none()
    }

    /// The number, if 64 bits hold it.
    #[must_use]
    pub fn to_u64(self) -> Option<u64> {
        self.to_u128().and_then(|number| u64::try_from(number).ok())
    }

    /// The number, if 128 bits hold it.
    #[must_use]
    pub fn to_u128(self) -> Option<u128> {
        self.bytes()
            .try_fold(0u128, |number, byte| Some(number.checked_mul(256)? + u128::from(byte)))
    }
}

impl<'a> From<&'a [u8]> for Magnitude<'a> {
    /// From the highest byte on.
    fn from(bytes: &'a [u8]) -> Self {
        Magnitude { first: 0, rest: bytes }
    }
}

impl PartialEq for Magnitude<'_> {
    fn eq(&self, other: &Self) -> bool {
        self.bytes().eq(other.bytes())
    }
}

impl Eq for Magnitude<'_> {}

impl fmt::Debug for Magnitude<'_> {
    fn fmt(&self, f: &mut fmt::Formatter<'_>) -> fmt::Result {
        f.write_str("0x")?;
        self.bytes().try_for_each(|byte| write!(f, "{byte:02x}"))
    }
}

/// A decimal as a stream has it. Negative zero is a value of its own.
#[derive(Clone, Copy, Debug, PartialEq, Eq)]
#[non_exhaustive]
pub struct ReadDecimal<'a> {
    /// Its sign.
    pub negative: bool,
    /// Its digits, as a number without sign.
    pub coefficient: Magnitude<'a>,
    /// The power of ten.
    pub exponent: i64,
}

/// A timestamp as a stream has it, by its UTC fields. `local` has the local ones.
#[derive(Clone, Copy, Debug, PartialEq, Eq)]
#[non_exhaustive]
pub struct ReadTimestamp<'a> {
    /// The last field that it has.
    pub precision: Precision,
    /// Minutes east of UTC; `None` is the unknown offset.
    pub offset: Option<i64>,
    /// The fields of UTC. The year is 0 to 10000.
    pub utc: Fields,
    /// The digits behind its second.
    pub fraction: Option<Fraction<'a>>,
    /// The out-of-calendar mark of document 02, Item 2: the UTC year, or the local year where there is a time of day (minute or second
    /// precision), is outside 1 to 9999. An unknown offset shifts nothing; a known one on a date alone does not count. The mark follows
    /// from the other fields and is no part of the value. What a [`Writer`](crate::Writer) wrote never has it.
    pub out_of_calendar: bool,
}

/// A date and a time of day, of the Gregorian calendar in both directions. Fields past a timestamp's precision are 1 or 0, the least.
#[derive(Clone, Copy, Debug, PartialEq, Eq, Hash)]
pub struct Fields {
    /// 0 is the year before 1, and those before are negative.
    pub year: i64,
    /// 1 to 12.
    pub month: u32,
    /// 1 to the month's last.
    pub day: u32,
    /// 0 to 23.
    pub hour: u32,
    /// 0 to 59.
    pub minute: u32,
    /// 0 to 59.
    pub second: u32,
}

/// The digits behind a second: how many, at least one, and the number that they make, which has no more digits.
#[derive(Clone, Copy, Debug, PartialEq, Eq)]
#[non_exhaustive]
pub struct Fraction<'a> {
    /// How many.
    pub digits: u64,
    /// The number that they make.
    pub coefficient: Magnitude<'a>,
}

impl ReadTimestamp<'_> {
    /// The fields where the offset is counted in. Without a time of day, or with an unknown offset, they are those of UTC.
    /// Every offset of 64 bits has its date, so the year may be far from the calendar's.
    #[must_use]
    pub fn local(&self) -> Fields {
        let has_time = matches!(self.precision, Precision::Minute | Precision::Second);
        match self.offset {
            Some(minutes) if has_time => self.utc.later(minutes),
            _ => self.utc,
        }
    }
}

/// Days of 400 years.
const CYCLE: i64 = 146_097;

impl Fields {
    fn later(self, minutes: i64) -> Fields {
        let of_day = i64::from(self.hour) * 60 + i64::from(self.minute);
        // the offset apart by days and minutes first, so that no sum leaves 64 bits
        let minute = of_day + minutes.rem_euclid(1440);
        let days = self.days() + minutes.div_euclid(1440) + minute.div_euclid(1440);
        let minute = minute.rem_euclid(1440) as u32;
        Fields {
            hour: minute / 60,
            minute: minute % 60,
            second: self.second,
            ..Fields::of_days(days)
        }
    }

    /// The days from the first of March of the year 0.
    fn days(self) -> i64 {
        // years from March on, so that a leap day is the last of its year
        let month = (i64::from(self.month) + 9) % 12;
        let year = self.year - month / 10;
        let of_cycle = year.rem_euclid(400);
        let of_year = (153 * month + 2) / 5 + i64::from(self.day) - 1;
        year.div_euclid(400) * CYCLE + of_cycle * 365 + of_cycle / 4 - of_cycle / 100 + of_year
    }

    fn of_days(days: i64) -> Fields {
        let of_cycle = days.rem_euclid(CYCLE);
        let year_of_cycle = (of_cycle - of_cycle / 1460 + of_cycle / 36_524 - of_cycle / 146_096) / 365;
        let of_year = of_cycle - (365 * year_of_cycle + year_of_cycle / 4 - year_of_cycle / 100);
        let month = (5 * of_year + 2) / 153;
        let day = of_year - (153 * month + 2) / 5 + 1;
        Fields {
            year: days.div_euclid(CYCLE) * 400 + year_of_cycle + month / 10,
            month: ((month + 2) % 12 + 1) as u32,
            day: day as u32,
            hour: 0,
            minute: 0,
            second: 0,
        }
    }
}

/// The sids of a value's annotations, in their order.
#[derive(Clone, Copy)]
pub struct Annotations<'a> {
    sids: &'a [u8],
    position: usize,
}

impl<'a> Annotations<'a> {
    pub(crate) fn new(sids: &'a [u8]) -> Self {
        Annotations { sids, position: 0 }
    }

    /// Whether none is left.
    #[must_use]
    pub fn is_empty(&self) -> bool {
        self.position >= self.sids.len()
    }
}

impl Iterator for Annotations<'_> {
    type Item = u64;

    fn next(&mut self) -> Option<u64> {
        if self.is_empty() {
            return None;
        }
        // the item that has these sids was read with them, so none is refused
        let (sid, next) = sys::read_sid(self.sids, self.position).ok()?;
        self.position = next;
        Some(sid)
    }
}

impl fmt::Debug for Annotations<'_> {
    fn fmt(&self, f: &mut fmt::Formatter<'_>) -> fmt::Result {
        f.debug_list().entries(*self).finish()
    }
}

#[cfg(test)]
mod tests {
    use super::*;

    fn day(year: i64, month: u32, day: u32) -> Fields {
        Fields {
            year,
            month,
            day,
            hour: 0,
            minute: 0,
            second: 0,
        }
    }

    #[test]
    fn days_are_counted_through_the_calendar() {
        assert_eq!(day(0, 3, 1).days(), 0);
        assert_eq!(day(2000, 3, 1).days(), 5 * CYCLE);
        let mut days = day(-1, 12, 31).days();
        for year in 0..=10_000 {
            for month in 1..=12 {
                let leap = year % 4 == 0 && (year % 100 != 0 || year % 400 == 0);
                let last = match month {
                    2 if leap => 29,
                    2 => 28,
                    4 | 6 | 9 | 11 => 30,
                    _ => 31,
                };
                for of_month in 1..=last {
                    days += 1;
                    assert_eq!(day(year, month, of_month).days(), days);
                    assert_eq!(Fields::of_days(days), day(year, month, of_month));
                }
            }
        }
    }

    #[test]
    fn offsets_move_the_fields() {
        let new_year = day(2000, 1, 1);
        assert_eq!(
            new_year.later(-1),
            Fields {
                hour: 23,
                minute: 59,
                ..day(1999, 12, 31)
            }
        );
        assert_eq!(
            new_year.later(1441),
            Fields {
                minute: 1,
                ..day(2000, 1, 2)
            }
        );
        let latest = Fields {
            hour: 23,
            minute: 59,
            second: 59,
            ..day(10_000, 12, 31)
        };
        // the ends of 64 bits, counted back again by halves
        for minutes in [i64::MAX, i64::MIN] {
            let far = latest.later(minutes);
            assert_eq!(far.year.abs() / 1_000_000_000_000, 17);
            assert_eq!(far.later(-(minutes / 2)).later(-(minutes - minutes / 2)), latest);
        }
    }

    #[test]
    fn magnitudes_drop_sign_and_zeros() {
        let (negative, magnitude) = Magnitude::of_int(&[0x80, 0x00, 0x01, 0x02]);
        assert!(negative);
        assert!(magnitude.bytes().eq([1, 2]));
        assert_eq!(magnitude.to_u64(), Some(0x102));
        assert_eq!(Magnitude::of_int(&[0x80]), (true, Magnitude::from(&[][..])));
        assert!(Magnitude::of_int(&[]).1.is_zero());
        assert_eq!(Magnitude::from(&[0xFF; 16][..]).to_u128(), Some(u128::MAX));
        assert_eq!(Magnitude::from(&[1; 17][..]).to_u128(), None);
    }
}
