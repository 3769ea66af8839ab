use crate::Magnitude;

/// A type of the Ion data model, by its code in the binary encoding.
#[derive(Clone, Copy, Debug, PartialEq, Eq, Hash)]
#[repr(u8)]
pub enum IonType {
    /// The null of no other type.
    Null = 0,
    /// True and false.
    Bool = 1,
    /// Ints of any size.
    Int = 2,
    /// Floats of binary32 and binary64.
    Float = 4,
    /// Decimals.
    Decimal = 5,
    /// Timestamps.
    Timestamp = 6,
    /// Symbols.
    Symbol = 7,
    /// Strings of Unicode text.
    String = 8,
    /// Text of no given encoding, as bytes.
    Clob = 9,
    /// Bytes.
    Blob = 10,
    /// Lists.
    List = 11,
    /// S-expressions.
    SExp = 12,
    /// Structs.
    Struct = 13,
}

/// What a closing answers of the container that it closed. A refused one answers its [`Refusal`](crate::Refusal), and no numbers.
#[derive(Clone, Copy, Debug, PartialEq, Eq, Hash)]
#[non_exhaustive]
pub struct Closed {
    /// How many bytes the container takes, its headers and annotations counted.
    pub size: u32,
    /// How many direct members it has, a struct its name and value pairs. A closed container in it is one member, whatever that holds;
    /// what was refused or abandoned in it is none.
    pub members: u32,
    /// How many bytes the close moved: those of the body if the body moves, and those of the annotation part, sum and sids, if that
    /// moves. Headers do not count, and an empty body has nothing to count. An opening reserves two bytes for each header: where the
    /// headers take just these, nothing moves and this is 0. A technician sees from it how long a close keeps the axis board busy
    /// with moving bytes.
    pub moved: u32,
}

impl Closed {
    /// From the numbers that the library puts, in their order, of four bytes each.
    #[inline]
    pub(crate) fn from_numbers(numbers: [[u8; 4]; 3]) -> Self {
        let [size, members, moved] = numbers.map(u32::from_le_bytes);
        Closed { size, members, moved }
    }
}

/// The magnitude of a decimal's coefficient. Two are equal if they are the same number, in whichever form.
#[derive(Clone, Copy, Debug)]
pub enum Coefficient<'a> {
    /// A number that 128 bits hold.
    Number(u128),
    /// From the highest byte on. Leading zero bytes are dropped, and no bytes are zero.
    Bytes(&'a [u8]),
}

impl Coefficient<'_> {
    /// Its bytes from the highest on; those of a number are laid into `room`.
    #[inline(always)]
    pub(crate) fn bytes<'s>(&'s self, room: &'s mut [u8; 16]) -> &'s [u8] {
        match *self {
            Coefficient::Bytes(bytes) => bytes,
            Coefficient::Number(number) => {
                *room = number.to_be_bytes();
                &room[number.leading_zeros() as usize / 8..]
            }
        }
    }
}

impl PartialEq for Coefficient<'_> {
    fn eq(&self, other: &Self) -> bool {
        let [mut ours, mut theirs] = [[0; 16]; 2];
        Magnitude::from(self.bytes(&mut ours)) == Magnitude::from(other.bytes(&mut theirs))
    }
}

impl Eq for Coefficient<'_> {}

/// A decimal: a sign, a coefficient and a power of ten. Two are equal if all three are, as the Ion data model has it: negative zero is a
/// value of its own, and so are 1.5 and 1.50.
#[derive(Clone, Copy, Debug, PartialEq, Eq)]
pub struct Decimal<'a> {
    /// Its sign.
    pub negative: bool,
    /// Its digits, as a number without sign.
    pub coefficient: Coefficient<'a>,
    /// The power of ten.
    pub exponent: i64,
}

impl Decimal<'static> {
    /// `coefficient` times ten to the `exponent`; 0 is positive zero.
    #[inline]
    #[must_use]
    pub const fn new(coefficient: i64, exponent: i64) -> Self {
        Decimal {
            negative: coefficient < 0,
            coefficient: Coefficient::Number(coefficient.unsigned_abs() as u128),
            exponent,
        }
    }

    /// Negative zero times ten to the `exponent`.
    #[inline]
    #[must_use]
    pub const fn negative_zero(exponent: i64) -> Self {
        Decimal {
            negative: true,
            coefficient: Coefficient::Number(0),
            exponent,
        }
    }
}

impl<'a> Decimal<'a> {
    /// A coefficient of any size, from its highest byte on.
    #[inline]
    #[must_use]
    pub const fn from_bytes(negative: bool, coefficient: &'a [u8], exponent: i64) -> Self {
        Decimal {
            negative,
            coefficient: Coefficient::Bytes(coefficient),
            exponent,
        }
    }
}

/// The last field that a timestamp has.
#[derive(Clone, Copy, Debug, PartialEq, Eq, Hash)]
#[repr(u8)]
pub enum Precision {
    /// A year alone.
    Year = 0,
    /// Year and month.
    Month = 1,
    /// A date.
    Day = 2,
    /// A date, hour and minute.
    Minute = 3,
    /// A date, hour, minute and second, with or without a fraction.
    Second = 4,
}

/// A timestamp by its local fields. Nothing is checked before the call that writes it, which refuses by 7 what is out of its range: a local
/// year outside 1 to 9999, a day that no month has, and also a UTC year outside 1 to 9999, as of 0001-01-01T00:30+01:00. Fields past the
/// precision mean nothing.
#[derive(Clone, Copy, Debug, PartialEq, Eq, Hash)]
pub struct Timestamp {
    /// The last field that counts.
    pub precision: Precision,
    /// 1 to 9999.
    pub year: u32,
    /// 1 to 12.
    pub month: u32,
    /// 1 to the month's last.
    pub day: u32,
    /// 0 to 23.
    pub hour: u32,
    /// 0 to 59.
    pub minute: u32,
    /// 0 to 59.
    pub second: u32,
    /// Minutes east of UTC, -1439 to 1439; `None` is the unknown offset.
    pub offset: Option<i32>,
    /// Count of digits, 1 to 18, and the coefficient: (3, 7) is .007.
    pub fraction: Option<(u32, u64)>,
}

impl Timestamp {
    /// A year, with unknown offset.
    #[inline]
    #[must_use]
    pub const fn year(year: u32) -> Self {
        Timestamp {
            precision: Precision::Year,
            year,
            month: 1,
            day: 1,
            hour: 0,
            minute: 0,
            second: 0,
            offset: None,
            fraction: None,
        }
    }

    /// A month, with unknown offset.
    #[inline]
    #[must_use]
    pub const fn month(year: u32, month: u32) -> Self {
        let mut value = Timestamp::year(year);
        value.precision = Precision::Month;
        value.month = month;
        value
    }

    /// A day, with unknown offset.
    #[inline]
    #[must_use]
    pub const fn day(year: u32, month: u32, day: u32) -> Self {
        let mut value = Timestamp::month(year, month);
        value.precision = Precision::Day;
        value.day = day;
        value
    }

    /// A minute, with unknown offset.
    #[inline]
    #[must_use]
    pub const fn minute(year: u32, month: u32, day: u32, hour: u32, minute: u32) -> Self {
        let mut value = Timestamp::day(year, month, day);
        value.precision = Precision::Minute;
        value.hour = hour;
        value.minute = minute;
        value
    }

    /// A second without fraction, with unknown offset.
    #[inline]
    #[must_use]
    pub const fn second(year: u32, month: u32, day: u32, hour: u32, minute: u32, second: u32) -> Self {
        let mut value = Timestamp::minute(year, month, day, hour, minute);
        value.precision = Precision::Second;
        value.second = second;
        value
    }

    /// The same with an offset in minutes east of UTC. A known offset needs minute or second precision.
    #[inline]
    #[must_use]
    pub const fn with_offset(mut self, minutes: i32) -> Self {
        self.offset = Some(minutes);
        self
    }

    /// The same with a fraction of the second, by its count of digits and its coefficient. It needs second precision.
    #[inline]
    #[must_use]
    pub const fn with_fraction(mut self, digits: u32, coefficient: u64) -> Self {
        self.fraction = Some((digits, coefficient));
        self
    }
}
