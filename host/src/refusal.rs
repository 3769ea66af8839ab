use core::fmt;

/// Why a call was refused: the writer's 1 to 8 and 10 of document 01, in their order, and 2, 4, 13 and 14 of the reader.
/// A refused call leaves state and buffer as they were. docs/REFUSALS.md has each with a way to meet it.
#[derive(Clone, Copy, Debug, PartialEq, Eq, Hash)]
#[non_exhaustive]
pub enum Refusal {
    /// The buffer is longer than [`LONGEST_BUFFER`](crate::LONGEST_BUFFER).
    BufferTooLong,
    /// The state does not fit the buffer or itself; of a reader, the position is past the stream's end.
    StateUnfit,
    /// The call cannot stand here.
    Misplaced,
    /// [`MOST_OPEN`](crate::MOST_OPEN) containers are open.
    TooDeep,
    /// An int with a negative sign and magnitude zero.
    NegativeZero,
    /// A string that is not UTF-8.
    NotUtf8,
    /// A field out of its range, or else a UTC year outside 1 to 9999.
    BadTimestamp,
    /// A decimal whose exponent and coefficient take more than 32 bytes.
    DecimalTooLong,
    /// The used length would pass the buffer.
    NoRoom,
    /// Bytes outside the grammar of Ion 1.0.
    NotIon,
    /// The stream stops inside a value, a pad or a version marker.
    CutShort,
    /// A number that this crate has no name for: the library is of another version.
    Unknown(u8),
}

impl Refusal {
    /// The number in document 01, or the one that is not known.
    #[must_use]
    pub const fn number(self) -> u8 {
        match self {
            Refusal::BufferTooLong => 1,
            Refusal::StateUnfit => 2,
            Refusal::Misplaced => 3,
            Refusal::TooDeep => 4,
            Refusal::NegativeZero => 5,
            Refusal::NotUtf8 => 6,
            Refusal::BadTimestamp => 7,
            Refusal::DecimalTooLong => 8,
            Refusal::NoRoom => 10,
            Refusal::NotIon => 13,
            Refusal::CutShort => 14,
            Refusal::Unknown(number) => number,
        }
    }
}

impl TryFrom<u8> for Refusal {
    type Error = NotARefusal;

    /// The refusal with this number. 0, which accepts, is none, nor are 11 and 12, which only trial lines meet.
    fn try_from(number: u8) -> Result<Self, NotARefusal> {
        Ok(match number {
            1 => Refusal::BufferTooLong,
            2 => Refusal::StateUnfit,
            3 => Refusal::Misplaced,
            4 => Refusal::TooDeep,
            5 => Refusal::NegativeZero,
            6 => Refusal::NotUtf8,
            7 => Refusal::BadTimestamp,
            8 => Refusal::DecimalTooLong,
            10 => Refusal::NoRoom,
            13 => Refusal::NotIon,
            14 => Refusal::CutShort,
            _ => return Err(NotARefusal(number)),
        })
    }
}

/// A number that no [`Refusal`] has.
#[derive(Clone, Copy, Debug, PartialEq, Eq, Hash)]
pub struct NotARefusal(pub u8);

impl fmt::Display for NotARefusal {
    fn fmt(&self, f: &mut fmt::Formatter<'_>) -> fmt::Result {
        write!(f, "{} is the number of no refusal", self.0)
    }
}

impl core::error::Error for NotARefusal {}

/// The answer that an entry point's number stands for: 0 is accepted.
#[inline]
pub(crate) fn answer(number: u8) -> Result<(), Refusal> {
    match number {
        0 => Ok(()),
        _ => Err(refusal(number)),
    }
}

// cold, so that none of it stands in the way of an accepted call
#[cold]
#[inline(never)]
fn refusal(number: u8) -> Refusal {
    Refusal::try_from(number).unwrap_or(Refusal::Unknown(number))
}

impl fmt::Display for Refusal {
    fn fmt(&self, f: &mut fmt::Formatter<'_>) -> fmt::Result {
        let why = match self {
            Refusal::BufferTooLong => "the buffer is longer than 16,777,215 bytes",
            Refusal::StateUnfit => "the state does not fit the buffer or itself, or a position lies past a stream's end",
            Refusal::Misplaced => {
                "the call is out of place: a name, value, close, abandonment, marker, emptying or step that cannot stand here"
            }
            Refusal::TooDeep => "32 containers are open",
            Refusal::NegativeZero => "an int with a negative sign has magnitude zero",
            Refusal::NotUtf8 => "the string is not UTF-8",
            Refusal::BadTimestamp => "a field of the timestamp is out of its range, or its UTC year outside 1 to 9999",
            Refusal::DecimalTooLong => "the decimal's body is over 32 bytes",
            Refusal::NoRoom => "the buffer has no room",
            Refusal::NotIon => "the bytes are outside the grammar of Ion 1.0",
            Refusal::CutShort => "the stream stops inside a value, a pad or a version marker",
            Refusal::Unknown(number) => {
                write!(f, "the library answered {number}, which is no refusal of this crate: ")?;
                return f.write_str("crate and library are of different versions");
            }
        };
        write!(f, "{} (refusal {})", why, self.number())
    }
}

impl core::error::Error for Refusal {}

/// Why a reader stopped, and where the item begins that does not read: a field where its name begins, an annotated value where its
/// wrapper begins.
#[derive(Clone, Copy, Debug, PartialEq, Eq, Hash)]
pub struct ReadRefusal {
    /// Why.
    pub refusal: Refusal,
    /// The byte at which the item begins.
    pub place: usize,
}

impl fmt::Display for ReadRefusal {
    fn fmt(&self, f: &mut fmt::Formatter<'_>) -> fmt::Result {
        match self.refusal {
            Refusal::StateUnfit => f.write_str("the position is past the stream's end (refusal 2)")?,
            Refusal::TooDeep => f.write_str("a thirty-third container would be open (refusal 4)")?,
            refusal => write!(f, "{refusal}")?,
        }
        write!(f, " at byte {}", self.place)
    }
}

impl core::error::Error for ReadRefusal {}

#[cfg(test)]
mod tests {
    extern crate std;

    use super::*;
    use std::string::ToString;

    #[test]
    fn every_number_has_its_answer_and_its_words() {
        for number in 0..=u8::MAX {
            let expected = match number {
                0 => Ok(()),
                1 => Err(Refusal::BufferTooLong),
                2 => Err(Refusal::StateUnfit),
                3 => Err(Refusal::Misplaced),
                4 => Err(Refusal::TooDeep),
                5 => Err(Refusal::NegativeZero),
                6 => Err(Refusal::NotUtf8),
                7 => Err(Refusal::BadTimestamp),
                8 => Err(Refusal::DecimalTooLong),
                10 => Err(Refusal::NoRoom),
                13 => Err(Refusal::NotIon),
                14 => Err(Refusal::CutShort),
                _ => Err(Refusal::Unknown(number)),
            };
            assert_eq!(answer(number), expected);
            if let Err(why) = expected {
                assert_eq!(why.number(), number);
                let end = match why {
                    Refusal::Unknown(_) => "are of different versions".to_string(),
                    _ => std::format!("(refusal {number})"),
                };
                assert!(why.to_string().ends_with(&end), "{why}");
                assert!(why.to_string().contains(&number.to_string()), "{why}");
            }
        }
    }
}
