//! "Basic Field Formats": bytes taken one after the other, up to an end.

use std::ops::Range;

use super::Refusal;
use crate::value::Signed;

/// The bytes of a stream from `at` to `end`. Running out of them is `out`: the stream is cut short, or what holds them is too short.
pub struct Bytes<'a> {
    pub stream: &'a [u8],
    pub at: usize,
    pub end: usize,
    pub out: Refusal,
}

impl<'a> Bytes<'a> {
    /// All bytes of a body, which is whole.
    pub fn of(body: &'a [u8]) -> Bytes<'a> {
        Bytes { stream: body, at: 0, end: body.len(), out: Refusal::NotIon }
    }

    pub fn is_empty(&self) -> bool {
        self.at == self.end
    }

    pub fn left(&self) -> &'a [u8] {
        &self.stream[self.at..self.end]
    }

    pub fn byte(&mut self) -> Result<u8, Refusal> {
        if self.is_empty() {
            return Err(self.out);
        }
        self.at += 1;
        Ok(self.stream[self.at - 1])
    }

    /// The next `length` bytes, by their places.
    pub fn part(&mut self, length: u64) -> Result<Range<usize>, Refusal> {
        if length > (self.end - self.at) as u64 {
            return Err(self.out);
        }
        let start = self.at;
        self.at += length as usize;
        Ok(start..self.at)
    }

    /// A VarUInt. One past 64 bits is outside the grammar at the byte that makes it so.
    pub fn var_uint(&mut self) -> Result<u64, Refusal> {
        let mut number = 0u64;
        loop {
            let byte = self.byte()?;
            number = append(number, byte)?;
            if byte & 0x80 != 0 {
                return Ok(number);
            }
        }
    }

    /// A VarInt: its sign and its magnitude, at most that of signed 64 bits.
    pub fn var_int(&mut self) -> Result<(bool, u64), Refusal> {
        let first = self.byte()?;
        let negative = first & 0x40 != 0;
        let mut magnitude = u64::from(first & 0x3f);
        let mut last = first;
        while last & 0x80 == 0 {
            last = self.byte()?;
            magnitude = append(magnitude, last)?;
        }
        let most = (1 << 63) - u64::from(!negative);
        match magnitude <= most {
            true => Ok((negative, magnitude)),
            false => Err(Refusal::NotIon),
        }
    }
}

/// The number with seven more bits.
fn append(number: u64, byte: u8) -> Result<u64, Refusal> {
    match number >> 57 {
        0 => Ok(number << 7 | u64::from(byte & 0x7f)),
        _ => Err(Refusal::NotIon),
    }
}

/// An Int: the top bit of its first byte is the sign.
pub fn int(bytes: &[u8]) -> Signed {
    let mut magnitude = bytes.to_vec();
    let negative = magnitude.first().is_some_and(|first| first & 0x80 != 0);
    if let Some(first) = magnitude.first_mut() {
        *first &= 0x7f;
    }
    Signed { negative, magnitude: significant(&magnitude).to_vec() }
}

/// A magnitude without its leading zeros.
pub fn significant(magnitude: &[u8]) -> &[u8] {
    let zeros = magnitude.iter().take_while(|byte| **byte == 0).count();
    &magnitude[zeros..]
}
