//! The form of a trial line (document 01, "Trial program"). The limit of 4,096 bytes is not part
//! of it: `refusal` has that.

use crate::value::{Annotated, Fraction, Signed, Symbol, Timestamp, Type, Value};

/// The value of a whole line, or `None` if the line has not the form.
pub fn parse(line: &[u8]) -> Option<Annotated> {
    let mut cursor = Cursor { line, at: 0 };
    let value = cursor.annotated()?;
    (cursor.at == line.len()).then_some(value)
}

struct Cursor<'a> {
    line: &'a [u8],
    at: usize,
}

impl<'a> Cursor<'a> {
    fn next_is(&self, byte: u8) -> bool {
        self.line.get(self.at) == Some(&byte)
    }

    /// Passes `text` if it stands here.
    fn pass(&mut self, text: &str) -> bool {
        let found = self.line[self.at..].starts_with(text.as_bytes());
        if found {
            self.at += text.len();
        }
        found
    }

    fn expect(&mut self, text: &str) -> Option<()> {
        self.pass(text).then_some(())
    }

    /// The longest run of bytes of a kind, one or more.
    fn run(&mut self, of_kind: fn(u8) -> bool) -> Option<&'a [u8]> {
        let rest = &self.line[self.at..];
        let length = rest.iter().position(|b| !of_kind(*b)).unwrap_or(rest.len());
        self.at += length;
        (length > 0).then_some(&rest[..length])
    }

    fn annotated(&mut self) -> Option<Annotated> {
        if !self.pass("(ann ") {
            let value = self.value()?;
            return Some(Annotated { annotations: Vec::new(), value });
        }
        self.expect("(")?;
        let mut annotations = Vec::new();
        if !self.next_is(b')') {
            annotations.push(self.symbol()?);
            while self.pass(" ") {
                annotations.push(self.symbol()?);
            }
        }
        self.expect(") ")?;
        // `value` knows no `ann`, so an `ann` holds none directly.
        let value = self.value()?;
        self.expect(")")?;
        Some(Annotated { annotations, value })
    }

    fn value(&mut self) -> Option<Value> {
        self.expect("(")?;
        let value = match self.run(|b| b.is_ascii_lowercase() || b.is_ascii_digit())? {
            b"list" => Value::List(self.members()?),
            b"sexp" => Value::Sexp(self.members()?),
            b"struct" => Value::Struct(self.fields()?),
            word => self.scalar(word)?,
        };
        self.expect(")")?;
        Some(value)
    }

    fn scalar(&mut self, word: &[u8]) -> Option<Value> {
        match word {
            b"string" => return Some(Value::String(self.pairs()?)),
            b"clob" => return Some(Value::Clob(self.pairs()?)),
            b"blob" => return Some(Value::Blob(self.pairs()?)),
            // All others have a part, and so a space.
            _ => self.expect(" ")?,
        }
        Some(match word {
            b"null" => {
                let name = self.run(|b| b.is_ascii_lowercase())?;
                Value::Null(*Type::ALL.iter().find(|t| t.name().as_bytes() == name)?)
            }
            b"bool" => match self.pass("1") {
                true => Value::Bool(true),
                false => self.expect("0").map(|()| Value::Bool(false))?,
            },
            b"i64" => Value::I64(self.i64()?),
            b"int" => Value::Int(self.hex_number()?),
            b"f32" => Value::F32(u32::try_from(self.bits(8)?).ok()?),
            b"f64" => Value::F64(self.bits(16)?),
            b"dec" => {
                let coefficient = self.hex_number()?;
                self.expect(" ")?;
                let exponent = self.i64()?;
                Value::Decimal { coefficient, exponent }
            }
            b"ts" => Value::Timestamp(self.timestamp()?),
            b"symbol" => Value::Symbol(self.symbol()?),
            _ => return None,
        })
    }

    fn fields(&mut self) -> Option<Vec<(Symbol, Annotated)>> {
        let mut fields = Vec::new();
        while self.pass(" ") {
            self.expect("(")?;
            let name = self.symbol()?;
            self.expect(" ")?;
            let value = self.annotated()?;
            self.expect(")")?;
            fields.push((name, value));
        }
        Some(fields)
    }

    fn members(&mut self) -> Option<Vec<Annotated>> {
        let mut members = Vec::new();
        while self.pass(" ") {
            members.push(self.annotated()?);
        }
        Some(members)
    }

    /// A sid or quoted text: one or more letters a to z.
    fn symbol(&mut self) -> Option<Symbol> {
        if !self.pass("\"") {
            return Some(Symbol::Sid(self.decimal(u64::MAX)?));
        }
        self.run(|b| b.is_ascii_lowercase())?;
        self.expect("\"")?;
        Some(Symbol::Text)
    }

    /// A number in base ten, at most `limit`. Leading zeros do not count.
    fn decimal(&mut self, limit: u64) -> Option<u64> {
        let digits = self.run(|b| b.is_ascii_digit())?;
        let mut number = 0u64;
        for digit in digits {
            number = number.checked_mul(10)?.checked_add(u64::from(digit - b'0'))?;
        }
        (number <= limit).then_some(number)
    }

    /// A number in base ten that may have a minus, from `-limit - 1` to `limit`.
    fn signed(&mut self, limit: u64) -> Option<i64> {
        let negative = self.pass("-");
        let magnitude = self.decimal(limit + u64::from(negative))?;
        let number = i128::from(magnitude) * if negative { -1 } else { 1 };
        i64::try_from(number).ok()
    }

    fn i64(&mut self) -> Option<i64> {
        self.signed(i64::MAX as u64)
    }

    fn hex_digits(&mut self) -> Option<&'a [u8]> {
        self.run(|b| matches!(b, b'0'..=b'9' | b'a'..=b'f'))
    }

    /// A number in hex of any length that may have a minus.
    fn hex_number(&mut self) -> Option<Signed> {
        let negative = self.pass("-");
        let digits = self.hex_digits()?;
        let leading = digits.iter().take_while(|b| **b == b'0').count();
        let digits = &digits[leading..];
        let (first, pairs) = digits.split_at(digits.len() % 2);
        let mut magnitude: Vec<u8> = first.iter().map(|b| nibble(*b)).collect();
        magnitude.extend(bytes_of_pairs(pairs));
        Some(Signed { negative, magnitude })
    }

    /// Exactly `count` hex digits, at most 16.
    fn bits(&mut self, count: usize) -> Option<u64> {
        let digits = self.hex_digits()?;
        let bits = digits.iter().take(count).fold(0, |bits, b| bits << 4 | u64::from(nibble(*b)));
        (digits.len() == count).then_some(bits)
    }

    /// One run of hex pairs, or nothing and then no space.
    fn pairs(&mut self) -> Option<Vec<u8>> {
        if !self.pass(" ") {
            return Some(Vec::new());
        }
        let digits = self.hex_digits()?;
        digits.len().is_multiple_of(2).then(|| bytes_of_pairs(digits).collect())
    }

    fn timestamp(&mut self) -> Option<Timestamp> {
        let offset = match self.pass("?") {
            true => None,
            false => Some(i32::try_from(self.signed(i32::MAX as u64)?).ok()?),
        };
        let mut fields = Vec::new();
        while fields.len() < 6 && self.pass(" ") {
            fields.push(self.small()?);
        }
        let mut fraction = None;
        if fields.len() == 6 && self.pass(" ") {
            let digits = self.small()?;
            self.expect(" ")?;
            let coefficient = self.decimal(u64::MAX)?;
            fraction = Some(Fraction { digits, coefficient });
        }
        matches!(fields.len(), 1 | 2 | 3 | 5 | 6).then_some(Timestamp { offset, fields, fraction })
    }

    /// A number without sign, at most the greatest of signed 32 bits.
    fn small(&mut self) -> Option<i32> {
        i32::try_from(self.decimal(i32::MAX as u64)?).ok()
    }
}

fn nibble(digit: u8) -> u8 {
    match digit {
        b'0'..=b'9' => digit - b'0',
        _ => digit - b'a' + 10,
    }
}

fn bytes_of_pairs(digits: &[u8]) -> impl Iterator<Item = u8> + '_ {
    digits.chunks_exact(2).map(|pair| nibble(pair[0]) << 4 | nibble(pair[1]))
}
