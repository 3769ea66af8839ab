//! Random lists of calls, held to a model written from document 01 and document 02, Items 3 and 10. After each call the answer, every byte
//! of the state and every byte of the buffer are compared; after the last, the numbers of members that the closings answered are compared
//! with what the reader counts in the bytes. Where nothing was abandoned, the closings moved at most 32 times the bytes of the stream.
use goatminute::{sys, Precision, Reader, Refusal, Timestamp, STATE_SIZE};

// ---- what a scalar's bytes are

fn var_uint(value: u64) -> Vec<u8> {
    let mut bytes = vec![0x80 + (value % 128) as u8];
    let mut rest = value / 128;
    while rest > 0 {
        bytes.insert(0, (rest % 128) as u8);
        rest /= 128;
    }
    bytes
}

/// The first byte holds six bits of the magnitude and the sign bit 40.
fn var_int(negative: bool, magnitude: u64) -> Vec<u8> {
    let mut bytes = Vec::new();
    let mut rest = magnitude;
    while rest >= 64 {
        bytes.insert(0, (rest % 128) as u8);
        rest /= 128;
    }
    bytes.insert(0, rest as u8 + if negative { 0x40 } else { 0 });
    *bytes.last_mut().unwrap() += 0x80;
    bytes
}

fn without_leading_zeros(bytes: &[u8]) -> Vec<u8> {
    bytes.iter().copied().skip_while(|&byte| byte == 0).collect()
}

fn value(code: u8, body: &[u8]) -> Vec<u8> {
    let mut bytes = Vec::new();
    if body.len() <= 13 {
        bytes.push(code + body.len() as u8);
    } else {
        bytes.push(code + 14);
        bytes.extend(var_uint(body.len() as u64));
    }
    bytes.extend(body);
    bytes
}

fn float(bits: u64) -> Vec<u8> {
    let number = f64::from_bits(bits);
    if bits == 0 {
        return vec![0x40];
    }
    // a binary32 widens exactly, so equality says that nothing was lost; a NaN equals nothing
    if (number as f32) as f64 == number {
        return value(0x40, &(number as f32).to_be_bytes());
    }
    value(0x40, &bits.to_be_bytes())
}

fn decimal_body(negative: bool, coefficient: &[u8], exponent: i64) -> Vec<u8> {
    let mut magnitude = without_leading_zeros(coefficient);
    if magnitude.is_empty() && !negative && exponent == 0 {
        return Vec::new();
    }
    let mut body = var_int(exponent < 0, exponent.unsigned_abs());
    if magnitude.is_empty() && !negative {
        return body;
    }
    if magnitude.first().is_none_or(|&byte| byte >= 0x80) {
        magnitude.insert(0, 0);
    }
    if negative {
        magnitude[0] += 0x80;
    }
    body.extend(magnitude);
    body
}

fn is_leap(year: i64) -> bool {
    (year % 4 == 0 && year % 100 != 0) || year % 400 == 0
}

fn days_in(year: i64, month: i64) -> i64 {
    match month {
        2 => 28 + is_leap(year) as i64,
        4 | 6 | 9 | 11 => 30,
        _ => 31,
    }
}

/// The body, or 7.
fn timestamp_body(t: &Timestamp) -> Result<Vec<u8>, Refusal> {
    let fields = match t.precision {
        Precision::Year => 1,
        Precision::Month => 2,
        Precision::Day => 3,
        Precision::Minute => 5,
        Precision::Second => 6,
    };
    let (mut year, mut month, mut day) = (t.year as i64, t.month as i64, t.day as i64);
    let (mut hour, mut minute, second) = (t.hour as i64, t.minute as i64, t.second as i64);
    let wrong = !(1..=9999).contains(&year)
        || (fields >= 2 && !(1..=12).contains(&month))
        || (fields >= 3 && !(1..=days_in(year, month)).contains(&day))
        || (fields >= 5 && (hour > 23 || minute > 59))
        || (fields == 6 && second > 59)
        || t.offset.is_some_and(|offset| fields < 5 || !(-1439..=1439).contains(&offset))
        || t.fraction.is_some_and(|(digits, coefficient)| {
            fields < 6 || !(1..=18).contains(&digits) || coefficient as u128 >= 10u128.pow(digits)
        });
    if wrong {
        return Err(Refusal::BadTimestamp);
    }
    // UTC is local minus offset: a minute at a time carried into hours and days
    let minutes = hour * 60 + minute - t.offset.unwrap_or(0) as i64;
    if fields >= 5 {
        hour = minutes.rem_euclid(1440) / 60;
        minute = minutes.rem_euclid(60);
        day += minutes.div_euclid(1440);
        if day == 0 {
            month -= 1;
            if month == 0 {
                month = 12;
                year -= 1;
            }
            day = days_in(year, month);
        } else if day > days_in(year, month) {
            day = 1;
            month += 1;
            if month == 13 {
                month = 1;
                year += 1;
            }
        }
    }
    if !(1..=9999).contains(&year) {
        return Err(Refusal::BadTimestamp);
    }
    let mut body = match t.offset {
        None => vec![0xC0],
        Some(offset) => var_int(offset < 0, offset.unsigned_abs() as u64),
    };
    for field in &[year, month, day, hour, minute, second][..fields] {
        body.extend(var_uint(*field as u64));
    }
    if let Some((digits, coefficient)) = t.fraction {
        body.extend(decimal_body(false, &coefficient.to_be_bytes(), -(digits as i64)));
    }
    Ok(body)
}

// ---- the calls and what they do

#[derive(Clone, Debug)]
enum Scalar {
    Null(u8),
    Bool(bool),
    I64(i64),
    Int(bool, Vec<u8>),
    F32(u32),
    F64(u64),
    Decimal(bool, Vec<u8>, i64),
    Timestamp(Timestamp),
    Symbol(u64),
    String(Vec<u8>),
    Clob(Vec<u8>),
    Blob(Vec<u8>),
}

#[derive(Clone, Debug)]
enum Call {
    Write(Vec<u64>, Scalar),
    Name(u64),
    /// with the type code: B0, C0 or D0
    Open(Vec<u64>, u8),
    Close,
    Abandon,
    Marker,
    Empty,
}

/// Bytes of a scalar, or the refusal of its own line.
fn scalar(scalar: &Scalar) -> Result<Vec<u8>, Refusal> {
    Ok(match scalar {
        Scalar::Null(code) => vec![16 * code + 15],
        Scalar::Bool(value) => vec![0x10 + *value as u8],
        Scalar::I64(number) => {
            let code = if *number < 0 { 0x30 } else { 0x20 };
            value(code, &without_leading_zeros(&number.unsigned_abs().to_be_bytes()))
        }
        Scalar::Int(negative, magnitude) => {
            let magnitude = without_leading_zeros(magnitude);
            match (*negative, magnitude.is_empty()) {
                (true, true) => return Err(Refusal::NegativeZero),
                (false, true) => vec![0x21, 0x00],
                (negative, false) => value(if negative { 0x30 } else { 0x20 }, &magnitude),
            }
        }
        Scalar::F32(0) => vec![0x40],
        Scalar::F32(bits) => value(0x40, &bits.to_be_bytes()),
        Scalar::F64(bits) => float(*bits),
        Scalar::Decimal(negative, coefficient, exponent) => {
            let body = decimal_body(*negative, coefficient, *exponent);
            if body.len() > 32 {
                return Err(Refusal::DecimalTooLong);
            }
            value(0x50, &body)
        }
        Scalar::Timestamp(t) => value(0x60, &timestamp_body(t)?),
        Scalar::Symbol(sid) => value(0x70, &without_leading_zeros(&sid.to_be_bytes())),
        Scalar::String(bytes) => {
            if std::str::from_utf8(bytes).is_err() {
                return Err(Refusal::NotUtf8);
            }
            value(0x80, bytes)
        }
        Scalar::Clob(bytes) => value(0x90, bytes),
        Scalar::Blob(bytes) => value(0xA0, bytes),
    })
}

/// The sids' length and the sids; nothing if there are none.
fn annotations(sids: &[u64]) -> Vec<u8> {
    if sids.is_empty() {
        return Vec::new();
    }
    let sids: Vec<u8> = sids.iter().flat_map(|&sid| var_uint(sid)).collect();
    let mut bytes = var_uint(sids.len() as u64);
    bytes.extend(sids);
    bytes
}

fn annotated(sids: &[u64], bytes: Vec<u8>) -> Vec<u8> {
    let mut body = annotations(sids);
    if body.is_empty() {
        return bytes;
    }
    body.extend(bytes);
    value(0xE0, &body)
}

/// A container's start, its header, its type code and how many members it has, in the state's bytes.
const RECORD_SIZE: usize = 13;

struct Container {
    annotations: Vec<u64>,
    code: u8,
    body: Vec<u8>,
    members: u32,
}

/// What a close answers: how many bytes the container takes, how many members it has, and how many bytes moved.
type Closed = (u32, u32, u32);

/// A part of the buffer, by where it lies before a close and after it.
struct Part {
    before: usize,
    after: usize,
    length: usize,
}

impl Part {
    fn moved(&self) -> usize {
        if self.before == self.after {
            return 0;
        }
        self.length
    }
}

/// The state and the buffer as they have to be.
struct Model {
    bytes: Vec<u8>,
    open: Vec<Container>,
    waiting: bool,
    state: [u8; STATE_SIZE],
    buf: Vec<u8>,
}

impl Model {
    fn start(room: usize) -> Self {
        let mut model = Model {
            bytes: vec![0xE0, 0x01, 0x00, 0xEA],
            open: Vec::new(),
            waiting: false,
            state: [0; STATE_SIZE],
            buf: vec![0xEE; room],
        };
        model.settle(false);
        model
    }

    /// All used bytes: an open container is its reserves, its annotations and its body.
    fn used(&self) -> Vec<u8> {
        let mut used = self.bytes.clone();
        for container in &self.open {
            used.extend(reserve(&container.annotations));
            used.extend(&container.body);
        }
        used
    }

    fn end(&mut self) -> &mut Vec<u8> {
        match self.open.last_mut() {
            Some(container) => &mut container.body,
            None => &mut self.bytes,
        }
    }

    /// A value at the end: a member of the innermost container.
    fn put_value(&mut self, bytes: Vec<u8>) {
        self.end().extend(bytes);
        let record_end = 8 + RECORD_SIZE * self.open.len();
        if let Some(container) = self.open.last_mut() {
            container.members += 1;
            self.state[record_end - 4..record_end].copy_from_slice(&container.members.to_le_bytes());
        }
    }

    fn in_struct(&self) -> bool {
        self.open.last().is_some_and(|container| container.code == 0xD0)
    }

    /// Brings state and buffer up to what is held. What the call frees becomes zero if it is a close or an abandonment.
    fn settle(&mut self, frees: bool) {
        let before = u32::from_le_bytes(self.state[..4].try_into().unwrap()) as usize;
        let used = self.used();
        self.buf[..used.len()].copy_from_slice(&used);
        if frees && used.len() < before {
            self.buf[used.len()..before].fill(0);
        }
        self.state[..4].copy_from_slice(&(used.len() as u32).to_le_bytes());
        self.state[4] = self.open.len() as u8;
        self.state[5] = self.waiting as u8;
    }

    fn call(&mut self, call: &Call) -> Result<Option<Closed>, Refusal> {
        let room = self.buf.len();
        let used = self.used().len();
        let fits = |more: usize| if used + more <= room { Ok(()) } else { Err(Refusal::NoRoom) };
        let placed = |right: bool| if right { Ok(()) } else { Err(Refusal::Misplaced) };
        match call {
            Call::Write(sids, of) => {
                placed(!self.in_struct() || self.waiting)?;
                let bytes = annotated(sids, scalar(of)?);
                fits(bytes.len())?;
                self.put_value(bytes);
                self.waiting = false;
                self.settle(false);
            }
            Call::Name(sid) => {
                placed(self.in_struct() && !self.waiting)?;
                let bytes = var_uint(*sid);
                fits(bytes.len())?;
                self.end().extend(bytes);
                self.waiting = true;
                self.settle(false);
            }
            Call::Open(sids, code) => {
                placed(!self.in_struct() || self.waiting)?;
                if self.open.len() == 32 {
                    return Err(Refusal::TooDeep);
                }
                let reserve = reserve(sids).len();
                fits(reserve)?;
                let at = 8 + RECORD_SIZE * self.open.len();
                self.state[at..at + 4].copy_from_slice(&(used as u32).to_le_bytes());
                self.state[at + 4..at + 8].copy_from_slice(&((used + reserve - 2) as u32).to_le_bytes());
                self.state[at + 8] = *code;
                self.state[at + 9..at + RECORD_SIZE].fill(0);
                self.open.push(Container {
                    annotations: sids.clone(),
                    code: *code,
                    body: Vec::new(),
                    members: 0,
                });
                self.waiting = false;
                self.settle(false);
            }
            Call::Close => {
                placed(!self.open.is_empty() && !self.waiting)?;
                let last = self.open.last().unwrap();
                let inner = value(last.code, &last.body);
                let inner_length = inner.len();
                let bytes = annotated(&last.annotations, inner);
                let start = used - last.body.len() - reserve(&last.annotations).len();
                let end = start + bytes.len();
                if end > room {
                    return Err(Refusal::NoRoom);
                }
                // the body is the last of the bytes, and the annotations stand before the value that they annotate
                let body = Part {
                    before: used - last.body.len(),
                    after: end - last.body.len(),
                    length: last.body.len(),
                };
                let length = annotations(&last.annotations).len();
                let noted = Part {
                    before: start + 2,
                    after: end - inner_length - length,
                    length,
                };
                let moved = body.moved() + noted.moved();
                let closed = (bytes.len() as u32, last.members, moved as u32);
                self.open.pop();
                self.put_value(bytes);
                self.settle(true);
                return Ok(Some(closed));
            }
            Call::Abandon => {
                placed(!self.open.is_empty())?;
                self.open.pop();
                self.waiting = self.in_struct();
                self.settle(true);
            }
            Call::Marker => {
                placed(self.open.is_empty())?;
                fits(4)?;
                self.end().extend([0xE0, 0x01, 0x00, 0xEA]);
                self.settle(false);
            }
            Call::Empty => {
                placed(self.open.is_empty())?;
                self.bytes.clear();
                self.settle(false);
            }
        }
        Ok(None)
    }

    fn finished(&self) -> &[u8] {
        if self.open.is_empty() {
            &self.bytes
        } else {
            &[]
        }
    }
}

/// What an opening puts: two zero bytes, and with annotations two more before them.
fn reserve(sids: &[u64]) -> Vec<u8> {
    let mut bytes = vec![0, 0];
    let prefix = annotations(sids);
    if !prefix.is_empty() {
        bytes.extend(prefix);
        bytes.extend([0, 0]);
    }
    bytes
}

fn enter(call: &Call, state: &mut [u8], buf: &mut [u8]) -> Result<Option<Closed>, Refusal> {
    let answer = match call {
        Call::Write(sids, scalar) => {
            let sids = sys::sid_bytes(sids);
            match scalar {
                Scalar::Null(code) => sys::write_null(state, buf, sids, *code),
                Scalar::Bool(value) => sys::write_bool(state, buf, sids, *value),
                Scalar::I64(value) => sys::write_i64(state, buf, sids, *value),
                Scalar::Int(negative, magnitude) => sys::write_int(state, buf, sids, *negative, magnitude),
                Scalar::F32(bits) => sys::write_f32(state, buf, sids, *bits),
                Scalar::F64(bits) => sys::write_f64(state, buf, sids, *bits),
                Scalar::Decimal(negative, coefficient, exponent) => {
                    sys::write_decimal(state, buf, sids, *negative, coefficient, *exponent)
                }
                Scalar::Timestamp(value) => sys::write_timestamp(state, buf, sids, *value),
                Scalar::Symbol(sid) => sys::write_symbol(state, buf, sids, *sid),
                Scalar::String(bytes) => sys::write_string(state, buf, sids, bytes),
                Scalar::Clob(bytes) => sys::write_clob(state, buf, sids, bytes),
                Scalar::Blob(bytes) => sys::write_blob(state, buf, sids, bytes),
            }
        }
        Call::Name(sid) => sys::field_name(state, buf, *sid),
        Call::Open(sids, 0xB0) => sys::open_list(state, buf, sys::sid_bytes(sids)),
        Call::Open(sids, 0xC0) => sys::open_sexp(state, buf, sys::sid_bytes(sids)),
        Call::Open(sids, _) => sys::open_struct(state, buf, sys::sid_bytes(sids)),
        Call::Close => return sys::close(state, buf).map(|closed| Some((closed.size, closed.members, closed.moved))),
        Call::Abandon => sys::abandon(state, buf),
        Call::Marker => sys::version_marker(state, buf),
        Call::Empty => sys::empty(state, buf),
    };
    answer.map(|()| None)
}

// ---- random calls

/// SplitMix64.
struct Random(u64);

impl Random {
    fn next(&mut self) -> u64 {
        self.0 = self.0.wrapping_add(0x9E3779B97F4A7C15);
        let mut z = self.0;
        z = (z ^ (z >> 30)).wrapping_mul(0xBF58476D1CE4E5B9);
        z = (z ^ (z >> 27)).wrapping_mul(0x94D049BB133111EB);
        z ^ (z >> 31)
    }

    fn below(&mut self, limit: u64) -> u64 {
        self.next() % limit
    }

    fn one_in(&mut self, count: u64) -> bool {
        self.below(count) == 0
    }

    /// Below `limit`, but once in `count` times below `other`.
    fn mostly_below(&mut self, limit: u64, other: u64, count: u64) -> u64 {
        let limit = if self.one_in(count) { other } else { limit };
        self.below(limit)
    }

    /// Of any width, so that small and large numbers are as likely.
    fn number(&mut self) -> u64 {
        let width = self.below(65);
        if width == 0 {
            return 0;
        }
        self.next() >> (64 - width)
    }

    fn signed(&mut self) -> i64 {
        let number = self.number();
        match self.below(8) {
            0 => i64::MIN,
            1 => -(self.below(130) as i64),
            2 => self.below(130) as i64,
            _ => number as i64,
        }
    }

    fn bytes(&mut self) -> Vec<u8> {
        let length = match self.below(12) {
            0..=7 => self.below(18),
            8..=9 => self.below(40),
            10 => 120 + self.below(16),
            _ => self.below(400),
        };
        let leading = if self.one_in(4) { self.below(3) } else { 0 };
        let zeros = std::iter::repeat_n(0, leading as usize);
        let rest: Vec<u8> = (0..length).map(|_| self.next() as u8).collect();
        zeros.chain(rest).collect()
    }

    fn text(&mut self) -> Vec<u8> {
        let length = if self.one_in(12) {
            120 + self.below(16)
        } else {
            self.below(16)
        };
        let letters = ["a", "é", "€", "😀", "z", "0"];
        let mut text: Vec<u8> = (0..length).flat_map(|_| letters[self.below(6) as usize].bytes()).collect();
        if self.one_in(6) && !text.is_empty() {
            let at = self.below(text.len() as u64) as usize;
            text[at] = self.next() as u8;
        }
        text
    }

    fn sids(&mut self) -> Vec<u64> {
        let count = match self.below(16) {
            0..=8 => 0,
            9..=12 => 1,
            13..=14 => self.below(5),
            _ => self.below(150),
        };
        (0..count).map(|_| self.number()).collect()
    }

    fn float(&mut self) -> u64 {
        match self.below(5) {
            0 => self.next(),
            1 => f64::to_bits(f32::from_bits(self.next() as u32) as f64),
            2 => [
                0,
                1,
                1 << 63,
                0x7FF0000000000000,
                0x7FF8000000000000,
                0x36A0000000000000,
                0x3690000000000000,
            ][self.below(7) as usize],
            3 => f64::to_bits(self.signed() as f64),
            _ => self.next() & 0xFFFF_FFFF_E000_0000,
        }
    }

    fn timestamp(&mut self) -> Timestamp {
        let year = if self.one_in(3) {
            [0, 1, 9999, 10000, 1900, 2000, 2023][self.below(7) as usize]
        } else {
            1 + self.below(9999) as u32
        };
        let month = 1 + self.mostly_below(12, 14, 10) as u32;
        let day = match self.below(4) {
            0 => 1,
            1 => 28 + self.below(5) as u32,
            _ => 1 + self.below(28) as u32,
        };
        // around the ends of the calendar's years
        let (year, month, day) = match self.below(12) {
            0 => (1, 1, 1),
            1 => (9999, 12, 31),
            _ => (year, month, day),
        };
        let hour = self.mostly_below(24, 26, 12) as u32;
        let minute = self.mostly_below(60, 62, 12) as u32;
        let second = self.mostly_below(60, 62, 12) as u32;
        let precision = self.below(7);
        let mut value = match precision {
            0 => Timestamp::year(year),
            1 => Timestamp::month(year, month),
            2 => Timestamp::day(year, month, day),
            3 => Timestamp::minute(year, month, day, hour, minute),
            _ => Timestamp::second(year, month, day, hour, minute, second),
        };
        if precision >= 3 && !self.one_in(3) || self.one_in(20) {
            value = value.with_offset(match self.below(4) {
                0 => self.below(128) as i32 - 64,
                1 => [1439, -1439, 1440, -1440, i32::MIN, i32::MAX][self.below(6) as usize],
                _ => self.below(2879) as i32 - 1439,
            });
        }
        if precision >= 4 && self.one_in(2) || self.one_in(20) {
            let digits = self.below(20) as u32;
            let limit = 10u128.pow(digits).min(u64::MAX as u128) as u64;
            let coefficient = if self.one_in(8) { limit } else { self.next() % limit };
            value = value.with_fraction(digits, coefficient);
        }
        value
    }

    fn scalar(&mut self) -> Scalar {
        match self.below(12) {
            0 => Scalar::Null([0, 1, 2, 4, 5, 6, 7, 8, 9, 10, 11, 12, 13][self.below(13) as usize]),
            1 => Scalar::Bool(self.one_in(2)),
            2 => Scalar::I64(self.signed()),
            3 => Scalar::Int(self.one_in(2), self.bytes()),
            4 => Scalar::F32(if self.one_in(4) { 0 } else { self.next() as u32 }),
            5 => Scalar::F64(self.float()),
            6 => Scalar::Decimal(self.one_in(2), self.bytes(), self.signed()),
            7 => Scalar::Timestamp(self.timestamp()),
            8 => Scalar::Symbol(self.number()),
            9 => Scalar::String(self.text()),
            10 => Scalar::Clob(self.bytes()),
            _ => Scalar::Blob(self.bytes()),
        }
    }

    /// Mostly a call that can stand here, so that lists go deep; now and then any other.
    fn call(&mut self, model: &Model, deep: bool) -> Call {
        let kind = [0xB0, 0xC0, 0xD0][self.below(3) as usize];
        if self.one_in(12) {
            return match self.below(7) {
                0 => Call::Write(self.sids(), self.scalar()),
                1 => Call::Name(self.number()),
                2 => Call::Open(self.sids(), kind),
                3 => Call::Close,
                4 => Call::Abandon,
                5 => Call::Marker,
                _ => Call::Empty,
            };
        }
        if model.in_struct() && !model.waiting && !self.one_in(4) {
            return Call::Name(self.number());
        }
        if model.open.is_empty() && self.one_in(8) {
            return if self.one_in(3) { Call::Empty } else { Call::Marker };
        }
        match self.below(if deep { 5 } else { 10 }) {
            0..=2 => Call::Open(if deep { Vec::new() } else { self.sids() }, kind),
            3 if !model.open.is_empty() => Call::Close,
            4 if !model.open.is_empty() && self.one_in(3) => Call::Abandon,
            _ => Call::Write(self.sids(), self.scalar()),
        }
    }
}

// ---- the lists, run and read back

/// How many items each container of a stream holds, in the order in which the containers end.
fn members_read(stream: &[u8]) -> Vec<u32> {
    fn walk(reader: &mut Reader, ended: &mut Vec<u32>) -> u32 {
        let mut items = 0;
        while let Some(item) = reader.next() {
            items += 1;
            if item.unwrap().value.is_container() {
                reader.step_in().unwrap();
                let members = walk(reader, ended);
                ended.push(members);
                reader.step_out().unwrap();
            }
        }
        items
    }
    let mut ended = Vec::new();
    walk(&mut Reader::new(stream), &mut ended);
    ended
}

/// The numbers of members that closings answered, in their order: outside of all open containers, and in each of them, outermost first.
#[derive(Default)]
struct Answers {
    outside: Vec<u32>,
    inside: Vec<Vec<u32>>,
}

/// A list of calls as it runs. Its first failure says the seed and the call.
struct List {
    seed: u64,
    model: Model,
    state: [u8; STATE_SIZE],
    buf: Vec<u8>,
    calls: usize,
    answers: Answers,
    /// The sum of what the closings moved, and whether anything was abandoned.
    moved: usize,
    abandoned: bool,
    /// What was finished before each emptying.
    emptied: Vec<u8>,
}

/// What was met in the lists.
#[derive(Debug, Default)]
struct Met {
    /// How often each answer: accepted, then the refusals by number.
    answers: [usize; 11],
    /// The numbers of members that were compared with what the reader counts, and those that an abandonment took with it.
    members: Vec<u32>,
    abandoned: usize,
    /// What each closing moved.
    moved: Vec<u32>,
    /// Of each list in which nothing was abandoned: what its closings moved, and the bytes of its stream.
    sums: Vec<(usize, usize)>,
}

impl List {
    fn start(seed: u64, room: usize) -> Self {
        let mut state = [0; STATE_SIZE];
        let mut buf = vec![0xEE; room];
        sys::start(&mut state, &mut buf).unwrap();
        List {
            seed,
            model: Model::start(room),
            state,
            buf,
            calls: 0,
            answers: Answers::default(),
            moved: 0,
            abandoned: false,
            emptied: Vec::new(),
        }
    }

    /// Makes a call, held to the model. Answers whether it was accepted.
    fn call(&mut self, call: &Call, met: &mut Met) -> bool {
        let at = format!("seed {}, call {}: {call:?}", self.seed, self.calls);
        let finished = self.model.finished().to_vec();
        let expected = self.model.call(call);
        let answer = enter(call, &mut self.state, &mut self.buf);
        assert_eq!(answer, expected, "{at}");
        assert!(self.state == self.model.state, "{at} leaves another state");
        assert!(self.buf == self.model.buf, "{at} leaves other bytes");
        assert_eq!(sys::finished(&self.state, &self.buf), self.model.finished(), "{at}");
        self.calls += 1;
        met.answers[answer.map_or_else(|why| why.number() as usize, |_| 0)] += 1;
        let Ok(closed) = answer else {
            return false;
        };
        let inside = &mut self.answers.inside;
        match call {
            Call::Open(..) => inside.push(Vec::new()),
            Call::Close => {
                let (_, members, moved) = closed.unwrap();
                self.moved += moved as usize;
                met.moved.push(moved);
                let mut ended = inside.pop().unwrap();
                ended.push(members);
                inside.last_mut().unwrap_or(&mut self.answers.outside).extend(ended);
            }
            Call::Abandon => {
                self.abandoned = true;
                met.abandoned += inside.pop().unwrap().len();
            }
            Call::Empty => self.emptied.extend(finished),
            Call::Write(..) | Call::Name(_) | Call::Marker => (),
        }
        true
    }

    /// Ends what is open, and compares what the closings answered with what the reader counts in all that was finished.
    fn end(mut self, met: &mut Met) {
        while !self.model.open.is_empty() {
            if !self.call(&Call::Close, met) {
                self.call(&Call::Abandon, met);
            }
        }
        let mut stream = self.emptied;
        stream.extend(self.model.finished());
        assert_eq!(self.answers.outside, members_read(&stream), "seed {}", self.seed);
        met.members.extend(self.answers.outside);
        if !self.abandoned {
            let (seed, moved, stream) = (self.seed, self.moved, stream.len());
            assert!(
                moved <= 32 * stream,
                "seed {seed}: {moved} bytes moved, {stream} in the stream"
            );
            met.sums.push((moved, stream));
        }
    }
}

fn run(seed: u64, room: usize, calls: usize, deep: bool, met: &mut Met) {
    let mut random = Random(seed);
    let mut list = List::start(seed, room);
    for _ in 0..calls {
        let call = random.call(&list.model, deep);
        list.call(&call, met);
    }
    list.end(met);
}

/// The same without abandonments. A name that waits at the end gets a value, so that all is closed if there is room.
fn run_without_abandonments(seed: u64, room: usize, calls: usize, deep: bool, met: &mut Met) {
    let mut random = Random(seed);
    let mut list = List::start(seed, room);
    for _ in 0..calls {
        let call = random.call(&list.model, deep);
        if !matches!(call, Call::Abandon) {
            list.call(&call, met);
        }
    }
    if list.model.waiting {
        list.call(&Call::Write(Vec::new(), Scalar::Bool(true)), met);
    }
    list.end(met);
}

#[test]
fn random_lists_of_calls() {
    let mut met = Met::default();
    for seed in 0..400 {
        run(seed, 4 + (seed as usize * 37) % 300, 120, false, &mut met);
    }
    for seed in 400..600 {
        run(seed, 20_000, 150, false, &mut met);
    }
    for seed in 600..800 {
        run(seed, 2_000, 200, true, &mut met);
    }
    for seed in 800..900 {
        run_without_abandonments(seed, 2_000, 120, false, &mut met);
    }
    for seed in 900..1000 {
        run_without_abandonments(seed, 20_000, 200, true, &mut met);
    }
    println!("accepted and refused by number: {:?}", met.answers);
    // 1 and 2 are not met by a state that the calls made
    let numbers: Vec<usize> = (0..met.answers.len()).filter(|&number| met.answers[number] > 0).collect();
    assert_eq!(numbers, [0, 3, 4, 5, 6, 7, 8, 10]);
    println!(
        "numbers of members: {} compared, up to {:?}; {} abandoned",
        met.members.len(),
        met.members.iter().max(),
        met.abandoned
    );
    for members in 0..=3 {
        assert!(met.members.contains(&members), "no container has {members} members");
    }
    assert!(met.abandoned > 0);
    let still = met.moved.iter().filter(|&&moved| moved == 0).count();
    println!(
        "bytes moved: {} closings compared, up to {:?}; {still} moved none",
        met.moved.len(),
        met.moved.iter().max()
    );
    let times = met.sums.iter().map(|&(moved, stream)| moved as f64 / stream.max(1) as f64);
    println!(
        "sums of bytes moved: {} lists without abandonments, up to {:.1} times the stream",
        met.sums.len(),
        times.fold(0.0, f64::max)
    );
    assert!(still > 1000 && met.moved.len() - still > 1000);
    assert!(met.sums.iter().filter(|(moved, _)| *moved > 0).count() > 100);
}

#[test]
fn random_timestamps_and_floats() {
    let mut random = Random(20260314);
    let mut buf = [0; 64];
    for _ in 0..100_000 {
        let of = if random.one_in(2) {
            Scalar::Timestamp(random.timestamp())
        } else {
            Scalar::F64(random.float())
        };
        let mut state = [0; STATE_SIZE];
        let answer = enter(&Call::Write(Vec::new(), of.clone()), &mut state, &mut buf);
        let written = answer.map(|_| sys::finished(&state, &buf).to_vec());
        assert_eq!(written, scalar(&of), "{of:?}");
    }
}
