//! Every small value: the byte strings of at most three bytes that are one value and have no NOP pad in them, of document 02, Item 12.
//!
//! The list is made twice: the model of the reader is asked of every string, and the strings are built from the Ion document's rules.

use crate::reading::text::Hex;
use crate::reading::{item, scalar, Item, Place, Scalar};

const LONGEST: usize = 3;

/// The strings that the model of the reader takes, shorter first and then by bytes.
pub fn asked() -> Vec<Vec<u8>> {
    let mut list = Vec::new();
    for length in 0..=LONGEST {
        for number in 0..1u32 << (8 * length) {
            let string = &number.to_be_bytes()[4 - length..];
            if values_from(string, Place::in_stream(string, 0)) == Some(1) {
                list.push(string.to_vec());
            }
        }
    }
    list
}

/// How many values stand from a place to its end. None where one does not read, and where anything there is not to be listed.
fn values_from(stream: &[u8], mut place: Place) -> Option<usize> {
    let mut count = 0;
    while let Some(found) = item(stream, place).ok()? {
        if found.is_pad() || found.is_marker() || is_out_of_calendar(stream, &found) {
            return None;
        }
        if found.opens() {
            let body = found.body.clone();
            let inside = Place { end: body.end, parent: found.kind, least: 0, depth: place.depth + 1, position: body.start };
            values_from(stream, inside)?;
        }
        place.least = found.name;
        place.position = found.body.end;
        count += 1;
    }
    Some(count)
}

fn is_out_of_calendar(stream: &[u8], found: &Item) -> bool {
    let read = scalar::read(found.kind, &stream[found.body.clone()]);
    matches!(read, Ok(Scalar::Timestamp { out_of_calendar: true, .. }))
}

/// The strings that the Ion document's rules make, in the same order.
pub fn built() -> Vec<Vec<u8>> {
    let mut list: Vec<Vec<u8>> = (1..=LONGEST).flat_map(values).collect();
    list.sort_by(|one, other| one.len().cmp(&other.len()).then_with(|| one.cmp(other)));
    assert!(list.windows(2).all(|pair| pair[0] != pair[1]), "a value is built twice");
    list
}

/// All values of so many bytes. A wrapper and a sorted struct have four at least.
fn values(length: usize) -> Vec<Vec<u8>> {
    let mut all = Vec::new();
    if length == 1 {
        let nulls = (0..=13).map(|code| code << 4 | 15);
        let (bools, float_zero) = ([0x10, 0x11], [0x40]);
        all.extend(nulls.chain(bools).chain(float_zero).map(|byte| vec![byte]));
    }
    for code in [2, 3, 5, 6, 7, 8, 9, 10, 11, 12, 13] {
        for of_header in 1..=length {
            let of_body = length - of_header;
            all.extend(joined(&[header(code, of_header, of_body)], &bodies(code, of_body)));
        }
    }
    all
}

/// The header of so many bytes for a body of so many: the length in the type byte, or as a VarUInt, which may begin with zeros.
fn header(code: u8, length: usize, of_body: usize) -> Vec<u8> {
    let of_body = of_body as u8;
    if length == 1 {
        return vec![code << 4 | of_body];
    }
    let mut header = vec![0; length];
    header[0] = code << 4 | 14;
    header[length - 1] = 0x80 | of_body;
    header
}

/// The bodies of so many bytes, at most two, that a value of a type has.
fn bodies(code: u8, length: usize) -> Vec<Vec<u8>> {
    let mut any = strings(length);
    match code {
        // Negative zero is no int.
        3 => any.retain(|body| body.iter().any(|byte| *byte != 0)),
        5 => any = decimals(length),
        6 => any = timestamps(length),
        8 => any.retain(|body| std::str::from_utf8(body).is_ok()),
        11 | 12 => any = members(length),
        13 => any = fields(length),
        _ => {}
    }
    any
}

/// Nothing, or an exponent and a coefficient of any bytes.
fn decimals(length: usize) -> Vec<Vec<u8>> {
    match length {
        0 => strings(0),
        _ => (1..=length).flat_map(|of_exponent| joined(&ended(of_exponent), &strings(length - of_exponent))).collect(),
    }
}

/// An offset and a year, in two bytes: a year of one byte is in the calendar unless it is 0.
fn timestamps(length: usize) -> Vec<Vec<u8>> {
    let years: Vec<Vec<u8>> = (0x81..=0xff).map(|year| vec![year]).collect();
    match length {
        2 => joined(&ended(1), &years),
        _ => Vec::new(),
    }
}

fn members(length: usize) -> Vec<Vec<u8>> {
    match length {
        0 => strings(0),
        _ => (1..=length).flat_map(|of_first| joined(&values(of_first), &members(length - of_first))).collect(),
    }
}

/// Names and values. In two bytes there is no room for a second field.
fn fields(length: usize) -> Vec<Vec<u8>> {
    match length {
        0 => strings(0),
        _ => (1..length).flat_map(|of_name| joined(&ended(of_name), &values(length - of_name))).collect(),
    }
}

/// All strings of so many bytes, at most two.
fn strings(length: usize) -> Vec<Vec<u8>> {
    let bytes: Vec<Vec<u8>> = (0..=255).map(|byte| vec![byte]).collect();
    (0..length).fold(vec![Vec::new()], |shorter, _| joined(&shorter, &bytes))
}

/// All VarUInts of so many bytes, and all VarInts: the last byte alone has its top bit.
fn ended(length: usize) -> Vec<Vec<u8>> {
    let mut all = strings(length);
    all.retain(|bytes| bytes.iter().position(|byte| *byte >= 0x80) == Some(length - 1));
    all
}

/// Each of the first with each of the second behind it.
fn joined(first: &[Vec<u8>], second: &[Vec<u8>]) -> Vec<Vec<u8>> {
    first.iter().flat_map(|first| second.iter().map(|second| [&first[..], second].concat())).collect()
}

/// A value as it is printed.
pub fn line(value: &[u8]) -> String {
    format!("{}\n", Hex(value))
}

#[derive(Debug, PartialEq, Eq)]
pub struct Judged {
    /// How many a program had to print.
    pub values: usize,
    /// How many lines of the list or of the program are not the same in both at their place.
    pub differences: usize,
    /// Which line differs first, and what it is in both.
    pub first: Option<String>,
}

/// Holds what a program printed to a list. A line has its line feed, so that a last one without it differs.
pub fn judge(list: &[Vec<u8>], printed: &[u8]) -> Judged {
    let wanted: Vec<String> = list.iter().map(|value| line(value)).collect();
    let wanted: Vec<&[u8]> = wanted.iter().map(|line| line.as_bytes()).collect();
    let ours: Vec<&[u8]> = printed.split_inclusive(|byte| *byte == b'\n').collect();
    let differs = |at: &usize| ours.get(*at) != wanted.get(*at);
    let different: Vec<usize> = (0..ours.len().max(wanted.len())).filter(differs).collect();
    let told = |at: &usize| format!("line {}: ours {}, the model {}", at + 1, shown(ours.get(*at)), shown(wanted.get(*at)));
    Judged { values: list.len(), differences: different.len(), first: different.first().map(told) }
}

fn shown(line: Option<&&[u8]>) -> String {
    const CUT: usize = 200;
    match line {
        Some(line) => format!("'{}'", line[..line.len().min(CUT)].escape_ascii()),
        None => "none".to_string(),
    }
}
