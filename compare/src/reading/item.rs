//! One item: what stands at a place, or why it does not read.

use std::ops::Range;

use super::fields::Bytes;
use super::{scalar, Place, Refusal, MOST_OPEN};

/// An item by the places of its parts. The next one stands at the end of its body.
#[derive(Clone, Debug, PartialEq, Eq)]
pub struct Item {
    /// 0 where the parent is no struct.
    pub name: u64,
    /// The sids of its wrapper; where there is none, nothing at the body's start.
    pub sids: Range<usize>,
    /// The type byte of the value inside its wrapper.
    pub kind: u8,
    pub body: Range<usize>,
}

impl Item {
    pub fn is_pad(&self) -> bool {
        is_pad(self.kind)
    }

    pub fn is_marker(&self) -> bool {
        self.kind == MARKER[0]
    }

    pub fn opens(&self) -> bool {
        opens(self.kind)
    }
}

const MARKER: [u8; 4] = [0xe0, 0x01, 0x00, 0xea];

const SORTED: u8 = 0xd1;

fn is_pad(kind: u8) -> bool {
    kind < 0x0f
}

fn is_wrapper(kind: u8) -> bool {
    kind >> 4 == 14
}

/// A list, an s-expression or a struct that is not null.
fn opens(kind: u8) -> bool {
    matches!(kind >> 4, 11..=13) && kind & 15 != 15
}

/// A struct's type byte: what stands in it has names.
pub fn has_names(parent: u8) -> bool {
    parent >> 4 == 13 && opens(parent)
}

/// The item at a place; none at the end.
pub fn item(stream: &[u8], place: Place) -> Result<Option<Item>, Refusal> {
    let Place { end, parent, least, depth, position } = place;
    if end > stream.len() || position > end {
        return Err(Refusal::PastTheEnd);
    }
    if position == end {
        return Ok(None);
    }
    // Only the stream itself can be cut short: what is inside a container is all there.
    let at_top = parent == 0;
    let out = if at_top { Refusal::CutShort } else { Refusal::NotIon };
    let mut bytes = Bytes { stream, at: position, end, out };
    let name = match has_names(parent) {
        true => bytes.var_uint()?,
        false => 0,
    };
    if at_top && stream[position] == MARKER[0] {
        for expected in MARKER {
            if bytes.byte()? != expected {
                return Err(Refusal::NotIon);
            }
        }
        return Ok(Some(Item { name, sids: bytes.at..bytes.at, kind: MARKER[0], body: bytes.at..bytes.at }));
    }
    let (kind, body) = header(&mut bytes)?;
    let found = match is_wrapper(kind) {
        true => wrapped(stream, name, body)?,
        false => Item { name, sids: body.start..body.start, kind, body },
    };
    if found.is_pad() {
        return Ok(Some(found));
    }
    if parent == SORTED && name < least {
        return Err(Refusal::NotIon);
    }
    if !found.opens() {
        scalar::read(found.kind, &stream[found.body.clone()])?;
    } else if depth >= MOST_OPEN {
        return Err(Refusal::TooDeep);
    }
    Ok(Some(found))
}

/// A type byte and its body's place. That the header can be at all is judged before its body is looked for.
fn header(bytes: &mut Bytes) -> Result<(u8, Range<usize>), Refusal> {
    let kind = bytes.byte()?;
    let (code, low) = (kind >> 4, kind & 15);
    let possible = match code {
        // A bool is false, true or null.
        1 => matches!(low, 0 | 1 | 15),
        // A float has no bytes, four or eight, or is null.
        4 => matches!(low, 0 | 4 | 8 | 15),
        // There is no null wrapper.
        14 => low != 15,
        15 => false,
        _ => true,
    };
    if !possible {
        return Err(Refusal::NotIon);
    }
    if code == 1 || low == 15 {
        return Ok((kind, bytes.at..bytes.at));
    }
    let length = match kind == SORTED || low == 14 {
        true => bytes.var_uint()?,
        false => u64::from(low),
    };
    let had = match code {
        // Negative zero is outside the grammar.
        3 => length >= 1,
        // An offset and a year.
        6 => length >= 2,
        // A name and a value, or nothing; a sorted struct is not empty.
        13 => length >= 2 || (length == 0 && kind != SORTED),
        // A length, a sid and a value.
        14 => length >= 3,
        _ => true,
    };
    match had {
        true => Ok((kind, bytes.part(length)?)),
        false => Err(Refusal::NotIon),
    }
}

/// What a wrapper holds: the length of its sids, at least one sid, and a value that fills the rest.
fn wrapped(stream: &[u8], name: u64, place: Range<usize>) -> Result<Item, Refusal> {
    let mut bytes = Bytes { stream, at: place.start, end: place.end, out: Refusal::NotIon };
    let length = bytes.var_uint()?;
    let sids = bytes.part(length)?;
    if annotations(&stream[sids.clone()])?.is_empty() {
        return Err(Refusal::NotIon);
    }
    let (kind, body) = header(&mut bytes)?;
    match is_pad(kind) || is_wrapper(kind) || body.end != place.end {
        true => Err(Refusal::NotIon),
        false => Ok(Item { name, sids, kind, body }),
    }
}

/// The sids that fill the bytes.
pub fn annotations(sids: &[u8]) -> Result<Vec<u64>, Refusal> {
    let mut bytes = Bytes::of(sids);
    let mut all = Vec::new();
    while !bytes.is_empty() {
        all.push(bytes.var_uint()?);
    }
    Ok(all)
}
