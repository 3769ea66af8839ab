//! Our answers to the items of a stream, held to the Rust's bytes of the whole.

use crate::verdict::is_hex;
use crate::{form, length, refusal};

const MARKER: &[u8] = b"e00100ea";

/// Where our answers part from the Rust's. The places behind it are lost, so there is no second one.
#[derive(Clone, Copy, Debug, PartialEq, Eq)]
pub enum Difference<'a> {
    /// At an item, or at the start, which is no item: our answer, and the Rust's bytes from its place on.
    Bytes { item: &'a [u8], ours: &'a [u8], rust: &'a [u8] },
    /// Our answers are too few or too many.
    OurLength,
    /// The Rust's bytes are missing, go on behind the last item, or stand on several lines.
    RustLength,
}

/// `stream` has one item a line; `ours` the hex of the start, then that of one item a line; `rust` the hex of all on one line.
/// Answers also how many items were looked at.
pub fn judge<'a>(stream: &'a [u8], ours: &'a [u8], rust: &'a [u8]) -> (u64, Option<Difference<'a>>) {
    let mut items = 0;
    let difference = first_difference(stream, ours, rust, &mut items).err();
    (items, difference)
}

fn first_difference<'a>(stream: &'a [u8], ours: &'a [u8], rust: &'a [u8], items: &mut u64) -> Result<(), Difference<'a>> {
    let (mut ours, mut rust) = (lines(ours), lines(rust));
    let whole = rust.next().ok_or(Difference::RustLength)?;
    let start = ours.next().ok_or(Difference::OurLength)?;
    let mut rest = behind(b"", start, whole, start == MARKER)?;
    for item in lines(stream) {
        let answer = ours.next().ok_or(Difference::OurLength)?;
        *items += 1;
        rest = behind(item, answer, rest, can_answer(answer, item))?;
    }
    if ours.next().is_some() {
        return Err(Difference::OurLength);
    }
    match rest.is_empty() && rust.next().is_none() {
        true => Ok(()),
        false => Err(Difference::RustLength),
    }
}

/// The Rust's bytes behind our answer, which must stand first in them.
fn behind<'a>(item: &'a [u8], ours: &'a [u8], rust: &'a [u8], possible: bool) -> Result<&'a [u8], Difference<'a>> {
    let rest = rust.strip_prefix(ours).filter(|_| possible);
    rest.ok_or(Difference::Bytes { item, ours, rust })
}

/// Hex of as many bytes as the item takes, so that no answer has bytes of its neighbours.
fn can_answer(answer: &[u8], item: &[u8]) -> bool {
    match item.strip_prefix(b"value ") {
        Some(value) => is_hex(answer) && encoded(value) == Some(answer.len() / 2),
        None => item == b"marker" && answer == MARKER,
    }
}

/// How many bytes a value takes, if document 01 accepts it.
fn encoded(value: &[u8]) -> Option<usize> {
    match refusal::number(value) {
        Some(_) => None,
        None => form::parse(value).as_ref().map(length::encoded),
    }
}

/// The lines of a file without their line feeds.
fn lines(file: &[u8]) -> impl Iterator<Item = &[u8]> {
    file.split_inclusive(|byte| *byte == b'\n').map(|line| line.strip_suffix(b"\n").unwrap_or(line))
}
