//! A model of the reader: what document 02, Items 1 and 2, and the Ion 1.0 binary encoding say of a stream from a position on.
//!
//! Written from these alone: nothing here is shared with the proved sources, so that a slip in one shows against the other.

pub mod fields;
pub mod item;
pub mod scalar;
pub mod streams;
pub mod text;
pub mod vectors;
pub mod walk;
pub mod written;

pub use item::{item, Item};
pub use scalar::{Float, Fraction, Scalar, Timestamp};
pub use walk::{rest, walk, Container, Ending, Event};

/// How many containers may be open.
pub const MOST_OPEN: u8 = 32;

/// Where an item is looked for.
#[derive(Clone, Copy, Debug, PartialEq, Eq)]
pub struct Place {
    /// Where what holds the item ends.
    pub end: usize,
    /// The type byte of what holds it; 0 for the stream itself.
    pub parent: u8,
    /// No name is under it where the parent is a sorted struct.
    pub least: u64,
    /// How many containers are open.
    pub depth: u8,
    pub position: usize,
}

impl Place {
    pub fn in_stream(stream: &[u8], position: usize) -> Place {
        Place { end: stream.len(), parent: 0, least: 0, depth: 0, position }
    }
}

#[derive(Clone, Copy, Debug, PartialEq, Eq)]
pub enum Refusal {
    PastTheEnd,
    TooDeep,
    NotIon,
    CutShort,
}

impl Refusal {
    pub fn number(self) -> u8 {
        match self {
            Refusal::PastTheEnd => 2,
            Refusal::TooDeep => 4,
            Refusal::NotIon => 13,
            Refusal::CutShort => 14,
        }
    }
}
