//! An Ion 1.0 binary log writer over one lent buffer, and a reader over a lent stream, for hosts in Rust.
//!
//! The writer's calls are those of ion-rust's `LazyRawBinaryWriter_1_0`; docs/MIGRATION.md has them side by side. What they write and refuse
//! is proved of the library that this crate links. No call allocates, and none panics.
//!
//! ```
//! use goatminute::{Decimal, WriteValues, Writer};
//!
//! # fn main() -> Result<(), goatminute::Refusal> {
//! let mut buf = [0; 64];
//! let mut writer = Writer::new(&mut buf)?;
//! let mut record = writer.with_annotations(&[20]).struct_writer()?;
//! record.field_name(10)?.write_decimal(Decimal::new(8125, -1))?;
//! record.field_name(11)?.write_bool(true)?;
//! let closed = record.close()?;
//! assert_eq!((closed.size, closed.members), (11, 2));
//! // both headers take one byte of the two that were reserved: the annotations' two bytes and the body's seven move
//! assert_eq!(closed.moved, 9);
//! assert_eq!(writer.finished(), b"\xE0\x01\x00\xEA\xEA\x81\x94\xD7\x8A\x53\xC1\x1F\xBD\x8B\x11");
//! writer.empty()?;
//! # Ok(())
//! # }
//! ```
//!
//! A logger that owns its buffer holds a [`StreamWriter`], of which [`Writer`] is the one over a lent slice. `capacity`, `used`,
//! `remaining` and `depth` of every writer say how things stand before a call is refused.
//!
//! [`Reader`] reads the whole of the Ion 1.0 binary grammar back, and says by number and place why a stream does not read.

#![no_std]
#![deny(unsafe_code)]
#![warn(missing_docs, missing_debug_implementations)]
#![warn(clippy::undocumented_unsafe_blocks)]

mod items;
mod reader;
mod refusal;
#[allow(unsafe_code)]
pub mod sys;
mod values;
mod writer;

pub use items::{Annotations, Fields, Float, Fraction, Item, Magnitude, ReadDecimal, ReadTimestamp, Value};
pub use reader::Reader;
pub use refusal::{NotARefusal, ReadRefusal, Refusal};
pub use values::{Closed, Coefficient, Decimal, IonType, Precision, Timestamp};
pub use writer::{CloseRefused, ListWriter, SexpWriter, State, StreamWriter, StructWriter, ValueWriter, WriteValues, Writer};

pub(crate) use refusal::answer;

/// The longest buffer that can be lent.
pub const LONGEST_BUFFER: usize = 16_777_215;

/// How many containers may be open, in what is written and in what is read.
pub const MOST_OPEN: usize = 32;

/// The bytes of a state.
pub const STATE_SIZE: usize = 424;
