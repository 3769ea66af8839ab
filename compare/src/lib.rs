//! Trial lines and what document 01 says of them, and document 02, Item 10, of their containers; streams and what document 02,
//! Items 1 and 2, says of them, and the list of small values of Item 12.
//!
//! Written from the documents alone: nothing here is shared with the proved sources, so that a slip
//! in one shows against the other.

pub mod damage;
pub mod families;
pub mod form;
pub mod length;
pub mod random;
pub mod reading;
pub mod refusal;
pub mod rng;
pub mod sample;
pub mod small_values;
pub mod stream;
pub mod value;
pub mod verdict;
