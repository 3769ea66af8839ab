//! The entry points over numbers and byte slices, for whoever keeps the state's bytes. All unsafe code of this crate is here.
//!
//! Why each call is sound. A slice crosses the C boundary as a pointer and a length, in that order, and every pair below is of one
//! Rust slice: the pointer is valid for that length while the call runs. The library reads and writes inside the lent slices only,
//! keeps no pointer and has no memory of its own. What it may write is borrowed mutably, so no two such slices overlap.
//! Every value of every number, and every content and length of every slice, is allowed: the library refuses what it cannot take.
//!
//! The state is [`STATE_SIZE`](crate::STATE_SIZE) bytes (docs/STATE.md); a slice of another length is refused by 2. Annotations are
//! eight little-endian bytes for each sid, see [`sid_bytes`]. A refused call leaves state and buffer as they were.
//!
//! The calls of the reader are lent the stream and keep nothing: a [`Place`] says where they read. They answer numbers into a slice
//! that is lent for them, as many as it holds.

use crate::{answer, Closed, ReadRefusal, Refusal, Timestamp};

/// Declares entry points by the slices and numbers that they take. A slice crosses as its pointer and its length, in that order: this is
/// the one place where it is taken apart.
macro_rules! entry_points {
    ($(fn $name:ident($($parameters:tt)*) -> $answer:ty;)*) => {
        $(entry_points!($name -> $answer, [] [] [] $($parameters)*,);)*
    };
    // all parameters are gone through: those of the Rust function, the types that cross, and what is handed over
    ($name:ident -> $answer:ty, [$($parameter:ident: $type:ty,)*] [$($crossing:ty,)*] [$($handed:expr,)*]) => {
        #[inline(always)]
        #[allow(clippy::too_many_arguments)]
        pub(crate) fn $name($($parameter: $type),*) -> $answer {
            extern "C" {
                fn $name($(_: $crossing),*) -> $answer;
            }
            // SAFETY: each pointer and the length behind it are of one slice that is borrowed while the call runs, mutably where the
            // library writes; the module's comment says what else the call rests on.
            unsafe { $name($($handed),*) }
        }
    };
    ($name:ident -> $answer:ty, [$($parameters:tt)*] [$($crossing:tt)*] [$($handed:tt)*]
        $slice:ident: &mut [$number:ty], $($rest:tt)*) => {
        entry_points!($name -> $answer, [$($parameters)* $slice: &mut [$number],] [$($crossing)* *mut $number, usize,]
            [$($handed)* $slice.as_mut_ptr(), $slice.len(),] $($rest)*);
    };
    ($name:ident -> $answer:ty, [$($parameters:tt)*] [$($crossing:tt)*] [$($handed:tt)*]
        $slice:ident: &[$number:ty], $($rest:tt)*) => {
        entry_points!($name -> $answer, [$($parameters)* $slice: &[$number],] [$($crossing)* *const $number, usize,]
            [$($handed)* $slice.as_ptr(), $slice.len(),] $($rest)*);
    };
    ($name:ident -> $answer:ty, [$($parameters:tt)*] [$($crossing:tt)*] [$($handed:tt)*] $number:ident: $type:ty, $($rest:tt)*) => {
        entry_points!($name -> $answer, [$($parameters)* $number: $type,] [$($crossing)* $type,] [$($handed)* $number,] $($rest)*);
    };
}

// As in include/goatminute.h.
entry_points! {
    fn gm_start(state: &mut [u8], buf: &mut [u8]) -> u8;
    fn gm_write_null(state: &mut [u8], buf: &mut [u8], annotations: &[u8], code: u8) -> u8;
    fn gm_write_bool(state: &mut [u8], buf: &mut [u8], annotations: &[u8], value: u8) -> u8;
    fn gm_write_i64(state: &mut [u8], buf: &mut [u8], annotations: &[u8], value: i64) -> u8;
    fn gm_write_int(state: &mut [u8], buf: &mut [u8], annotations: &[u8], negative: u8, magnitude: &[u8]) -> u8;
    fn gm_write_f32(state: &mut [u8], buf: &mut [u8], annotations: &[u8], bits: u32) -> u8;
    fn gm_write_f64(state: &mut [u8], buf: &mut [u8], annotations: &[u8], bits: u64) -> u8;
    fn gm_write_decimal(state: &mut [u8], buf: &mut [u8], annotations: &[u8], negative: u8, coefficient: &[u8],
        exponent: i64) -> u8;
    fn gm_write_timestamp(state: &mut [u8], buf: &mut [u8], annotations: &[u8], precision: u8, year: u32, month: u32, day: u32,
        hour: u32, minute: u32, second: u32, known: u8, offset: i32, given: u8, digits: u32, coefficient: u64) -> u8;
    fn gm_write_symbol(state: &mut [u8], buf: &mut [u8], annotations: &[u8], sid: u64) -> u8;
    fn gm_write_string(state: &mut [u8], buf: &mut [u8], annotations: &[u8], bytes: &[u8]) -> u8;
    fn gm_write_clob(state: &mut [u8], buf: &mut [u8], annotations: &[u8], bytes: &[u8]) -> u8;
    fn gm_write_blob(state: &mut [u8], buf: &mut [u8], annotations: &[u8], bytes: &[u8]) -> u8;
    fn gm_field_name(state: &mut [u8], buf: &mut [u8], sid: u64) -> u8;
    fn gm_open_list(state: &mut [u8], buf: &mut [u8], annotations: &[u8]) -> u8;
    fn gm_open_sexp(state: &mut [u8], buf: &mut [u8], annotations: &[u8]) -> u8;
    fn gm_open_struct(state: &mut [u8], buf: &mut [u8], annotations: &[u8]) -> u8;
    fn gm_close(state: &mut [u8], buf: &mut [u8], closed: &mut [u8]) -> u8;
    fn gm_abandon(state: &mut [u8], buf: &mut [u8]) -> u8;
    fn gm_version_marker(state: &mut [u8], buf: &mut [u8]) -> u8;
    fn gm_empty(state: &mut [u8], buf: &[u8]) -> u8;
    fn gm_finished(state: &[u8], buf: &[u8]) -> usize;
    fn gm_read_item(stream: &[u8], end: usize, parent: u8, least: u64, depth: u8, position: usize, item: &mut [u64]) -> u8;
    fn gm_read_rest(stream: &[u8], end: usize, parent: u8, least: u64, depth: u8, position: usize, place: &mut [u64]) -> u8;
    fn gm_read_sid(part: &[u8], position: usize, sid: &mut [u64]) -> u8;
    fn gm_read_decimal(body: &[u8], decimal: &mut [u64]) -> u8;
    fn gm_read_timestamp(body: &[u8], timestamp: &mut [u64]) -> u8;
    fn gm_read_symbol(body: &[u8], sid: &mut [u64]) -> u8;
}

/// A start: the empty state over a buffer that begins with a version marker. Refused, the state becomes the empty one with used length 0.
#[inline(always)]
pub fn start(state: &mut [u8], buf: &mut [u8]) -> Result<(), Refusal> {
    answer(gm_start(state, buf))
}

/// A null of the type with this code of the Ion document: 0 null, 1 bool, 2 int, 4 float, 5 decimal, 6 timestamp, 7 symbol, 8 string,
/// 9 clob, 10 blob, 11 list, 12 sexp, 13 struct. 3 is int too, and a number past 13 is null.
#[inline(always)]
pub fn write_null(state: &mut [u8], buf: &mut [u8], annotations: &[u8], code: u8) -> Result<(), Refusal> {
    answer(gm_write_null(state, buf, annotations, code))
}

/// A bool.
#[inline(always)]
pub fn write_bool(state: &mut [u8], buf: &mut [u8], annotations: &[u8], value: bool) -> Result<(), Refusal> {
    answer(gm_write_bool(state, buf, annotations, value as u8))
}

/// An int of 64 bits with its sign.
#[inline(always)]
pub fn write_i64(state: &mut [u8], buf: &mut [u8], annotations: &[u8], value: i64) -> Result<(), Refusal> {
    answer(gm_write_i64(state, buf, annotations, value))
}

/// An int of any size: its sign, and its magnitude from the highest byte on.
#[inline(always)]
pub fn write_int(state: &mut [u8], buf: &mut [u8], annotations: &[u8], negative: bool, magnitude: &[u8]) -> Result<(), Refusal> {
    answer(gm_write_int(state, buf, annotations, negative as u8, magnitude))
}

/// A float by the bits of binary32.
#[inline(always)]
pub fn write_f32(state: &mut [u8], buf: &mut [u8], annotations: &[u8], bits: u32) -> Result<(), Refusal> {
    answer(gm_write_f32(state, buf, annotations, bits))
}

/// A float by the bits of binary64, in four bytes where binary32 holds it.
#[inline(always)]
pub fn write_f64(state: &mut [u8], buf: &mut [u8], annotations: &[u8], bits: u64) -> Result<(), Refusal> {
    answer(gm_write_f64(state, buf, annotations, bits))
}

/// A decimal: its sign, its coefficient from the highest byte on, its exponent.
#[inline(always)]
pub fn write_decimal(
    state: &mut [u8],
    buf: &mut [u8],
    annotations: &[u8],
    negative: bool,
    coefficient: &[u8],
    exponent: i64,
) -> Result<(), Refusal> {
    answer(gm_write_decimal(
        state,
        buf,
        annotations,
        negative as u8,
        coefficient,
        exponent,
    ))
}

/// A timestamp by its local fields and its offset.
#[inline(always)]
pub fn write_timestamp(state: &mut [u8], buf: &mut [u8], annotations: &[u8], value: Timestamp) -> Result<(), Refusal> {
    answer(timestamp(state, buf, annotations, value))
}

/// The same by its number.
#[inline(always)]
pub(crate) fn timestamp(state: &mut [u8], buf: &mut [u8], annotations: &[u8], value: Timestamp) -> u8 {
    let (known, offset) = match value.offset {
        Some(minutes) => (1, minutes),
        None => (0, 0),
    };
    let (given, digits, coefficient) = match value.fraction {
        Some((digits, coefficient)) => (1, digits, coefficient),
        None => (0, 0, 0),
    };
    gm_write_timestamp(
        state,
        buf,
        annotations,
        value.precision as u8,
        value.year,
        value.month,
        value.day,
        value.hour,
        value.minute,
        value.second,
        known,
        offset,
        given,
        digits,
        coefficient,
    )
}

/// A symbol by its sid.
#[inline(always)]
pub fn write_symbol(state: &mut [u8], buf: &mut [u8], annotations: &[u8], sid: u64) -> Result<(), Refusal> {
    answer(gm_write_symbol(state, buf, annotations, sid))
}

/// A string, in UTF-8.
#[inline(always)]
pub fn write_string(state: &mut [u8], buf: &mut [u8], annotations: &[u8], bytes: &[u8]) -> Result<(), Refusal> {
    answer(gm_write_string(state, buf, annotations, bytes))
}

/// A clob.
#[inline(always)]
pub fn write_clob(state: &mut [u8], buf: &mut [u8], annotations: &[u8], bytes: &[u8]) -> Result<(), Refusal> {
    answer(gm_write_clob(state, buf, annotations, bytes))
}

/// A blob.
#[inline(always)]
pub fn write_blob(state: &mut [u8], buf: &mut [u8], annotations: &[u8], bytes: &[u8]) -> Result<(), Refusal> {
    answer(gm_write_blob(state, buf, annotations, bytes))
}

/// A field name.
#[inline(always)]
pub fn field_name(state: &mut [u8], buf: &mut [u8], sid: u64) -> Result<(), Refusal> {
    answer(gm_field_name(state, buf, sid))
}

/// The opening of a list.
#[inline(always)]
pub fn open_list(state: &mut [u8], buf: &mut [u8], annotations: &[u8]) -> Result<(), Refusal> {
    answer(gm_open_list(state, buf, annotations))
}

/// The opening of an s-expression.
#[inline(always)]
pub fn open_sexp(state: &mut [u8], buf: &mut [u8], annotations: &[u8]) -> Result<(), Refusal> {
    answer(gm_open_sexp(state, buf, annotations))
}

/// The opening of a struct.
#[inline(always)]
pub fn open_struct(state: &mut [u8], buf: &mut [u8], annotations: &[u8]) -> Result<(), Refusal> {
    answer(gm_open_struct(state, buf, annotations))
}

/// The closing of the innermost container, which becomes a member of the one around it.
#[inline(always)]
pub fn close(state: &mut [u8], buf: &mut [u8]) -> Result<Closed, Refusal> {
    let mut closed = [[0; 4]; 3];
    close_into(state, buf, closed.as_flattened_mut())?;
    Ok(Closed::from_numbers(closed))
}

/// The library puts as many of its numbers into `closed` as that holds whole, so one with more numbers than are asked for fits too.
#[inline(always)]
fn close_into(state: &mut [u8], buf: &mut [u8], closed: &mut [u8]) -> Result<(), Refusal> {
    answer(gm_close(state, buf, closed))
}

/// The abandonment of the innermost container: its bytes are given back, and a name before it waits again.
#[inline(always)]
pub fn abandon(state: &mut [u8], buf: &mut [u8]) -> Result<(), Refusal> {
    answer(gm_abandon(state, buf))
}

/// A version marker, at the place of the call.
#[inline(always)]
pub fn version_marker(state: &mut [u8], buf: &mut [u8]) -> Result<(), Refusal> {
    answer(gm_version_marker(state, buf))
}

/// An emptying: the used length becomes 0, and no byte of the buffer alters.
#[inline(always)]
pub fn empty(state: &mut [u8], buf: &[u8]) -> Result<(), Refusal> {
    answer(gm_empty(state, buf))
}

/// A taking: the finished bytes, as a part of the lent buffer. The part is empty if a container is open, a field name waits, or the
/// state or buffer would be refused by 1 or 2.
#[inline(always)]
#[must_use]
pub fn finished<'b>(state: &[u8], buf: &'b [u8]) -> &'b [u8] {
    let length = gm_finished(state, buf);
    buf.get(..length).unwrap_or(&[])
}

/// Sids as the entry points read them, eight little-endian bytes each.
#[cfg(target_endian = "little")]
#[inline(always)]
#[must_use]
pub fn sid_bytes(sids: &[u64]) -> &[u8] {
    // SAFETY: a u64 has eight bytes, all of them set, and bytes need no alignment; the part is borrowed as long as the sids. On such a
    // machine they lie least significant first.
    unsafe { core::slice::from_raw_parts(sids.as_ptr().cast(), core::mem::size_of_val(sids)) }
}

#[cfg(not(target_endian = "little"))]
compile_error!("sid_bytes reads sids in place, which needs a little-endian machine");

/// Where an item is read.
#[derive(Clone, Copy, Debug, PartialEq, Eq)]
pub struct Place {
    /// Where what holds the item ends: the stream's length, or a container's `stop`.
    pub end: usize,
    /// The container's `kind`; 0 is the stream itself.
    pub parent: u8,
    /// The name of the item before, pads aside, or 0: in a sorted struct no name is under it.
    pub least: u64,
    /// How many containers are open.
    pub depth: u8,
    /// Where the item is read.
    pub position: usize,
}

impl Place {
    /// In the stream itself.
    #[inline]
    #[must_use]
    pub const fn in_stream(stream: &[u8], position: usize) -> Self {
        Place {
            end: stream.len(),
            parent: 0,
            least: 0,
            depth: 0,
            position,
        }
    }
}

/// An item by the places of its parts.
#[derive(Clone, Copy, Debug, PartialEq, Eq)]
pub struct ItemParts {
    /// 0 where the parent is no struct.
    pub name: u64,
    /// Where the annotations' sids start.
    pub sids: usize,
    /// Where they stop; the same place if there are none.
    pub sids_end: usize,
    /// The type byte of the value itself. Below 0F a NOP pad; E0 a version marker; FF nothing, the position is the end.
    pub kind: u8,
    /// Where the value's body starts.
    pub start: usize,
    /// Where it stops. The next item stands there.
    pub stop: usize,
}

/// The item at a place, by its parts.
#[inline(always)]
pub fn read_item(stream: &[u8], place: Place) -> Result<ItemParts, Refusal> {
    let mut item = [0; 6];
    let Place {
        end,
        parent,
        least,
        depth,
        position,
    } = place;
    answer(gm_read_item(stream, end, parent, least, depth, position, &mut item))?;
    let [name, sids, sids_end, kind, start, stop] = item;
    Ok(ItemParts {
        name,
        sids: sids as usize,
        sids_end: sids_end as usize,
        kind: kind as u8,
        start: start as usize,
        stop: stop as usize,
    })
}

/// Reads and checks all from a place to the end of what holds it, containers entered. Refused, it answers where the item begins that
/// does not read.
#[inline(always)]
pub fn read_rest(stream: &[u8], place: Place) -> Result<(), ReadRefusal> {
    let Place {
        end,
        parent,
        least,
        depth,
        position,
    } = place;
    let mut refused = [position as u64];
    answer(gm_read_rest(stream, end, parent, least, depth, position, &mut refused)).map_err(|refusal| ReadRefusal {
        refusal,
        place: refused[0] as usize,
    })
}

/// A sid at a position of the annotations, or of any VarUInts; and the position behind it.
#[inline(always)]
pub fn read_sid(part: &[u8], position: usize) -> Result<(u64, usize), Refusal> {
    let mut sid = [0; 2];
    answer(gm_read_sid(part, position, &mut sid))?;
    Ok((sid[0], sid[1] as usize))
}

/// A decimal's body: whether its exponent is negative, the exponent's magnitude, and where in the body the coefficient starts. That is an
/// Int: the top bit of its first byte is its sign.
#[inline(always)]
pub fn read_decimal(body: &[u8]) -> Result<[u64; 3], Refusal> {
    let mut decimal = [0; 3];
    answer(gm_read_decimal(body, &mut decimal))?;
    Ok(decimal)
}

/// A timestamp's body: whether its offset is known, whether that is negative, and its minutes; how many fields there are; year, month,
/// day, hour, minute and second of UTC; how many digits the fraction has, and where in the body their coefficient starts, an Int; whether
/// it is out of the calendar, as [`ReadTimestamp`](crate::ReadTimestamp) says.
#[inline(always)]
pub fn read_timestamp(body: &[u8]) -> Result<[u64; 13], Refusal> {
    let mut timestamp = [0; 13];
    answer(gm_read_timestamp(body, &mut timestamp))?;
    Ok(timestamp)
}

/// A symbol's body: its sid.
#[inline(always)]
pub fn read_symbol(body: &[u8]) -> Result<u64, Refusal> {
    let mut sid = [0];
    answer(gm_read_symbol(body, &mut sid))?;
    Ok(sid[0])
}

#[cfg(test)]
mod tests {
    use super::*;
    use crate::STATE_SIZE;

    #[test]
    fn closing_puts_the_numbers_that_the_slice_holds_whole() {
        for length in 0..=16 {
            let mut state = [0; STATE_SIZE];
            let mut buf = [0xEE; 16];
            start(&mut state, &mut buf).unwrap();
            open_list(&mut state, &mut buf, sid_bytes(&[10])).unwrap();
            write_bool(&mut state, &mut buf, &[], true).unwrap();
            write_bool(&mut state, &mut buf, &[], false).unwrap();
            let mut closed = [0xEE; 16];
            assert_eq!(close_into(&mut state, &mut buf, &mut closed[..length]), Ok(()));
            assert_eq!(finished(&state, &buf)[4..], [0xE5, 0x81, 0x8A, 0xB2, 0x11, 0x10]);
            // the size, the number of members, and the bytes moved: two of annotations and two of body
            let mut expected = [0xEE; 16];
            for (index, number) in [6, 2, 4].into_iter().enumerate() {
                let place = 4 * index..4 * index + 4;
                if place.end <= length {
                    expected[place].copy_from_slice(&[number, 0, 0, 0]);
                }
            }
            assert_eq!(closed, expected, "a slice of {length} bytes");
        }
    }

    #[test]
    fn numbers_have_four_bytes_each() {
        // 70,000 members of two bytes: 140,000 bytes move, and the list takes four more
        let mut state = [0; STATE_SIZE];
        let mut buf = [0xEE; 140_010];
        start(&mut state, &mut buf).unwrap();
        open_list(&mut state, &mut buf, &[]).unwrap();
        for _ in 0..70_000 {
            write_i64(&mut state, &mut buf, &[], 5).unwrap();
        }
        let mut closed = [0xEE; 12];
        assert_eq!(close_into(&mut state, &mut buf, &mut closed), Ok(()));
        // 222E4, 11170 and 222E0 in hex
        assert_eq!(closed, [0xE4, 0x22, 0x02, 0, 0x70, 0x11, 0x01, 0, 0xE0, 0x22, 0x02, 0]);
    }

    #[test]
    fn refused_closing_leaves_the_slice() {
        fn refused<const N: usize>(state: &mut [u8], buf: &mut [u8; N], why: Refusal) {
            let before = *buf;
            for length in 0..=16 {
                let mut closed = [0xEE; 16];
                assert_eq!(close_into(state, buf, &mut closed[..length]), Err(why));
                assert_eq!(closed, [0xEE; 16], "a slice of {length} bytes");
                assert_eq!(*buf, before);
            }
        }
        let mut state = [0; STATE_SIZE];
        // a body of 128 bytes needs a header of three, one more than the reserve
        let mut buf = [0xEE; 4 + 2 + 128];
        start(&mut state, &mut buf).unwrap();
        refused(&mut state[1..], &mut buf, Refusal::StateUnfit);
        refused(&mut state, &mut buf, Refusal::Misplaced);
        open_struct(&mut state, &mut buf, &[]).unwrap();
        field_name(&mut state, &mut buf, 4).unwrap();
        refused(&mut state, &mut buf, Refusal::Misplaced);
        write_blob(&mut state, &mut buf, &[], &[1; 125]).unwrap();
        refused(&mut state, &mut buf, Refusal::NoRoom);
        // more members than bytes
        state[8 + 9] = 129;
        refused(&mut state, &mut buf, Refusal::StateUnfit);
    }
}
