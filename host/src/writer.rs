use core::{fmt, mem};

use crate::sys;
use crate::{answer, Closed, Decimal, IonType, Refusal, Timestamp, STATE_SIZE};

/// A writer's state as its bytes; docs/STATE.md has their layout. The default is the empty state, used length 0 with nothing open: a
/// writer that is resumed with it writes from the buffer's front on, without a version marker.
#[derive(Clone, Debug, PartialEq, Eq)]
#[repr(C, align(8))]
pub struct State {
    bytes: [u8; STATE_SIZE],
}

impl State {
    /// Any bytes make a state. One that does not fit the buffer is refused by each call (2). A state of 296 bytes, kept by a version
    /// that counts no members, is not read.
    #[must_use]
    pub const fn from_bytes(bytes: [u8; STATE_SIZE]) -> Self {
        State { bytes }
    }

    /// Its bytes, to be kept.
    #[must_use]
    pub const fn as_bytes(&self) -> &[u8; STATE_SIZE] {
        &self.bytes
    }

    /// Its bytes, for the calls of [`sys`].
    #[must_use]
    pub fn as_mut_bytes(&mut self) -> &mut [u8; STATE_SIZE] {
        &mut self.bytes
    }
}

impl Default for State {
    fn default() -> Self {
        State::from_bytes([0; STATE_SIZE])
    }
}

/// Where the state has the number of open containers (docs/STATE.md).
const DEPTH: usize = 4;

/// The used length, as the state has it (docs/STATE.md).
#[inline]
fn used_length(state: &[u8; STATE_SIZE]) -> usize {
    let [first, second, third, fourth, ..] = *state;
    u32::from_le_bytes([first, second, third, fourth]) as usize
}

/// What every writer can be asked before a refusal tells. It has `lent`, its state and its buffer.
macro_rules! queries {
    () => {
        /// The buffer's length.
        #[inline]
        #[must_use]
        pub fn capacity(&self) -> usize {
            self.lent().1.len()
        }

        /// How many bytes of the buffer are used, those reserved for the headers of open containers counted.
        #[inline]
        #[must_use]
        pub fn used(&self) -> usize {
            used_length(self.lent().0)
        }

        /// How many bytes of the buffer are left. A close may need some too: a header takes one byte more than is reserved for it from a
        /// body of 128 bytes on, two from 16,384 and three from 2,097,152.
        #[inline]
        #[must_use]
        pub fn remaining(&self) -> usize {
            self.capacity().saturating_sub(self.used())
        }

        /// How many containers are open, of [`MOST_OPEN`](crate::MOST_OPEN) that may be.
        #[inline]
        #[must_use]
        pub fn depth(&self) -> usize {
            usize::from(self.lent().0[DEPTH])
        }

        fn show(&self, name: &str, f: &mut fmt::Formatter<'_>) -> fmt::Result {
            f.debug_struct(name)
                .field("used", &self.used())
                .field("capacity", &self.capacity())
                .field("depth", &self.depth())
                .finish()
        }
    };
}

/// A writer over a lent buffer.
pub type Writer<'b> = StreamWriter<&'b mut [u8]>;

/// A writer of a stream with its state and its buffer, which is whatever it is given: a lent slice, then it is a [`Writer`], or
/// `[u8; N]`, `Vec<u8>`, `Box<[u8]>` or another that the writer owns. So a logger holds both in one field:
///
/// ```
/// use goatminute::{Refusal, StreamWriter, WriteValues};
/// use std::io::{self, Write};
///
/// struct Log {
///     writer: StreamWriter<[u8; 4096]>,
/// }
///
/// impl Log {
///     fn new() -> Result<Log, Refusal> {
///         let writer = StreamWriter::new([0; 4096])?;
///         Ok(Log { writer })
///     }
///
///     fn brake(&mut self, axis: u64, is_set: bool) -> Result<(), Refusal> {
///         let mut record = self.writer.struct_writer()?;
///         record.field_name(11)?.write_u64(axis)?;
///         record.field_name(16)?.write_bool(is_set)?;
///         record.close()?;
///         Ok(())
///     }
///
///     /// Sends what is finished if less room is left than a record takes.
///     fn send(&mut self, file: &mut impl Write) -> io::Result<()> {
///         if self.writer.remaining() < 64 {
///             file.write_all(self.writer.finished())?;
///             self.writer.empty().map_err(io::Error::other)?;
///         }
///         Ok(())
///     }
/// }
///
/// # fn main() -> Result<(), Box<dyn std::error::Error>> {
/// # let mut file = Vec::new();
/// let mut log = Log::new()?;
/// log.brake(1, true)?;
/// log.send(&mut file)?;
/// assert_eq!((log.writer.capacity(), log.writer.used()), (4096, 4 + 6));
/// # while file.is_empty() {
/// #     log.brake(1, false)?;
/// #     log.send(&mut file)?;
/// # }
/// # assert_eq!(file[..10], *b"\xE0\x01\x00\xEA\xD5\x8B\x21\x01\x90\x11");
/// # assert_eq!((file.len() - 4) % 6, 0);
/// # Ok(())
/// # }
/// ```
///
/// # Leaked writers
///
/// A container whose writer was leaked (`mem::forget`) stays open, and calls go on inside it, also those of the writers around it.
/// [`close_innermost`](StreamWriter::close_innermost) and [`abandon_innermost`](StreamWriter::abandon_innermost) end it.
pub struct StreamWriter<B> {
    state: State,
    buf: B,
}

impl<B: AsRef<[u8]> + AsMut<[u8]>> StreamWriter<B> {
    /// Starts a stream: the buffer begins with a version marker.
    pub fn new(mut buf: B) -> Result<Self, Refusal> {
        let mut state = State::default();
        sys::start(&mut state.bytes, buf.as_mut())?;
        Ok(StreamWriter::resume(state, buf))
    }

    /// Goes on with a state kept from before, over the same buffer. Values go to the innermost container that is open in it, and are
    /// counted on from the number of members that it has there; [`close_innermost`](StreamWriter::close_innermost) and
    /// [`abandon_innermost`](StreamWriter::abandon_innermost) end it, and `sys::field_name` names a field in it.
    /// A state of 296 bytes cannot be resumed: the version that kept it has to finish its stream.
    #[must_use]
    pub fn resume(state: State, buf: B) -> Self {
        StreamWriter { state, buf }
    }

    /// The state, to be kept.
    #[must_use]
    pub fn state(&self) -> &State {
        &self.state
    }

    /// The state and the buffer, to go on with `resume` or with the calls of [`sys`].
    #[must_use]
    pub fn into_parts(self) -> (State, B) {
        (self.state, self.buf)
    }

    /// Writes a version marker at the place of the call.
    pub fn write_version_marker(&mut self) -> Result<(), Refusal> {
        sys::version_marker(&mut self.state.bytes, self.buf.as_mut())
    }

    /// The finished bytes; none while a container is open or a field name waits.
    #[inline]
    #[must_use]
    pub fn finished(&self) -> &[u8] {
        sys::finished(&self.state.bytes, self.buf.as_ref())
    }

    /// Sets the used length to 0 once the finished bytes are taken. No byte of the buffer alters, and no marker is written.
    #[inline]
    pub fn empty(&mut self) -> Result<(), Refusal> {
        sys::empty(&mut self.state.bytes, self.buf.as_ref())
    }

    /// Closes the innermost container where no writer of its own can: it was open in the state that was resumed, or its writer was leaked.
    pub fn close_innermost(&mut self) -> Result<Closed, Refusal> {
        sys::close(&mut self.state.bytes, self.buf.as_mut())
    }

    /// Abandons the innermost container where no writer of its own can, as [`close_innermost`](StreamWriter::close_innermost) closes it.
    pub fn abandon_innermost(&mut self) -> Result<(), Refusal> {
        sys::abandon(&mut self.state.bytes, self.buf.as_mut())
    }

    #[inline]
    fn lent(&self) -> (&[u8; STATE_SIZE], &[u8]) {
        (&self.state.bytes, self.buf.as_ref())
    }

    queries!();
}

impl<B: AsRef<[u8]> + AsMut<[u8]>> fmt::Debug for StreamWriter<B> {
    fn fmt(&self, f: &mut fmt::Formatter<'_>) -> fmt::Result {
        self.show("StreamWriter", f)
    }
}

/// State and buffer of a writer.
struct Standing<'w> {
    state: &'w mut [u8; STATE_SIZE],
    buf: &'w mut [u8],
}

/// The answer of an entry point that is lent state and buffer.
macro_rules! call {
    ($at:expr, $entry:ident($($argument:expr),*)) => {
        answer(sys::$entry($at.state, $at.buf, $($argument),*))
    };
}

impl Standing<'_> {
    #[inline]
    fn value_writer(&mut self) -> ValueWriter<'_, 'static> {
        ValueWriter::new(Standing {
            state: self.state,
            buf: self.buf,
        })
    }

    #[inline]
    fn lent(&self) -> (&[u8; STATE_SIZE], &[u8]) {
        (self.state, self.buf)
    }
}

/// Writes one value, with its annotations if it has any.
#[must_use = "nothing is written before one of its calls is made"]
pub struct ValueWriter<'w, 'a> {
    at: Standing<'w>,
    annotations: &'a [u8],
}

impl<'w> ValueWriter<'w, 'static> {
    #[inline]
    fn new(at: Standing<'w>) -> Self {
        ValueWriter { at, annotations: &[] }
    }
}

impl<'w> ValueWriter<'w, '_> {
    /// The sids before the value, in their order, as many as the buffer has room for. They replace any given before; none means no
    /// annotations.
    #[inline]
    pub fn with_annotations<'s>(self, sids: &'s [u64]) -> ValueWriter<'w, 's> {
        ValueWriter {
            at: self.at,
            annotations: sys::sid_bytes(sids),
        }
    }

    /// A null of a type.
    #[inline]
    pub fn write_null(self, ion_type: IonType) -> Result<(), Refusal> {
        call!(self.at, gm_write_null(self.annotations, ion_type as u8))
    }

    /// A bool.
    #[inline]
    pub fn write_bool(self, value: bool) -> Result<(), Refusal> {
        call!(self.at, gm_write_bool(self.annotations, value as u8))
    }

    /// An int that signed 64 bits hold.
    #[inline]
    pub fn write_i64(self, value: i64) -> Result<(), Refusal> {
        call!(self.at, gm_write_i64(self.annotations, value))
    }

    /// An int that unsigned 64 bits hold: the bytes of `write_i64` where an `i64` holds it too, and else of `write_int`.
    #[inline]
    pub fn write_u64(self, value: u64) -> Result<(), Refusal> {
        match i64::try_from(value) {
            Ok(value) => self.write_i64(value),
            Err(_) => self.write_int(false, &value.to_be_bytes()),
        }
    }

    /// An int of any size, its magnitude from the highest byte on. Zero takes a byte here, and none in `write_i64`.
    #[inline]
    pub fn write_int(self, negative: bool, magnitude: &[u8]) -> Result<(), Refusal> {
        call!(self.at, gm_write_int(self.annotations, negative as u8, magnitude))
    }

    /// A float of binary32, with its own bits.
    #[inline]
    pub fn write_f32(self, value: f32) -> Result<(), Refusal> {
        call!(self.at, gm_write_f32(self.annotations, value.to_bits()))
    }

    /// A float of binary64, in four bytes where binary32 holds it.
    #[inline]
    pub fn write_f64(self, value: f64) -> Result<(), Refusal> {
        call!(self.at, gm_write_f64(self.annotations, value.to_bits()))
    }

    /// A decimal. One whose exponent and coefficient take more than 32 bytes is refused (8).
    #[inline]
    pub fn write_decimal(self, value: Decimal<'_>) -> Result<(), Refusal> {
        let Decimal {
            negative,
            coefficient,
            exponent,
        } = value;
        let mut room = [0; 16];
        let bytes = coefficient.bytes(&mut room);
        call!(self.at, gm_write_decimal(self.annotations, negative as u8, bytes, exponent))
    }

    /// A timestamp. One with a field out of its range is refused (7).
    #[inline]
    pub fn write_timestamp(self, value: Timestamp) -> Result<(), Refusal> {
        call!(self.at, timestamp(self.annotations, value))
    }

    /// A symbol by its sid.
    #[inline]
    pub fn write_symbol(self, sid: u64) -> Result<(), Refusal> {
        call!(self.at, gm_write_symbol(self.annotations, sid))
    }

    /// A string.
    #[inline]
    pub fn write_string(self, value: &str) -> Result<(), Refusal> {
        self.write_string_bytes(value.as_bytes())
    }

    /// A string by bytes that need not be UTF-8; those that are not are refused (6).
    #[inline]
    pub fn write_string_bytes(self, value: &[u8]) -> Result<(), Refusal> {
        call!(self.at, gm_write_string(self.annotations, value))
    }

    /// A clob.
    #[inline]
    pub fn write_clob(self, value: &[u8]) -> Result<(), Refusal> {
        call!(self.at, gm_write_clob(self.annotations, value))
    }

    /// A blob.
    #[inline]
    pub fn write_blob(self, value: &[u8]) -> Result<(), Refusal> {
        call!(self.at, gm_write_blob(self.annotations, value))
    }

    /// Opens a list.
    #[inline(always)]
    pub fn list_writer(self) -> Result<ListWriter<'w>, Refusal> {
        call!(self.at, gm_open_list(self.annotations))?;
        Ok(ListWriter(Open(self.at)))
    }

    /// Opens an s-expression.
    #[inline(always)]
    pub fn sexp_writer(self) -> Result<SexpWriter<'w>, Refusal> {
        call!(self.at, gm_open_sexp(self.annotations))?;
        Ok(SexpWriter(Open(self.at)))
    }

    /// Opens a struct.
    #[inline(always)]
    pub fn struct_writer(self) -> Result<StructWriter<'w>, Refusal> {
        call!(self.at, gm_open_struct(self.annotations))?;
        Ok(StructWriter(Open(self.at)))
    }

    #[inline]
    fn lent(&self) -> (&[u8; STATE_SIZE], &[u8]) {
        self.at.lent()
    }

    queries!();
}

impl fmt::Debug for ValueWriter<'_, '_> {
    fn fmt(&self, f: &mut fmt::Formatter<'_>) -> fmt::Result {
        self.show("ValueWriter", f)
    }
}

/// The calls of everything that holds values. Each writes one value at its end; in a struct, after a field name. They are those of
/// [`ValueWriter`], whose comments say more of each.
pub trait WriteValues {
    /// A writer of the next value.
    fn value_writer(&mut self) -> ValueWriter<'_, 'static>;

    /// A writer of the next value with annotations.
    #[inline]
    fn with_annotations<'a>(&mut self, sids: &'a [u64]) -> ValueWriter<'_, 'a> {
        self.value_writer().with_annotations(sids)
    }

    /// A null of a type.
    #[inline]
    fn write_null(&mut self, ion_type: IonType) -> Result<(), Refusal> {
        self.value_writer().write_null(ion_type)
    }

    /// A bool.
    #[inline]
    fn write_bool(&mut self, value: bool) -> Result<(), Refusal> {
        self.value_writer().write_bool(value)
    }

    /// An int that signed 64 bits hold.
    #[inline]
    fn write_i64(&mut self, value: i64) -> Result<(), Refusal> {
        self.value_writer().write_i64(value)
    }

    /// An int that unsigned 64 bits hold.
    #[inline]
    fn write_u64(&mut self, value: u64) -> Result<(), Refusal> {
        self.value_writer().write_u64(value)
    }

    /// An int of any size, its magnitude from the highest byte on.
    #[inline]
    fn write_int(&mut self, negative: bool, magnitude: &[u8]) -> Result<(), Refusal> {
        self.value_writer().write_int(negative, magnitude)
    }

    /// A float of binary32.
    #[inline]
    fn write_f32(&mut self, value: f32) -> Result<(), Refusal> {
        self.value_writer().write_f32(value)
    }

    /// A float of binary64.
    #[inline]
    fn write_f64(&mut self, value: f64) -> Result<(), Refusal> {
        self.value_writer().write_f64(value)
    }

    /// A decimal.
    #[inline]
    fn write_decimal(&mut self, value: Decimal<'_>) -> Result<(), Refusal> {
        self.value_writer().write_decimal(value)
    }

    /// A timestamp.
    #[inline]
    fn write_timestamp(&mut self, value: Timestamp) -> Result<(), Refusal> {
        self.value_writer().write_timestamp(value)
    }

    /// A symbol by its sid.
    #[inline]
    fn write_symbol(&mut self, sid: u64) -> Result<(), Refusal> {
        self.value_writer().write_symbol(sid)
    }

    /// A string.
    #[inline]
    fn write_string(&mut self, value: &str) -> Result<(), Refusal> {
        self.value_writer().write_string(value)
    }

    /// A string by bytes that need not be UTF-8.
    #[inline]
    fn write_string_bytes(&mut self, value: &[u8]) -> Result<(), Refusal> {
        self.value_writer().write_string_bytes(value)
    }

    /// A clob.
    #[inline]
    fn write_clob(&mut self, value: &[u8]) -> Result<(), Refusal> {
        self.value_writer().write_clob(value)
    }

    /// A blob.
    #[inline]
    fn write_blob(&mut self, value: &[u8]) -> Result<(), Refusal> {
        self.value_writer().write_blob(value)
    }

    /// Opens a list.
    #[inline]
    fn list_writer(&mut self) -> Result<ListWriter<'_>, Refusal> {
        self.value_writer().list_writer()
    }

    /// Opens an s-expression.
    #[inline]
    fn sexp_writer(&mut self) -> Result<SexpWriter<'_>, Refusal> {
        self.value_writer().sexp_writer()
    }

    /// Opens a struct.
    #[inline]
    fn struct_writer(&mut self) -> Result<StructWriter<'_>, Refusal> {
        self.value_writer().struct_writer()
    }
}

impl<B: AsRef<[u8]> + AsMut<[u8]>> WriteValues for StreamWriter<B> {
    #[inline]
    fn value_writer(&mut self) -> ValueWriter<'_, 'static> {
        ValueWriter::new(Standing {
            state: &mut self.state.bytes,
            buf: self.buf.as_mut(),
        })
    }
}

/// An open container, abandoned when it is dropped. The writer that it borrows can make no call until then, so the innermost
/// container is this one, unless a writer inside it was leaked: then calls go on inside the leaked one.
struct Open<'w>(Standing<'w>);

impl Drop for Open<'_> {
    #[inline]
    fn drop(&mut self) {
        // Refused only if the state was unfit from the start, and then there is nothing to give back.
        let _ = call!(self.0, gm_abandon());
    }
}

/// A close that was refused, and the writer of the container, which is still open: calls inside it can go on. Dropped, it abandons the
/// container, so `?` in a function that answers a [`Refusal`] leaves nothing open.
///
/// ```
/// use goatminute::{IonType, WriteValues, Writer};
///
/// # fn main() -> Result<(), goatminute::Refusal> {
/// let mut buf = [0; 64];
/// let mut writer = Writer::new(&mut buf)?;
/// let mut record = writer.struct_writer()?;
/// record.field_name(10)?;
/// let closed = match record.try_close() {
///     Ok(closed) => closed,
///     // a name waits
///     Err(refused) => {
///         let mut record = refused.into_writer();
///         record.write_null(IonType::Null)?;
///         record.close()?
///     }
/// };
/// assert_eq!(closed.members, 1);
/// # Ok(())
/// # }
/// ```
#[derive(Debug)]
pub struct CloseRefused<W> {
    /// Why.
    pub refusal: Refusal,
    writer: W,
}

impl<W> CloseRefused<W> {
    /// The writer of the container, to go on inside it.
    pub fn into_writer(self) -> W {
        self.writer
    }
}

impl<W> From<CloseRefused<W>> for Refusal {
    #[inline]
    fn from(refused: CloseRefused<W>) -> Refusal {
        refused.refusal
    }
}

impl<W> fmt::Display for CloseRefused<W> {
    fn fmt(&self, f: &mut fmt::Formatter<'_>) -> fmt::Result {
        fmt::Display::fmt(&self.refusal, f)
    }
}

impl<W: fmt::Debug> core::error::Error for CloseRefused<W> {}

macro_rules! container_writer {
    ($name:ident, $container:literal) => {
        #[doc = $container]
        /// that is open. Dropped without `close`, it is abandoned.
        #[must_use = "dropped without `close`, the container is abandoned"]
        pub struct $name<'w>(Open<'w>);

        impl $name<'_> {
            /// Closes the container, and answers its size, how many members it has and how many bytes moved. A refused close abandons it.
            #[inline(always)]
            pub fn close(self) -> Result<Closed, Refusal> {
                Ok(self.try_close()?)
            }

            /// The same, but a refused close leaves the container open: [`CloseRefused`] hands its writer back.
            #[inline(always)]
            pub fn try_close(mut self) -> Result<Closed, CloseRefused<Self>> {
                let at = &mut self.0 .0;
                let mut closed = [[0; 4]; 3];
                match call!(at, gm_close(closed.as_flattened_mut())) {
                    Ok(()) => {
                        mem::forget(self);
                        Ok(Closed::from_numbers(closed))
                    }
                    Err(refusal) => Err(CloseRefused { refusal, writer: self }),
                }
            }

            #[inline]
            fn lent(&self) -> (&[u8; STATE_SIZE], &[u8]) {
                self.0 .0.lent()
            }

            queries!();
        }

        impl WriteValues for $name<'_> {
            #[inline]
            fn value_writer(&mut self) -> ValueWriter<'_, 'static> {
                self.0 .0.value_writer()
            }
        }

        impl fmt::Debug for $name<'_> {
            fn fmt(&self, f: &mut fmt::Formatter<'_>) -> fmt::Result {
                self.show(stringify!($name), f)
            }
        }
    };
}

container_writer!(ListWriter, "A list");
container_writer!(SexpWriter, "An s-expression");
container_writer!(StructWriter, "A struct");

impl StructWriter<'_> {
    /// Writes the name of the field whose value is next.
    #[inline(always)]
    pub fn field_name(&mut self, sid: u64) -> Result<&mut Self, Refusal> {
        let at = &mut self.0 .0;
        call!(at, gm_field_name(sid))?;
        Ok(self)
    }
}
