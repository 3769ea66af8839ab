/* Goatminute: an Ion 1.0 binary log writer over one lent buffer, and a reader over a lent stream. Link with libgoatminute.a.
 *
 * The state is GM_STATE_SIZE bytes that the caller keeps between the calls:
 *   0     4  used length, least significant byte first
 *   4     1  how many containers are open
 *   5     1  0 if no field name waits, else one does
 *   6     2  no meaning
 *   8   416  32 containers of 13 bytes: start (4) and header (4), type code (1), number of members (4), all least
 *            significant byte first
 * A state of 296 bytes, kept by a version that counts no members, is refused by 2.
 *
 * A slice is a pointer and a length. A slice of length 0 may have any pointer but a null one. State, buffer, the
 * slice of gm_close and those that are read must not overlap. Annotations are eight bytes a sid, least significant byte
 * first; none are no annotations, and a last group of fewer bytes is filled up with zeros.
 *
 * Each call answers GM_ACCEPTED or a refusal's number; the first reason by number answers. A refused call leaves what
 * it is lent as it was. No call allocates or keeps a pointer. */
#ifndef GOATMINUTE_H
#define GOATMINUTE_H

#include <stddef.h>
#include <stdint.h>

#define GM_STATE_SIZE 424
#define GM_LONGEST_BUFFER 16777215
#define GM_MOST_OPEN 32

enum gm_answer {
    GM_ACCEPTED = 0,
    GM_BUFFER_TOO_LONG = 1,   /* the buffer is longer than GM_LONGEST_BUFFER */
    GM_STATE_UNFIT = 2,       /* the state has another length, or does not fit the buffer or itself */
    GM_MISPLACED = 3,         /* a call that cannot stand here: see each call */
    GM_TOO_DEEP = 4,          /* GM_MOST_OPEN containers are open */
    GM_NEGATIVE_ZERO = 5,     /* an int of negative sign and magnitude zero */
    GM_NOT_UTF8 = 6,          /* a string that is not UTF-8 */
    GM_BAD_TIMESTAMP = 7,     /* a field of a timestamp is out of its range, or its UTC year outside 1 to 9999 */
    GM_DECIMAL_TOO_LONG = 8,  /* a decimal's body is over 32 bytes */
    GM_NO_ROOM = 10,          /* the used length on return would pass the buffer */
    GM_NOT_ION = 13,          /* bytes outside the grammar of Ion 1.0 */
    GM_CUT_SHORT = 14,        /* the stream stops inside a value, a pad or a version marker */

    /* the reader's words for 2 and 4 */
    GM_PAST_THE_END = 2,      /* the position is past the end, or the end past the stream's */
    GM_READ_TOO_DEEP = 4      /* a container inside GM_MOST_OPEN others */
};

#ifdef __cplusplus
extern "C" {
#endif

/* For a value or an opening, GM_MISPLACED is: in a struct with no name waiting. */

/* A start: the empty state over a buffer that begins with a version marker.
 * A state of another length is refused by 1 or 2; else 1 and 10 leave the empty state with used length 0. */
uint8_t gm_start(uint8_t *state, size_t state_len, uint8_t *buf, size_t buf_len);

/* A version marker, E0 01 00 EA, at the place of the call.
 * Refusals 1, 2, 3 (inside a container), 10. */
uint8_t gm_version_marker(uint8_t *state, size_t state_len, uint8_t *buf, size_t buf_len);

/* A null, by the type code in the Ion document: 0 null, 1 bool, 2 int, 4 float, 5 decimal, 6 timestamp,
 * 7 symbol, 8 string, 9 clob, 10 blob, 11 list, 12 sexp, 13 struct; 3 is int, past 13 is null. Refusals 1, 2, 3, 10. */
uint8_t gm_write_null(uint8_t *state, size_t state_len, uint8_t *buf, size_t buf_len,
                      const uint8_t *annotations, size_t annotations_len, uint8_t code);

/* A bool; every number but 0 is true.
 * Refusals 1, 2, 3, 10. */
uint8_t gm_write_bool(uint8_t *state, size_t state_len, uint8_t *buf, size_t buf_len,
                      const uint8_t *annotations, size_t annotations_len, uint8_t value);

/* An int of 64 bits with its sign.
 * Refusals 1, 2, 3, 10. */
uint8_t gm_write_i64(uint8_t *state, size_t state_len, uint8_t *buf, size_t buf_len,
                     const uint8_t *annotations, size_t annotations_len, int64_t value);

/* An int of any size: its sign (every number but 0 is negative), and its magnitude from the highest byte on.
 * Refusals 1, 2, 3, 5, 10. */
uint8_t gm_write_int(uint8_t *state, size_t state_len, uint8_t *buf, size_t buf_len,
                     const uint8_t *annotations, size_t annotations_len, uint8_t negative,
                     const uint8_t *magnitude, size_t magnitude_len);

/* A float by the bits of binary32.
 * Refusals 1, 2, 3, 10. */
uint8_t gm_write_f32(uint8_t *state, size_t state_len, uint8_t *buf, size_t buf_len,
                     const uint8_t *annotations, size_t annotations_len, uint32_t bits);

/* A float by the bits of binary64, in four bytes where binary32 holds it.
 * Refusals 1, 2, 3, 10. */
uint8_t gm_write_f64(uint8_t *state, size_t state_len, uint8_t *buf, size_t buf_len,
                     const uint8_t *annotations, size_t annotations_len, uint64_t bits);

/* A decimal: its sign, its coefficient from the highest byte on, its exponent.
 * Refusals 1, 2, 3, 8, 10. */
uint8_t gm_write_decimal(uint8_t *state, size_t state_len, uint8_t *buf, size_t buf_len,
                         const uint8_t *annotations, size_t annotations_len, uint8_t negative,
                         const uint8_t *coefficient, size_t coefficient_len, int64_t exponent);

/* A timestamp by its local fields. Precision 0 year, 1 month, 2 day, 3 minute, 4 second; offset in minutes if known,
 * fraction of `digits` digits if given. Fields past the precision mean nothing. The local year is 1 to 9999, and so is the UTC year,
 * local minus offset. Refusals 1, 2, 3, 7, 10. */
uint8_t gm_write_timestamp(uint8_t *state, size_t state_len, uint8_t *buf, size_t buf_len,
                           const uint8_t *annotations, size_t annotations_len, uint8_t precision, uint32_t year,
                           uint32_t month, uint32_t day, uint32_t hour, uint32_t minute, uint32_t second,
                           uint8_t known, int32_t offset, uint8_t given, uint32_t digits, uint64_t coefficient);

/* A symbol by its sid.
 * Refusals 1, 2, 3, 10. */
uint8_t gm_write_symbol(uint8_t *state, size_t state_len, uint8_t *buf, size_t buf_len,
                        const uint8_t *annotations, size_t annotations_len, uint64_t sid);

/* A string, in UTF-8.
 * Refusals 1, 2, 3, 6, 10. */
uint8_t gm_write_string(uint8_t *state, size_t state_len, uint8_t *buf, size_t buf_len,
                        const uint8_t *annotations, size_t annotations_len, const uint8_t *bytes, size_t bytes_len);

/* A clob.
 * Refusals 1, 2, 3, 10. */
uint8_t gm_write_clob(uint8_t *state, size_t state_len, uint8_t *buf, size_t buf_len,
                      const uint8_t *annotations, size_t annotations_len, const uint8_t *bytes, size_t bytes_len);

/* A blob.
 * Refusals 1, 2, 3, 10. */
uint8_t gm_write_blob(uint8_t *state, size_t state_len, uint8_t *buf, size_t buf_len,
                      const uint8_t *annotations, size_t annotations_len, const uint8_t *bytes, size_t bytes_len);

/* A field name by its sid; the next value or container is the field's.
 * Refusals 1, 2, 3 (outside a struct, or after a waiting name), 10. */
uint8_t gm_field_name(uint8_t *state, size_t state_len, uint8_t *buf, size_t buf_len, uint64_t sid);

/* The opening of a list.
 * Refusals 1, 2, 3, 4, 10. */
uint8_t gm_open_list(uint8_t *state, size_t state_len, uint8_t *buf, size_t buf_len,
                     const uint8_t *annotations, size_t annotations_len);

/* The opening of an s-expression.
 * Refusals 1, 2, 3, 4, 10. */
uint8_t gm_open_sexp(uint8_t *state, size_t state_len, uint8_t *buf, size_t buf_len,
                     const uint8_t *annotations, size_t annotations_len);

/* The opening of a struct.
 * Refusals 1, 2, 3, 4, 10. */
uint8_t gm_open_struct(uint8_t *state, size_t state_len, uint8_t *buf, size_t buf_len,
                       const uint8_t *annotations, size_t annotations_len);

/* The closing of the innermost container, which sets its lengths and is then a member of the one around it. What it answers
 * of the container goes to `closed`: numbers of four bytes, least significant byte first, one behind the other, as many as
 * the slice holds whole.
 *   0     4  how many bytes the container takes, headers and annotations counted
 *   4     4  how many direct members it has, a struct its name and value pairs. A container that was closed in it counts
 *            once; what was refused or abandoned in it does not count
 *   8     4  how many bytes the closing moved: those of the body if the body moves, and those of the annotation part, sum
 *            and sids, if that moves. Headers do not count; 0 where they take just the two bytes reserved for each
 * A slice of 12 bytes or more takes all three; one of 8 gets the first two. Numbers that a later version adds stand behind
 * these. Bytes of `closed` past the numbers stay as they were, and a refused closing leaves all of them.
 * Refusals 1, 2, 3 (none open, or a name waits), 10. */
uint8_t gm_close(uint8_t *state, size_t state_len, uint8_t *buf, size_t buf_len, uint8_t *closed, size_t closed_len);

/* The abandonment of the innermost container: its bytes are given back, and a name before it waits again.
 * Refusals 1, 2, 3 (none open). */
uint8_t gm_abandon(uint8_t *state, size_t state_len, uint8_t *buf, size_t buf_len);

/* An emptying, once the finished bytes are taken: the used length becomes 0, and no byte of the buffer alters.
 * Refusals 1, 2, 3 (inside a container). */
uint8_t gm_empty(uint8_t *state, size_t state_len, const uint8_t *buf, size_t buf_len);

/* A taking: how many bytes from the buffer's front are finished. 0 while a container is open or a field name waits,
 * or if state or buffer would be refused by 1 or 2. */
size_t gm_finished(const uint8_t *state, size_t state_len, const uint8_t *buf, size_t buf_len);

/* ---- The reader
 *
 * It keeps nothing between the calls. A place in the stream is five numbers:
 *   end       where what holds the item ends: the stream's length, or a container's `stop`
 *   parent    the type byte of what holds it: a container's `kind`, or 0 for the stream itself
 *   least     the name of the item before, pads aside, or 0: in a sorted struct (kind D1) no name is under it
 *   depth     how many containers are open
 *   position  where the item is read
 * A stream is begun with end = its length and 0 for the others, at any position.
 *
 * What is answered goes to a slice that is lent for it, as many numbers as it holds; a refused call leaves it as it was,
 * but for gm_read_rest. The first reason answers: 2; 13 for a header that cannot be; 14 for one that the stream cuts, or whose
 * body it cuts; 13 for what the body holds, and for all that does not fit into its container; 4. */

#define GM_NOTHING 0xFF /* the kind of no item: the position is the end */
#define GM_MARKER 0xE0  /* the kind of a version marker */

/* The item at a place, by six numbers:
 *   0  name      its sid; 0 outside structs
 *   1  sids      where the sids of its annotations start, for gm_read_sid
 *   2  sids_end  where they stop; the same place if there are none
 *   3  kind      the type byte of the value itself, behind annotations. Below 0F a NOP pad, GM_MARKER, GM_NOTHING, and else
 *                type code and low four bits of the Ion document: 1 bool (11 true), 2 and 3 int (3 negative), 4 float, 5 decimal,
 *                6 timestamp, 7 symbol, 8 string, 9 clob, 10 blob, 11 list, 12 sexp, 13 struct; low bits 15 are a null
 *   4  start     where its body starts: an int's magnitude, a float's bits, the bytes of a string or lob, a container's items
 *   5  stop      where its body stops; the next item stands there
 * The scalars of an item that is answered are checked whole; a container's items are not read. A container (B0 to DE, not BF, CF)
 * is entered with end = stop, parent = kind, least = 0, depth + 1, position = start.
 * Refusals 2, 4, 13, 14 (in the stream itself only). */
uint8_t gm_read_item(const uint8_t *stream, size_t stream_len, size_t end, uint8_t parent, uint64_t least, uint8_t depth,
                     size_t position, uint64_t *item, size_t item_len);

/* Reads and checks all from a place to the end, containers entered. Refused, `place` gets the place where the item begins that does
 * not read: a field's where its name begins, an annotated value's where its wrapper begins. Reading a container so is how to skip it
 * without losing what is refused in it. Refusals 2, 4, 13, 14. */
uint8_t gm_read_rest(const uint8_t *stream, size_t stream_len, size_t end, uint8_t parent, uint64_t least, uint8_t depth,
                     size_t position, uint64_t *place, size_t place_len);

/* A VarUInt at a position of a part of the stream, as a sid of annotations is: the number, and the position behind it.
 * Refusal 13. */
uint8_t gm_read_sid(const uint8_t *part, size_t part_len, size_t position, uint64_t *sid, size_t sid_len);

/* A decimal's body, by three numbers: 1 if the exponent is negative, else 0; its magnitude; where in the body the coefficient starts.
 * The coefficient is an Int: the top bit of its first byte is its sign, the rest its magnitude, and no bytes are zero. Refusal 13. */
uint8_t gm_read_decimal(const uint8_t *body, size_t body_len, uint64_t *decimal, size_t decimal_len);

/* A timestamp's body, by thirteen numbers:
 *   0  1 if the offset is known, else 0
 *   1  1 if it is negative, else 0
 *   2  its minutes
 *   3  how many fields there are: year 1, month 2, day 3, hour and minute 5, second 6
 *   4  year (0 to 10000), month, day, hour, minute and second of UTC, 0 where there is none
 *  10  how many digits the fraction of the second has; 0 is none
 *  11  where in the body their number starts, an Int that is not negative or is negative zero
 *  12  the out-of-calendar mark: 1 if its UTC year, or its local year where it has a time (5 or 6 fields), is outside 1 to 9999,
 *      else 0. Local is UTC plus offset; an unknown offset shifts nothing, a known one on a date alone does not count
 * Refusal 13. */
uint8_t gm_read_timestamp(const uint8_t *body, size_t body_len, uint64_t *timestamp, size_t timestamp_len);

/* A symbol's body: its sid.
 * Refusal 13. */
uint8_t gm_read_symbol(const uint8_t *body, size_t body_len, uint64_t *sid, size_t sid_len);

#ifdef __cplusplus
}
#endif

#endif
