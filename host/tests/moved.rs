//! How many bytes closings move (document 02, Item 10). What a closing answers is held to where the annotation part and the body lie in
//! the buffer before it and after it.
use goatminute::{sys, Closed, Refusal, State, WriteValues, Writer, LONGEST_BUFFER, MOST_OPEN, STATE_SIZE};
use std::collections::BTreeSet;
use std::ops::Range;

const LIST: u8 = 0xB0;
const SEXP: u8 = 0xC0;
const STRUCT: u8 = 0xD0;
const KINDS: [u8; 3] = [LIST, SEXP, STRUCT];

// ---- containers with parts of given lengths

/// A state and a buffer of `room` bytes after a start, filled up with 0xEE.
fn started(room: usize) -> ([u8; STATE_SIZE], Vec<u8>) {
    let mut state = [0; STATE_SIZE];
    let mut buf = vec![0xEE; room];
    sys::start(&mut state, &mut buf).unwrap();
    (state, buf)
}

fn number(state: &[u8], at: usize) -> usize {
    u32::from_le_bytes(state[at..at + 4].try_into().unwrap()) as usize
}

fn used(state: &[u8; STATE_SIZE]) -> usize {
    number(state, 0)
}

/// Sids whose annotation part has this length: the sum in one byte up to 127, in two up to 16,383 and so on, and the sids in as many
/// bytes as it says. A part of 0 bytes is no annotations. No sids have a part of 129 bytes, nor one of 16,386.
fn sids(part: usize) -> Option<Vec<u64>> {
    if part == 0 {
        return Some(Vec::new());
    }
    let sums = [
        (1, 1..128),
        (2, 128..16_384),
        (3, 16_384..2_097_152),
        (4, 2_097_152..268_435_456),
    ];
    let sum = sums
        .into_iter()
        .find_map(|(size, sums)| part.checked_sub(size).filter(|sum| sums.contains(sum)))?;
    let mut sids = Vec::new();
    let mut left = sum;
    while left > 0 {
        // of one, two, three and ten bytes
        let (size, least) = [(1, 10), (2, 300), (3, 20_000), (10, 1 << 63)][sids.len() % 4];
        let (size, least) = if size <= left { (size, least) } else { (1, 10) };
        sids.push(least + sids.len() as u64 % 100);
        left -= size;
    }
    Some(sids)
}

fn open(state: &mut [u8], buf: &mut [u8], kind: u8, sids: &[u64]) {
    let sids = sys::sid_bytes(sids);
    match kind {
        LIST => sys::open_list(state, buf, sids).unwrap(),
        SEXP => sys::open_sexp(state, buf, sids).unwrap(),
        _ => sys::open_struct(state, buf, sids).unwrap(),
    }
}

/// The bytes 0 to 250 again and again.
fn pattern(length: usize) -> Vec<u8> {
    let mut bytes = (0..=250).collect::<Vec<u8>>().repeat(length / 251 + 1);
    bytes.truncate(length);
    bytes
}

/// Values of `length` bytes in all, which differ from place to place. A struct has no body of one byte.
fn fill(state: &mut [u8; STATE_SIZE], buf: &mut [u8], kind: u8, length: usize) {
    let end = used(state) + length;
    let mut values = 0;
    while used(state) < end {
        let left = end - used(state);
        if kind == STRUCT {
            // of two bytes if what is left is odd
            let name = if left % 2 == 1 { 300 } else { 20 };
            sys::field_name(state, buf, name + values % 100).unwrap();
        }
        if left > 40 {
            sys::write_blob(state, buf, &[], &pattern(left - 20)).unwrap();
        } else {
            let code = [0, 1, 2, 4, 5, 6, 7, 8, 9, 10, 11, 12, 13][values as usize % 13];
            sys::write_null(state, buf, &[], code).unwrap();
        }
        values += 1;
    }
    assert_eq!(used(state), end);
}

// ---- where the parts lie

/// The parts of the innermost container, as state and buffer have them (docs/STATE.md): two bytes are reserved at its header, and with
/// annotations two at its start before them.
struct Parts {
    start: usize,
    /// Empty without annotations.
    annotations: Range<usize>,
    body: Range<usize>,
}

fn parts(state: &[u8; STATE_SIZE]) -> Parts {
    let record = 8 + 13 * (state[4] as usize - 1);
    let (start, header) = (number(state, record), number(state, record + 4));
    Parts {
        start,
        annotations: if header == start { start..start } else { start + 2..header },
        body: header + 2..used(state),
    }
}

/// How many bytes the header that stands here takes, and what length it says: the low half of its first byte, or a VarUInt behind a 14.
fn header(bytes: &[u8]) -> (usize, usize) {
    let low = bytes[0] as usize % 16;
    if low < 14 {
        return (1, low);
    }
    assert_eq!(low, 14);
    let mut length = 0;
    for (at, &byte) in bytes.iter().enumerate().skip(1) {
        length = length * 128 + byte as usize % 128;
        if byte >= 0x80 {
            return (at + 1, length);
        }
    }
    panic!("a header without an end")
}

/// What a closing did, as the buffer shows it.
#[derive(Clone, Copy, Debug, PartialEq, Eq, PartialOrd, Ord)]
struct Seen {
    /// How many bytes the headers take; 0 is no wrapper.
    wrapper: usize,
    inner: usize,
    annotations_moved: bool,
    /// An empty body lies nowhere.
    body_moved: Option<bool>,
}

/// Closes the innermost container, finds its parts again, and holds what was answered to them.
#[track_caller]
fn close_and_look(state: &mut [u8; STATE_SIZE], buf: &mut [u8]) -> (Closed, Seen) {
    let before = parts(state);
    let annotations = buf[before.annotations.clone()].to_vec();
    let body = buf[before.body.clone()].to_vec();
    let closed = sys::close(state, buf).unwrap();
    let end = used(state);
    assert_eq!(closed.size as usize, end - before.start);

    let mut at = before.start;
    let mut wrapper = 0;
    if !annotations.is_empty() {
        assert_eq!(buf[at] & 0xF0, 0xE0);
        let (size, length) = header(&buf[at..end]);
        wrapper = size;
        at += size;
        assert_eq!(at + length, end);
    }
    let annotations_now = at;
    assert!(buf[at..at + annotations.len()] == annotations);
    at += annotations.len();
    let (inner, length) = header(&buf[at..end]);
    assert_eq!(length, body.len());
    let body_now = end - body.len();
    assert_eq!(at + inner, body_now);
    assert!(buf[body_now..end] == body);

    let annotations_moved = !annotations.is_empty() && annotations_now != before.annotations.start;
    let body_moved = body_now != before.body.start && !body.is_empty();
    let mut moved = 0;
    if annotations_moved {
        moved += annotations.len();
    }
    if body_moved {
        moved += body.len();
    }
    assert_eq!(
        closed.moved as usize,
        moved,
        "annotation part of {} bytes, body of {}",
        annotations.len(),
        body.len()
    );
    let seen = Seen {
        wrapper,
        inner,
        annotations_moved,
        body_moved: (!body.is_empty()).then_some(body_moved),
    };
    (closed, seen)
}

/// Opens, fills and closes a container in an outer list, at different places.
#[track_caller]
fn run(state: &mut [u8; STATE_SIZE], buf: &mut [u8], kind: u8, sids: &[u64], body: usize) -> (Closed, Seen) {
    sys::start(state, buf).unwrap();
    sys::open_list(state, buf, &[]).unwrap();
    for _ in 0..body % 3 {
        sys::write_bool(state, buf, &[], true).unwrap();
    }
    open(state, buf, kind, sids);
    fill(state, buf, kind, body);
    assert_eq!(parts(state).body.len(), body);
    close_and_look(state, buf)
}

/// Every body behind every annotation part, in containers of each kind; a part of 0 bytes is no annotations. Answers what was seen.
fn sweep<A, B>(annotations: A, bodies: B) -> BTreeSet<Seen>
where
    A: IntoIterator<Item = usize> + Clone,
    B: IntoIterator<Item = usize> + Clone,
{
    let longest = annotations.clone().into_iter().max().unwrap() + bodies.clone().into_iter().max().unwrap();
    let (mut state, mut buf) = started(longest + 32);
    let mut seen = BTreeSet::new();
    for part in annotations {
        let Some(sids) = sids(part) else {
            assert!([129, 16_386].contains(&part), "a part of {part} bytes");
            continue;
        };
        for body in bodies.clone() {
            for kind in KINDS {
                if kind == STRUCT && body == 1 {
                    continue;
                }
                let (closed, one) = run(&mut state, &mut buf, kind, &sids, body);
                assert_eq!(closed.size as usize, one.wrapper + part + one.inner + body);
                seen.insert(one);
            }
        }
    }
    seen
}

/// The sizes of the headers for which this was seen, the wrapper's first.
fn sizes(seen: &BTreeSet<Seen>, annotations_moved: bool, body_moved: Option<bool>) -> Vec<(usize, usize)> {
    seen.iter()
        .filter(|one| one.annotations_moved == annotations_moved && one.body_moved == body_moved)
        .map(|one| (one.wrapper, one.inner))
        .collect()
}

#[test]
fn without_annotations() {
    let mut seen = sweep([0], 0..=300);
    seen.extend(sweep([0], 16_380..=16_387));
    seen.extend(sweep([0], 2_097_150..=2_097_153));
    assert_eq!(sizes(&seen, false, None), [(0, 1)]);
    assert_eq!(sizes(&seen, false, Some(false)), [(0, 2)]);
    assert_eq!(sizes(&seen, false, Some(true)), [(0, 1), (0, 3), (0, 4), (0, 5)]);
    assert_eq!(seen.len(), 6);
}

#[test]
fn with_annotations() {
    let mut seen = sweep(2..=130, 0..=300);
    // long bodies, long annotation parts, and both
    seen.extend(sweep([2, 3, 4, 5, 20, 128, 130], 16_376..=16_388));
    seen.extend(sweep(16_360..=16_388, [0, 1, 5, 13, 14, 15, 126, 127, 128, 129]));
    seen.extend(sweep([16_385, 20_000], 16_376..=16_388));
    seen.extend(sweep([2, 5, 128], 2_097_143..=2_097_152));
    seen.extend(sweep([2_097_110, 2_097_150, 2_097_154], [0, 1, 13, 14, 127, 128, 16_384]));

    // neither: the body is empty, or both headers take their reserve
    assert_eq!(sizes(&seen, false, None), [(2, 1)]);
    assert_eq!(sizes(&seen, false, Some(false)), [(2, 2)]);
    // the body alone
    assert_eq!(sizes(&seen, false, Some(true)), [(2, 1)]);
    // the annotations alone: the body is empty, or the wrapper's header grows by one and the inner one shrinks by one
    assert_eq!(sizes(&seen, true, None), [(1, 1), (3, 1), (4, 1), (5, 1)]);
    assert_eq!(sizes(&seen, true, Some(false)), [(3, 1)]);
    // both
    let both = [
        (1, 1),
        (3, 2),
        (3, 3),
        (4, 1),
        (4, 2),
        (4, 3),
        (4, 4),
        (5, 1),
        (5, 2),
        (5, 3),
        (5, 4),
        (5, 5),
    ];
    assert_eq!(sizes(&seen, true, Some(true)), both);
    assert_eq!(seen.len(), 1 + 1 + 1 + 4 + 1 + 12);
}

#[test]
fn whole_longest_buffer() {
    // the longest body without annotations: a header of five bytes behind the marker
    let body = LONGEST_BUFFER - 4 - 5;
    let (mut state, mut buf) = started(LONGEST_BUFFER);
    open(&mut state, &mut buf, LIST, &[]);
    fill(&mut state, &mut buf, LIST, body);
    let (closed, seen) = close_and_look(&mut state, &mut buf);
    assert_eq!((closed.size, closed.moved), (16_777_211, 16_777_206));
    assert_eq!((seen.wrapper, seen.inner), (0, 5));
    assert_eq!(sys::finished(&state, &buf).len(), LONGEST_BUFFER);
    // with a part of two bytes both headers have five
    let body = LONGEST_BUFFER - 4 - 5 - 2 - 5;
    sys::start(&mut state, &mut buf).unwrap();
    open(&mut state, &mut buf, LIST, &[10]);
    fill(&mut state, &mut buf, LIST, body);
    let (closed, seen) = close_and_look(&mut state, &mut buf);
    assert_eq!((closed.size, closed.moved), (16_777_211, 16_777_201));
    assert_eq!((seen.wrapper, seen.inner), (5, 5));
}

// ---- figures

/// What a close of a list with parts of these lengths answers; 0 is no annotations.
fn moved(part: usize, body: usize) -> u32 {
    let (mut state, mut buf) = started(64 + part + body);
    let (closed, _) = run(&mut state, &mut buf, LIST, &sids(part).unwrap(), body);
    closed.moved
}

#[test]
fn figures_without_annotations() {
    assert_eq!(moved(0, 0), 0);
    assert_eq!(moved(0, 1), 1);
    assert_eq!(moved(0, 13), 13);
    // a header of two bytes
    assert_eq!(moved(0, 14), 0);
    assert_eq!(moved(0, 127), 0);
    // of three and of four
    assert_eq!(moved(0, 128), 128);
    assert_eq!(moved(0, 16_383), 16_383);
    assert_eq!(moved(0, 16_384), 16_384);
}

#[test]
fn figures_with_annotations() {
    // wrapper's header of one byte
    assert_eq!(moved(2, 0), 2);
    assert_eq!(moved(2, 10), 12);
    // of two: the annotations stay, and the body does where its own header has two
    assert_eq!(moved(2, 11), 11);
    assert_eq!(moved(2, 13), 13);
    assert_eq!(moved(2, 14), 0);
    assert_eq!(moved(2, 123), 0);
    // of three
    assert_eq!(moved(2, 124), 126);
    assert_eq!(moved(2, 128), 130);
    // a wrapper of 127 bytes, of 128 and of 129 behind its header
    assert_eq!(moved(113, 13), 13);
    assert_eq!(moved(114, 13), 114);
    assert_eq!(moved(113, 14), 127);
    // an empty body
    assert_eq!(moved(12, 0), 12);
    assert_eq!(moved(13, 0), 0);
    assert_eq!(moved(126, 0), 0);
    assert_eq!(moved(127, 0), 127);
}

// ---- states that no calls make

/// A close goes by the places in the state: annotation parts that no sids have, and a struct of one byte.
#[test]
fn parts_by_the_state_alone() {
    for kind in KINDS {
        for part in (0..=131).filter(|&part| part != 1) {
            for body in [0, 1, 2, 12, 13, 14, 15, 110, 127, 128] {
                let header = if part == 0 { 7 } else { 7 + 2 + part };
                let mut state = [0; STATE_SIZE];
                state[..4].copy_from_slice(&((header + 2 + body) as u32).to_le_bytes());
                state[4] = 1;
                state[8] = 7;
                state[12..16].copy_from_slice(&(header as u32).to_le_bytes());
                state[16] = kind;
                let mut buf = pattern(400);
                assert_eq!(parts(&state).annotations.len(), part);
                assert_eq!(parts(&state).body.len(), body);
                let past = buf[header + 2 + body + 2..].to_vec();
                close_and_look(&mut state, &mut buf);
                // nothing else moves
                assert_eq!(buf[..7], [0, 1, 2, 3, 4, 5, 6]);
                assert_eq!(buf[header + 2 + body + 2..], past);
            }
        }
    }
}

// ---- refused closings

/// The close is refused for this reason, and moves nothing.
#[track_caller]
fn refused(state: &mut [u8], buf: &mut [u8], why: Refusal) {
    let before = (state.to_vec(), buf.to_vec());
    assert_eq!(sys::close(state, buf), Err(why));
    assert!(state == before.0 && buf == before.1, "a refused close altered something");
}

#[test]
fn refused_close_moves_nothing() {
    let (mut state, mut buf) = started(64);
    refused(&mut state, &mut buf, Refusal::Misplaced);
    open(&mut state, &mut buf, STRUCT, &[10]);
    sys::field_name(&mut state, &mut buf, 4).unwrap();
    refused(&mut state, &mut buf, Refusal::Misplaced);
    sys::write_bool(&mut state, &mut buf, &[], true).unwrap();
    // more members than bytes
    let mut unfit = state;
    unfit[8 + 9] = 3;
    refused(&mut unfit, &mut buf, Refusal::StateUnfit);
    refused(&mut state[1..], &mut buf, Refusal::StateUnfit);
    // what was refused is in no count: a part of two bytes and a body of two
    let (closed, _) = close_and_look(&mut state, &mut buf);
    assert_eq!((closed.size, closed.members, closed.moved), (6, 1, 4));
}

#[test]
fn close_without_room_moves_nothing() {
    // the headers grow past their reserves: without annotations, the wrapper's, both, the wrapper's by two while the inner one shrinks
    for (part, body, size) in [(0, 128, 131), (2, 124, 131), (2, 128, 136), (16_385, 5, 16_395)] {
        let (mut state, mut buf) = started(4 + size - 1);
        open(&mut state, &mut buf, LIST, &sids(part).unwrap());
        fill(&mut state, &mut buf, LIST, body);
        refused(&mut state, &mut buf, Refusal::NoRoom);
        buf.push(0xEE);
        let (closed, _) = close_and_look(&mut state, &mut buf);
        assert_eq!((closed.size as usize, closed.moved as usize), (size, part + body));
    }
    // the wrapper's header grows by one and the inner one shrinks by one: a full buffer has room
    let (mut state, mut buf) = started(4 + 2 + 114 + 2 + 13);
    open(&mut state, &mut buf, LIST, &sids(114).unwrap());
    fill(&mut state, &mut buf, LIST, 13);
    assert_eq!(used(&state), buf.len());
    let (closed, _) = close_and_look(&mut state, &mut buf);
    assert_eq!((closed.size, closed.moved), (131, 114));
}

// ---- through the safe writer

#[test]
fn writer_answers_what_moved() {
    let mut buf = [0xEE; 1024];
    let mut writer = Writer::new(&mut buf).unwrap();
    let mut list = writer.list_writer().unwrap();
    for _ in 0..3 {
        list.write_bool(true).unwrap();
    }
    let closed = list.close().unwrap();
    assert_eq!((closed.size, closed.members, closed.moved), (4, 3, 3));
    // a body of 14 bytes, and one of 128 with a part of three
    let mut sexp = writer.sexp_writer().unwrap();
    sexp.write_blob(&[1; 13]).unwrap();
    assert_eq!(sexp.close().unwrap().moved, 0);
    let mut fields = writer.with_annotations(&[10, 11]).struct_writer().unwrap();
    fields.field_name(4).unwrap().write_string(&"a".repeat(125)).unwrap();
    let closed = fields.close().unwrap();
    assert_eq!((closed.size, closed.members, closed.moved), (137, 1, 131));
    assert_eq!(writer.list_writer().unwrap().close().unwrap().moved, 0);
    assert_eq!(
        writer.with_annotations(&[10]).list_writer().unwrap().close().unwrap().moved,
        2
    );
}

#[test]
fn inner_container_moves_with_the_body_of_the_outer_one() {
    let mut buf = [0xEE; 64];
    let mut writer = Writer::new(&mut buf).unwrap();
    let mut outer = writer.with_annotations(&[10]).list_writer().unwrap();
    let mut inner = outer.list_writer().unwrap();
    inner.write_bool(true).unwrap();
    assert_eq!(inner.close().unwrap().moved, 1);
    // what was abandoned leaves nothing to move
    let mut gone = outer.list_writer().unwrap();
    gone.write_string("gone").unwrap();
    drop(gone);
    let closed = outer.close().unwrap();
    assert_eq!((closed.size, closed.members, closed.moved), (6, 1, 2 + 2));
    assert_eq!(writer.finished()[4..], [0xE5, 0x81, 0x8A, 0xB2, 0xB1, 0x11]);
}

#[test]
fn resumed_state_answers_what_moved() {
    let mut buf = [0xEE; 64];
    let mut writer = Writer::new(&mut buf).unwrap();
    let mut list = writer.with_annotations(&[10]).list_writer().unwrap();
    list.write_bool(true).unwrap();
    std::mem::forget(list);
    let bytes = *writer.state().as_bytes();
    let mut writer = Writer::resume(State::from_bytes(bytes), &mut buf);
    writer.write_bool(true).unwrap();
    let (mut state, buf) = writer.into_parts();
    let (closed, _) = close_and_look(state.as_mut_bytes(), buf);
    assert_eq!((closed.size, closed.members, closed.moved), (6, 2, 4));
}

// ---- the sum over a stream

/// Closes what is open, and answers the sum of what moved and the bytes of the stream.
fn close_all(state: &mut [u8; STATE_SIZE], buf: &mut [u8]) -> (usize, usize) {
    let mut sum = 0;
    while state[4] > 0 {
        sum += close_and_look(state, buf).0.moved as usize;
    }
    (sum, sys::finished(state, buf).len())
}

#[test]
fn thirty_two_nested_containers_move_at_most_32_times_the_stream() {
    // lists inside each other around a blob that takes 203 bytes: each header has three, and each body moves
    let (mut state, mut buf) = started(512);
    for _ in 0..MOST_OPEN {
        open(&mut state, &mut buf, LIST, &[]);
    }
    sys::write_blob(&mut state, &mut buf, &[], &[1; 200]).unwrap();
    let (sum, stream) = close_all(&mut state, &mut buf);
    assert_eq!((sum, stream), (32 * 203 + 3 * (31 * 32 / 2), 4 + 203 + 32 * 3));
    assert!(sum <= 32 * stream);

    let mut nearest = 0.0f64;
    for annotations in [vec![], vec![10], vec![300, 10], sids(114).unwrap(), sids(130).unwrap()] {
        for body in [0, 2, 13, 14, 30, 127, 128, 1000, 20_000, 200_000] {
            let (mut state, mut buf) = started(body + 32 * 300);
            for depth in 0..MOST_OPEN {
                let kind = KINDS[depth % 3];
                if depth > 0 && KINDS[(depth - 1) % 3] == STRUCT {
                    sys::field_name(&mut state, &mut buf, 4).unwrap();
                }
                open(&mut state, &mut buf, kind, &annotations);
            }
            fill(&mut state, &mut buf, KINDS[(MOST_OPEN - 1) % 3], body);
            let (sum, stream) = close_all(&mut state, &mut buf);
            assert!(sum <= 32 * stream, "{sum} bytes moved, {stream} in the stream");
            nearest = nearest.max(sum as f64 / stream as f64);
        }
    }
    // a long body moves at each of the closings, and is nearly the whole stream
    assert!(nearest > 31.9, "{nearest}");
}

#[test]
fn containers_beside_each_other_move_at_most_the_stream() {
    let (mut state, mut buf) = started(20_000);
    let mut sum = 0;
    for body in 0..=150 {
        open(&mut state, &mut buf, LIST, &[10]);
        fill(&mut state, &mut buf, LIST, body);
        sum += close_and_look(&mut state, &mut buf).0.moved as usize;
    }
    let stream = sys::finished(&state, &buf).len();
    // every part of two bytes but those of the wrappers of 14 to 127 bytes, which are around bodies of 11 to 123
    let annotations = 2 * (11 + 27);
    // bodies of 1 to 13 and 124 to 150 bytes
    let bodies = 13 * 14 / 2 + (124 + 150) * 27 / 2;
    assert_eq!(sum, annotations + bodies);
    assert!(sum <= stream);
}
