//! Streams for a program that replays them: by rule, with the position that is read from.

use super::text::{self, Hex};
use super::walk;

/// One rule: what it says, and streams in hex that meet it, `@` and a position behind those that are not read from 0.
struct Rule {
    says: &'static str,
    streams: &'static [&'static str],
}

#[rustfmt::skip]
const RULES: &[Rule] = &[
    Rule { says: "Ion document: value streams", streams: &["", "e00100ea", "e00100eae00100ea", "e00100ea0f", "0fe00100ea10", "2101e00100ea2102"] },
    Rule { says: "Ion document: nulls", streams: &["0f", "1f", "2f", "3f", "4f", "5f", "6f", "7f", "8f", "9f", "af", "bf", "cf", "df"] },
    Rule { says: "Ion document: bools", streams: &["10", "11", "1011"] },
    Rule { says: "Ion document: ints", streams: &["20", "2101", "3101", "2100", "220001", "320001", "22ffff", "28ffffffffffffffff", "29010000000000000000", "3a80000000000000000000",
        "2e8f0102030405060708090a0b0c0d0e0f"] },
    Rule { says: "Ion document: floats", streams: &["40", "443fc00000", "4480000000", "447fc00000", "44ff800000", "44ffc00001", "483ff8000000000000", "487ff0000000000000", "487ff8000000000001",
        "480000000000000001"] },
    Rule { says: "Ion document: decimals", streams: &["50", "5180", "51c1", "528000", "528080", "52c181", "53c11fbd", "53c1ffbd", "528101", "53410001", "5300c101"] },
    Rule { says: "decimals: leading zeros, negative zero exponents, coefficients of any length", streams: &["51c0", "5240c0", "530000c0", "54c0000001", "54c0800001",
        "5e90c10102030405060708090a0b0c0d0e0f", "5b017f7f7f7f7f7f7f7fff01", "5b7e7f7f7f7f7f7f7f7fff01"] },
    Rule { says: "an exponent past signed 64 bits is outside", streams: &["5a01007f7f7f7f7f7f7fff", "5a3f7f7f7f7f7f7f7f7fff", "5a40010000000000000080", "5b0001000000000000000080", "5b4001000000000000000080",
        "5b4001000000000000000081", "5b00007f7f7f7f7f7f7f7fff", "5b00017f7f7f7f7f7f7f7fff", "5c000200000000000000000080", "5d000000000000000000000000c1",
        "5e8f400000000000000000000000000081"] },
    Rule { says: "a decimal whose exponent has no end is outside", streams: &["5101", "520101", "5140", "b3520101"] },
    Rule { says: "Ion document: timestamps", streams: &["63c00fd0", "64c00fd081", "65c00fd08181", "66c00fd0818180", "67800fd081818080", "68800fd08181808080", "69800fd0818180808080",
        "6a800fd081818080808000", "6ac00fd081818080bbc200", "6b800fd081818080808003e8", "6943a40fd0838e93a99e80", "6b43a40fd0838e93a99ec301"] },
    Rule { says: "timestamps: counts of fields", streams: &["62c080", "6380cea0", "64800fd081", "65800fd08181", "66800fd0818197", "67800fd081819780", "68800fd08181978080", "61c0", "60", "6e80", "6e81c0",
        "6e8380cf90", "62800f"] },
    Rule { says: "timestamps: fields in their ranges", streams: &["63c04e90", "63c04e91", "63c00080", "64c00fd080", "64c00fd08c", "64c00fd08d", "65c00fd08280", "65c00fd0829d", "65c00fd0829e", "65c00fd1829d",
        "65c00fd1829c", "65c00ed8829d", "65c00ed8829c", "64c080829d", "64c080829e", "65c00fd0849e", "65c00fd0849f", "67800fd081819880", "67800fd0818197bb", "67800fd0818197bc", "68800fd08181 9780bb",
        "68800fd081819780bc", "6c0000800000000fd000008181"] },
    Rule { says: "timestamps: offsets", streams: &["63800fd0", "63c00fd0", "6440c00fd0", "650000c00fd0", "64400fd0c0", "6400800fd0", "67bc0fd081818080", "67fc0fd081818080", "680bdf0fd081818080", "684bdf0fd081818080",
        "6c007f7f7f7f7f7f7f7fff0fd0", "6d40010000000000000000800fd0", "6d40010000000000000000810fd0", "6d00010000000000000000800fd0"] },
    Rule { says: "timestamps: fractions from zero to below one; negative zero is zero", streams: &["69800fd0818180808080", "69800fd08181808080c0", "69800fd0818180808081", "69800fd08181808080c1", "6a800fd08181808080c100",
        "6a800fd08181808080c180", "6a800fd081818080808080", "6a800fd08181808080c109", "6a800fd08181808080c10a", "6a800fd08181808080c189", "6a800fd08181808080c263", "6a800fd08181808080c264",
        "6b800fd08181808080c30 3e7", "6b800fd08181808080c303e8", "6b800fd08181808080c30009", "6a800fd081818080808001", "6a800fd081818080808100", "6a800fd081818080808101",
        "6e91800fd08181808080d20de0b6b3a763ffff", "6e91800fd08181808080d20de0b6b3a7640000", "6e92800fd08181808080d300000000000000000a",
        "6e93800fd0818180808040010000000000000000ff", "6e94800fd081818080804001000000000000000080 01",
        "6e94800fd081818080800001000000000000000080 00", "6e93800fd08181808080de02000000000000000000", "6e95800fd08181808080de327cb2734119d3b7a9000000", "6e95800fd08181808080dc204fce5e3e25026110000000", "6e95800fd08181808080dc204fce5e3e2502610fffffff"] },
    Rule { says: "out of calendar: in containers and behind annotations", streams: &["b762c08063c00fd0", "c763c00fd062c080", "d48a62c080", "e5818a62c080", "d66fc062c080", "b7e6818a63c04e90", "62c08062c081"] },
    Rule { says: "Ion document: symbols", streams: &["70", "710a", "7100", "720100", "78ffffffffffffffff", "79000000000000000001", "79010000000000000000", "7e8900ffffffffffffffff", "7e8901ffffffffffffffff"] },
    Rule { says: "Ion document: strings and lobs", streams: &["80", "826f6b", "8e826f6b", "8e8e6162636465666768696a6b6c6d6e", "90", "92ff00", "9e80", "a0", "a2ff00", "ae81ff"] },
    Rule { says: "a string that is not UTF-8 is outside", streams: &["82c3a9", "81ff", "82c080", "83eda080", "83ed9fbf", "84f48fbfbf", "84f4908080", "82e282", "83e282ac"] },
    Rule { says: "Ion document: containers", streams: &["b0", "c0", "d0", "b32101b0", "c32101c0", "d38a2101", "d68a21018a2102", "b1b0", "be80", "be812 0", "ce8120", "de828a20", "de80", "b6b5b4b3b2b1b0"] },
    Rule { says: "sorted structs: not empty, names may repeat but not fall", streams: &["d1828a20", "d1848a208a20", "d1848a208b20", "d1848b208a20", "d180", "d18120", "d10082 8a20", "d182 8a", "d1",
        "d1868a208a208920", "d1868120b5208220"] },
    Rule { says: "a pad's name neither breaks the order of a sorted struct nor sets it", streams: &["d1868a20890f8b20", "d1868a2089008b20", "d1868a208f008b20", "d1868a208f008a20", "d1868a2089008920", "d1828a00",
        "d1848f008a20", "d1848a01ff20"] },
    Rule { says: "a sorted struct inside a plain one, and the other way", streams: &["d78a208ad1828920", "d68ad182892089", "d78ad1828920 8920", "d1888ad48b208a208b20"] },
    Rule { says: "Ion document: annotations", streams: &["e3818420", "e4818421 01", "e4828485 20", "e6818a83616263", "e3818ab0", "e4828a8bd0", "ee8381 8a20", "e5818ad28a20", "e3818a0f", "e3818abf"] },
    Rule { says: "a wrapper holds at least one sid", streams: &["e38020 20", "e28020", "e2818a", "e1 81", "ee80", "ee828020", "ee82818a", "e3802101"] },
    Rule { says: "a wrapper's sids end where the sum says", streams: &["e4820a8a20", "e4810a8a20", "e4820a0a20", "e483 8a8a8a", "e4848a8a20", "e38a8a20", "ec820a00000000000000000a20",
        "ee8d8b8a027f7f7f7f7f7f7f7fff 20"] },
    Rule { says: "exactly one value fills the rest of a wrapper", streams: &["e4818a2020", "e4818a2101", "e5818a210120", "e3818a21", "e4818a2201", "e4818a8161", "e5818ab12020", "e4818ab02 0"] },
    Rule { says: "a wrapper holds no pad and no wrapper", streams: &["e3818a00", "e4818a01ff", "e6818ae3818b20", "e6818ae00100ea", "e3818ae0", "e3818aef", "e3818aff"] },
    Rule { says: "pads at top level", streams: &["00", "01ff", "020fff20", "0e80", "0e83ffffff20", "0e008120", "0000000f", "0dffffffffffffffffffffffffff", "e00100ea0020"] },
    Rule { says: "pads in sequences", streams: &["b100", "b201ff", "b42001ff20", "c3000f00", "b30e80 20", "b20e81"] },
    Rule { says: "pads in structs stand behind a name", streams: &["d28a00", "d38a01ff", "d58a00 8b2101", "d4 8a20 8b00", "d100", "d200 80", "de838a0e80"] },
    Rule { says: "a stream that stops inside a value, pad or marker is 14", streams: &["21", "2201", "2e", "2e00", "2e82", "8161 81", "826f", "8e", "b120b1", "b2 20", "d3 8a20", "01", "0e", "0e00", "0e81", "e0", "e001", "e00100",
        "e381", "ee", "ee83", "de82 8a", "d1 82 8a", "48000000"] },
    Rule { says: "a header that cannot be is 13, even as the last byte", streams: &["f0", "fe", "ff", "12", "1e", "41", "42", "43", "45", "47", "49", "4d", "4e", "30", "3e80", "60", "61", "e1", "e2", "ef", "ee80", "ee82", "6e80", "6e81",
        "de81", "d180", "d181", "3e0080", "ee0082"] },
    Rule { says: "a wrong byte in a marker is 13 as soon as it is there", streams: &["e002", "e00101", "e00100eb", "e000", "e00200ea", "e0ea", "e00100e0"] },
    Rule { says: "a marker stands at top level only", streams: &["b4e00100ea", "d58ae00100ea", "c1e0", "e7818ae00100ea 20"] },
    Rule { says: "overlong lengths: the E form, and leading zero groups, in any number", streams: &["2e80", "2e8101", "2e000000000000000000000081 01", "8e00826f6b", "be0080", "de00000082 8a20", "b52e0000 8101",
        "d30000 8a", "d50000008a20", "e6 0000818a 2101", "e5810a8a2020", "d1000000000000000000000000 828a20"] },
    Rule { says: "a length past 64 bits is 13, also where the stream stops", streams: &["2e017f7f7f7f7f7f7f7fff", "2e027f7f7f7f7f7f7f7fff", "2e02000000000000000000", "2e7f7f7f7f7f7f7f7f7f",
        "2e7f7f7f7f7f7f7f7f7f7f", "8e0000027f7f7f7f7f7f7f7f", "be017f7f7f7f7f7f7f7fff", "0e017f7f7f7f7f7f7f7fff", "0e027f7f7f7f7f7f7f7fff"] },
    Rule { says: "place plus length does not wrap", streams: &["20208e017f7f7f7f7f7f7f7ffd 61", "b c8e017f7f7f7f7f7f7f7ffd61", "ee017f7f7f7f7f7f7f7fff", "ec017f7f7f7f7f7f7f7ffd8a20"] },
    Rule { says: "a name or an annotation past 64 bits is 13", streams: &["db017f7f7f7f7f7f7f7fff20", "db027f7f7f7f7f7f7f7fff20", "ec8a017f7f7f7f7f7f7f7fff 20", "ec8a027f7f7f7f7f7f7f7fff20"] },
    Rule { says: "inside a container nothing is 14: running out is 13", streams: &["b121", "b22201", "b12e", "b22e82", "d18221 21", "d28a21", "d20a0a", "d28a8e", "b1b1", "b2b22020", "c3e3818a", "b3e2818a", "b2b1e0", "b20e82", "b101",
        "d3 8a b1 21", "e4818ab121", "e3818a2e"] },
    Rule { says: "a value past its parent's end is 13 at its header", streams: &["b1b12020", "b28261 6161", "b22101 20", "b22201 0120", "d48a20 8b 21 01", "b3e4818a2101", "b2bb0f"] },
    Rule { says: "13 and 14 in stream order", streams: &["12 21", "21", "2112", "b11221", "2101 8e", "b1 12", "b212", "b2 12 12", "82ff", "82ffff", "31", "3100", "b23100", "b33100"] },
    Rule { says: "the place is where the item begins: a field with its name, an annotated value with its wrapper", streams: &["d48a208b12", "d58a2000008b", "b22012", "b32012 20", "b520e3818a12",
        "e00100ea20e3818a12", "d78a208be3818a12", "b6b5b4b3b2b112", "20b12112"] },
    Rule { says: "a position inside a value is read from there", streams: &["b32101b0@1", "b32101b0@2", "b32101b0@3", "e00100ea20@1", "e00100ea20@3", "e00100ea20@4", "d38a2101@1", "8361620f@2", "8361620f@3", "be01@1"] },
    Rule { says: "a position at the end reads as nothing, one past it is 2", streams: &["@1", "20@1", "20@2", "e00100ea@4", "e00100ea@5", "21@1", "ff@2", "20@18446744073709551615", "20@4294967296"] },
];

/// Document 02, Item 2: a rule, offsets, and UTC fields that have each of them.
type YearRule = (&'static str, &'static [Option<i64>], &'static [&'static [u64]]);

#[rustfmt::skip]
const CALENDAR: &[YearRule] = &[
    ("out of calendar: the first and the last minute of the years 1 and 9999, with each kind of offset",
        &[None, Some(0), Some(1), Some(-1), Some(60), Some(-60), Some(1439), Some(-1439), Some(5_000_000_000), Some(-5_000_000_000), Some(i64::MAX), Some(i64::MIN)],
        &[&[1, 1, 1, 0, 0], &[1, 12, 31, 23, 59], &[9999, 1, 1, 0, 0], &[9999, 12, 31, 23, 59], &[9999, 12, 31, 23, 59, 59]]),
    ("out of calendar: the last minute of a local year, and the first of the next",
        &[Some(59), Some(60), Some(1440), Some(1441)], &[&[9999, 12, 31, 23, 0], &[9999, 12, 30, 23, 59, 0], &[9999, 12, 31, 0, 0]]),
    ("out of calendar: the first minute of a local year, and the last before it",
        &[Some(-59), Some(-60), Some(-1440), Some(-1441)], &[&[1, 1, 1, 0, 59], &[1, 1, 2, 0, 0, 59], &[1, 1, 1, 23, 59]]),
    // From 2000-01-01T00:00 it is 1,051,371,360 minutes back to the first of the year 1, and 4,207,593,600 on to the first of the year 10000.
    ("out of calendar: offsets of many years, around the ends",
        &[Some(-1_051_371_359), Some(-1_051_371_360), Some(-1_051_371_361), Some(4_207_593_599), Some(4_207_593_600), Some(4_207_593_601)], &[&[2000, 1, 1, 0, 0], &[2000, 1, 1, 0, 0, 0]]),
    ("out of calendar: the UTC years 0 and 10000 at every precision, whatever the offset; the year 0 is a leap year",
        &[None, Some(0), Some(1440), Some(-1440), Some(i64::MAX), Some(i64::MIN)],
        &[&[0], &[0, 2], &[0, 2, 29], &[0, 2, 29, 0, 0], &[0, 12, 31, 23, 59], &[0, 12, 31, 23, 59, 59], &[10_000], &[10_000, 1], &[10_000, 1, 1], &[10_000, 1, 1, 0, 0], &[10_000, 12, 31, 23, 59, 59]]),
    ("out of calendar: a known offset on a date alone does not count",
        &[None, Some(0), Some(1), Some(-1), Some(1440), Some(-1440), Some(i64::MAX), Some(i64::MIN)],
        &[&[1], &[1, 1], &[1, 1, 1], &[9999], &[9999, 12], &[9999, 12, 31]]),
    ("a UTC year above 10000, or a day that is none, is outside the grammar, whatever the offset",
        &[None, Some(0), Some(-1), Some(i64::MIN)], &[&[10_001], &[10_001, 1, 1], &[10_001, 1, 1, 0, 0], &[0, 2, 30], &[1, 2, 29, 0, 0]]),
];

/// Streams that are made: depth, lengths of more than a byte, and timestamps by their offsets and fields.
fn made() -> Vec<(&'static str, Vec<u8>)> {
    let mut made = Vec::new();
    let depth = "32 containers may be open: lists, s-expressions and structs count, wrappers and nulls do not";
    for count in [32, 33] {
        made.push((depth, nested(count, |body| headed(0xb0, body), vec![])));
        made.push((depth, nested(count, |body| headed(0xc0, body), vec![])));
        made.push((
            depth,
            nested(count, |body| headed(0xd0, if body.is_empty() { body } else { [&[0x8a], &body[..]].concat() }), vec![]),
        ));
        made.push((depth, nested(count, |body| annotated(headed(0xb0, body)), vec![])));
    }
    for inside in
        [&[0x20][..], &[0xbf], &[0xcf], &[0xdf], &[0xe3, 0x81, 0x8a, 0xbf], &[0xb0], &[0xc0], &[0xd0], &[0xe3, 0x81, 0x8a, 0xb0]]
    {
        made.push((depth, nested(32, |body| headed(0xb0, body), inside.to_vec())));
    }
    let last = "4 is the last refusal at a header, and comes in stream order";
    for inside in
        [&[0x12, 0xb0][..], &[0xb0, 0x12], &[0xb1], &[0xd1, 0x80], &[0xde, 0x81], &[0x20, 0xb0], &[0xe4, 0x81, 0x8a, 0xb0, 0x20]]
    {
        made.push((last, nested(32, |body| headed(0xb0, body), inside.to_vec())));
    }
    for inside in [&[0x8b, 0x20, 0x8a, 0xb0][..], &[0x8a, 0x20, 0x8a, 0xb0], &[0x8a, 0x20, 0x8b, 0xb0]] {
        made.push((last, nested(31, |body| headed(0xb0, body), [&[0xd1, 0x80 + inside.len() as u8], inside].concat())));
    }
    let long = "lengths of a VarUInt of more than a byte";
    for length in [127, 128] {
        made.push((long, headed(0x80, vec![b'a'; length])));
        made.push((long, headed(0xb0, vec![0x20; length])));
        made.push((long, annotated(headed(0xa0, vec![0; length]))));
        made.push((long, headed(0x00, vec![0xff; length])));
        let mut cut = headed(0x80, vec![b'a'; length]);
        cut.pop();
        made.push((long, cut));
    }
    for (says, offsets, fields) in CALENDAR {
        made.extend(fields.iter().flat_map(|fields| offsets.iter().map(|offset| (*says, timestamp(*offset, fields)))));
    }
    let longest = "a fraction's coefficient has at most 4,096 bytes, leading zeros aside";
    for (digits, coefficient) in [
        (9864, [&[0x00, 0x7f][..], &[0xff; 4095]].concat()),
        (9864, [&[0x00][..], &[0xff; 4096]].concat()),
        (12291, [&[0x01][..], &[0x00; 4096]].concat()),
    ] {
        made.push((longest, fractioned(digits, coefficient)));
    }
    made
}

fn nested(count: usize, around: impl Fn(Vec<u8>) -> Vec<u8>, inside: Vec<u8>) -> Vec<u8> {
    (0..count).fold(inside, |body, _| around(body))
}

/// The body behind its header.
pub fn headed(kind: u8, body: Vec<u8>) -> Vec<u8> {
    let header = match body.len() {
        length @ 0..14 => vec![kind | length as u8],
        length => [&[kind | 14], &var_uint(length as u64)[..]].concat(),
    };
    [header, body].concat()
}

/// The value in a wrapper with one sid.
fn annotated(value: Vec<u8>) -> Vec<u8> {
    headed(0xe0, [&[0x81, 0x8a], &value[..]].concat())
}

/// A timestamp by its offset and its UTC fields. The unknown offset is negative zero.
pub fn timestamp(offset: Option<i64>, fields: &[u64]) -> Vec<u8> {
    let mut body = match offset {
        Some(minutes) => var_int(minutes < 0, minutes.unsigned_abs()),
        None => var_int(true, 0),
    };
    body.extend(fields.iter().flat_map(|field| var_uint(*field)));
    headed(0x60, body)
}

/// A timestamp whose seconds have a fraction of so many digits, over 8,191.
fn fractioned(digits: u16, coefficient: Vec<u8>) -> Vec<u8> {
    let exponent = [0x40 | (digits >> 14) as u8, (digits >> 7) as u8 & 0x7f, digits as u8 | 0x80];
    headed(0x60, [&[0x80, 0x0f, 0xd0, 0x81, 0x81, 0x80, 0x80, 0x80], &exponent[..], &coefficient[..]].concat())
}

pub fn var_uint(number: u64) -> Vec<u8> {
    let mut bytes = vec![number as u8 | 0x80];
    let mut rest = number >> 7;
    while rest > 0 {
        bytes.insert(0, rest as u8 & 0x7f);
        rest >>= 7;
    }
    bytes
}

/// The first byte has six bits of the magnitude, below the sign.
pub fn var_int(negative: bool, magnitude: u64) -> Vec<u8> {
    let mut bytes = var_uint(magnitude);
    if bytes[0] & 0x40 != 0 {
        bytes.insert(0, 0);
    }
    bytes[0] |= if negative { 0x40 } else { 0 };
    bytes
}

/// A stream and the position that it is read from.
type Stream = (Vec<u8>, usize);

/// Each rule with its streams.
fn rules() -> Vec<(&'static str, Vec<Stream>)> {
    let written = |text: &&str| {
        let (hex, position) = text.split_once('@').unwrap_or((text, "0"));
        (bytes(hex), position.parse().expect("a position"))
    };
    let mut rules: Vec<(&str, Vec<Stream>)> =
        RULES.iter().map(|rule| (rule.says, rule.streams.iter().map(written).collect())).collect();
    for (says, stream) in made() {
        match rules.last_mut() {
            Some((said, streams)) if *said == says => streams.push((stream, 0)),
            _ => rules.push((says, vec![(stream, 0)])),
        }
    }
    rules
}

pub fn streams() -> Vec<Stream> {
    rules().into_iter().flat_map(|(_, streams)| streams).collect()
}

/// Lines `HEX POSITION ANSWER`, those of a rule behind a line `# ` and what the rule says. No bytes are a minus.
pub fn lines() -> Vec<String> {
    let mut lines = Vec::new();
    for (says, streams) in rules() {
        lines.push(format!("# {says}"));
        lines.extend(streams.iter().map(|(stream, position)| line(stream, *position)));
    }
    lines
}

pub fn line(stream: &[u8], position: usize) -> String {
    let (events, ending) = walk(stream, position);
    let hex = if stream.is_empty() { "-".to_string() } else { Hex(stream).to_string() };
    format!("{hex} {position} {}", text::line(&events, ending))
}

/// Bytes by their hex digits; spaces between them do not count.
pub fn bytes(hex: &str) -> Vec<u8> {
    let digits: Vec<u8> = hex.chars().filter(|c| *c != ' ').map(|c| c.to_digit(16).expect("a hex digit") as u8).collect();
    assert!(digits.len().is_multiple_of(2), "{hex} has an odd digit");
    digits.chunks(2).map(|pair| pair[0] << 4 | pair[1]).collect()
}
