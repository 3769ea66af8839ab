//! The model of the reader, held to answers that are written by hand: the Ion document's examples, and the rules of document 02, Items 1
//! and 2.
//! `compare::reading::text` says how an answer is written.

use compare::reading::vectors::{self, bytes, headed};
use compare::reading::{streams, text, walk, Event, Scalar, Timestamp};
use compare::rng::Rng;

fn answer(hex: &str, position: usize) -> String {
    let (events, ending) = walk(&bytes(hex), position);
    text::line(&events, ending)
}

#[track_caller]
fn reads(cases: &[(&str, &str)]) {
    for (hex, expected) in cases {
        assert_eq!(answer(hex, 0), *expected, "{hex}");
    }
}

#[track_caller]
fn all(hex: &[&str], expected: &str) {
    for hex in hex {
        assert_eq!(answer(hex, 0), expected, "{hex}");
    }
}

#[test]
fn examples_of_the_ion_document() {
    reads(&[
        ("", "whole"),
        ("e00100ea", "m whole"),
        ("0f", "n0 whole"),
        ("1f", "n1 whole"),
        ("10", "b0 whole"),
        ("11", "b1 whole"),
        ("20", "i+ whole"),
        ("2101", "i+01 whole"),
        ("3f", "n2 whole"),
        ("40", "f whole"),
        ("443fc00000", "f3fc00000 whole"),
        ("483ff8000000000000", "f3ff8000000000000 whole"),
        ("50", "d+:0 whole"),
        ("51c0", "d+:0 whole"),
        ("53c11fbd", "d+1fbd:-1 whole"),
        ("528080", "d-:0 whole"),
        // 2000-01-01T00:00:00Z with no fraction, by each of the document's forms
        ("68800fd08181808080", "t0:2000,1,1,0,0,0: whole"),
        ("69800fd0818180808080", "t0:2000,1,1,0,0,0: whole"),
        ("6a800fd081818080808000", "t0:2000,1,1,0,0,0: whole"),
        ("69800fd08181808080c0", "t0:2000,1,1,0,0,0: whole"),
        ("69800fd0818180808081", "t0:2000,1,1,0,0,0: whole"),
        // 2000-01-01T00:00:00.00Z
        ("6a800fd08181808080c200", "t0:2000,1,1,0,0,0:2, whole"),
        ("69800fd08181808080c2", "t0:2000,1,1,0,0,0:2, whole"),
        ("63c00fd0", "t?:2000: whole"),
        ("710a", "s10 whole"),
        ("83616263", "u616263 whole"),
        ("92ff00", "cff00 whole"),
        ("a2ff00", "off00 whole"),
        ("b32101b0", "[ i+01 [ . . whole"),
        ("c0", "( . whole"),
        ("d38a2101", "{ 10=i+01 . whole"),
        // a pad behind a name, at a struct's end and before
        ("d7848161 80 02 0102", "{ 4=u61 . whole"),
        ("d880 02 0102 84820f 0f", "{ 4=u0f0f . whole"),
        ("e781 8a 83616263 00", "!13@0"),
        ("e6818a83616263", "10::u616263 whole"),
        ("00", "whole"),
        ("020102 20", "i+ whole"),
        ("0e820102 20", "i+ whole"),
    ]);
}

#[test]
fn nothing_inside_a_container_or_a_wrapper_is_14() {
    all(&["b121", "b12e", "b22e82", "b1b1", "b20e82", "b101"], "[ !13@1");
    all(&["d28a21", "d20a0a", "d28a8e"], "{ !13@1");
    all(&["e3828a20", "e3818a21", "e3818a2e", "e3818ab1", "e38120 8a"], "!13@0");
    all(&["e4818ab121"], "10::[ !13@4");
}

#[test]
fn a_body_that_the_stream_cuts_is_14_before_its_content() {
    all(&["21", "31", "b2 12", "82ff", "6280", "d412", "e4ff", "d182ff", "0e81", "2e", "2e00", "8e82", "5e8a"], "!14@0");
}

#[test]
fn headers_that_cannot_be_are_13_even_as_the_last_byte() {
    all(
        &[
            "f0", "ff", "12", "1e", "41", "4e", "4d", "30", "3e80", "60", "61", "6e81", "ef", "e1", "e2", "ee82", "d180", "d181",
            "de81",
        ],
        "!13@0",
    );
    // a length past 64 bits, as soon as it is
    all(&["2e02000000000000000000", "2e7f7f7f7f7f7f7f7f7f7f", "0e027f7f7f7f7f7f7f7fff"], "!13@0");
    // and the greatest that is not
    all(&["2e017f7f7f7f7f7f7f7fff", "0e017f7f7f7f7f7f7f7fff", "2e01000000000000000080"], "!14@0");
}

#[test]
fn headers_of_floats_that_cannot_be_are_13() {
    all(&["42", "43", "45", "47", "49"], "!13@0");
}

#[test]
fn depth_counts_containers_alone_and_4_comes_last() {
    let nest = |count: usize, inside: &[u8]| (0..count).fold(inside.to_vec(), |body, _| headed(0xb0, body));
    let end = |stream: Vec<u8>| text::line(&[], walk(&stream, 0).1);
    let places: Vec<usize> = [1, 2, 5].iter().map(|more| nest(32, &vec![0x20; *more]).len() - more).collect();
    assert_eq!(end(nest(32, &[])), "whole");
    assert_eq!(end(nest(32, &[0xbf])), "whole");
    assert_eq!(end(nest(31, &[0xe3, 0x81, 0x8a, 0xb0])), "whole");
    assert_eq!(end(nest(33, &[])), format!("!4@{}", places[0]));
    assert_eq!(end(nest(32, &[0xb1])), format!("!13@{}", places[0]));
    assert_eq!(end(nest(32, &[0xb0, 0x12])), format!("!4@{}", places[1]));
    assert_eq!(end(nest(32, &[0x12, 0xb0])), format!("!13@{}", places[1]));
    // a second value in the wrapper
    assert_eq!(end(nest(32, &[0xe4, 0x81, 0x8a, 0xb0, 0x20])), format!("!13@{}", places[2]));
    // a name that falls
    let sorted = nest(31, &[0xd1, 0x84, 0x8b, 0x20, 0x8a, 0xb0]);
    assert_eq!(end(sorted.clone()), format!("!13@{}", sorted.len() - 2));
    let sorted = nest(31, &[0xd1, 0x84, 0x8b, 0x20, 0x8b, 0xb0]);
    assert_eq!(end(sorted.clone()), format!("!4@{}", sorted.len() - 2));
}

#[test]
fn overlong_in_both_senses() {
    all(&["2101", "2e8101", "2e008101", "2e00000000000000000000000000000000008101", "220001", "2e00820001"], "i+01 whole");
    all(&["d28a20", "de828a20", "d3008a20", "d400008a20", "d10000828a20"], "{ 10=i+ . whole");
    reads(&[("e5 0081 8a 2101", "10::i+01 whole"), ("e482008a20", "10::i+ whole"), ("54 00 c1 00 05", "d+05:65 whole")]);
}

#[test]
fn places_and_lengths_do_not_wrap() {
    all(&["2020 8e 017f7f7f7f7f7f7f7ffd 61"], "i+ i+ !14@2");
    all(&["bb 8e 017f7f7f7f7f7f7f7ffd"], "[ !13@1");
}

#[test]
fn markers() {
    all(&["e0", "e001", "e00100"], "!14@0");
    all(&["e002", "e00101", "e00100e0", "e0e0"], "!13@0");
    all(&["b4e00100ea"], "[ !13@1");
    all(&["20e00100ea21 05"], "i+ m i+05 whole");
}

#[test]
fn wrappers() {
    // at least one sid, which ends where the sum says
    all(&["e3802020", "e4810a8a20", "e4820a0a20", "e4848a8a20"], "!13@0");
    reads(&[("e4820a8a20", "1290::i+ whole")]);
    // exactly one value
    all(&["e4818a2020", "e5818a210120", "e4818a2201"], "!13@0");
    // no pad and no wrapper
    all(&["e3818a00", "e4818a01ff", "e6818ae3818b20", "e6818ae00100ea"], "!13@0");
}

#[test]
fn pads_in_sorted_structs_neither_break_nor_set_the_order() {
    reads(&[
        ("d1848a208a20", "{ 10=i+ 10=i+ . whole"),
        ("d1848b208a20", "{ 11=i+ !13@4"),
        ("d1868a2089008a20", "{ 10=i+ 10=i+ . whole"),
        ("d1868a208f008a20", "{ 10=i+ 10=i+ . whole"),
        ("d1828a00", "{ . whole"),
        ("d4 8b20 8a20", "{ 11=i+ 10=i+ . whole"),
    ]);
}

#[test]
fn scalars() {
    reads(&[
        ("3100", "!13@0"),
        ("79000000000000000001", "s1 whole"),
        ("79010000000000000000", "!13@0"),
        ("82c3a9", "uc3a9 whole"),
        ("81c3", "!13@0"),
        ("83eda080", "!13@0"),
        ("4400000001", "f00000001 whole"),
        ("5101", "!13@0"),
        ("5a007f7f7f7f7f7f7f7fff", "d+:9223372036854775807 whole"),
        ("5a01000000000000000080", "!13@0"),
        ("5a41000000000000000080", "d+:-9223372036854775808 whole"),
        ("5a41000000000000000081", "!13@0"),
    ]);
}

#[test]
fn timestamps() {
    reads(&[
        ("63c04e90", "t?:10000: out-of-calendar whole"),
        ("63c04e91", "!13@0"),
        ("62c080", "t?:0: out-of-calendar whole"),
        ("65c00fd0829d", "t?:2000,2,29: whole"),
        ("65c00fd1829d", "!13@0"),
        ("66c00fd0818180", "!13@0"),
        ("67800fd081819880", "!13@0"),
        ("63800fd0", "t0:2000: whole"),
        ("6441800fd0", "t-128:2000: whole"),
        ("6c007f7f7f7f7f7f7f7fff0fd0", "t9223372036854775807:2000: whole"),
        ("6c410000000000000000800fd0", "t-9223372036854775808:2000: whole"),
        ("6c410000000000000000810fd0", "!13@0"),
    ]);
}

/// The last month, the last day of one, the last hour, minute and second of a day.
#[test]
fn timestamp_fields_at_their_ends() {
    reads(&[
        ("64c00fd08c", "t?:2000,12: whole"),
        ("65c00fd0819f", "t?:2000,1,31: whole"),
        ("68800fd0818197bbbb", "t0:2000,1,1,23,59,59: whole"),
    ]);
}

/// Month 0 and 13, day 0 and 32, minute 60, second 60.
#[test]
fn timestamp_fields_past_their_ranges() {
    all(&["64c00fd080", "64c00fd08d", "65c00fd08180", "65c00fd081a0", "67800fd0818180bc", "68800fd081818080bc"], "!13@0");
}

fn is_marked(offset: Option<i64>, fields: &[u64]) -> bool {
    let (events, _) = walk(&vectors::timestamp(offset, fields), 0);
    match &events[..] {
        [Event::Scalar { value: Scalar::Timestamp { value, out_of_calendar }, .. }] => {
            assert_eq!(*value, Timestamp { offset, fields: fields.to_vec(), fraction: None });
            *out_of_calendar
        }
        other => panic!("{other:?}"),
    }
}

#[test]
fn out_of_calendar_by_the_utc_year() {
    for (year, marked) in [(0, true), (1, false), (2000, false), (9999, false), (10_000, true)] {
        for fields in [&[year][..], &[year, 6], &[year, 6, 15], &[year, 6, 15, 12, 30], &[year, 6, 15, 12, 30, 59]] {
            for offset in [None, Some(0), Some(60), Some(-60), Some(1439), Some(-1439)] {
                assert_eq!(is_marked(offset, fields), marked, "{offset:?} {fields:?}");
            }
        }
    }
    // a local year inside does not help, and 29 February is a day of the year 0
    assert!(is_marked(Some(60), &[0, 12, 31, 23, 30]));
    assert!(is_marked(Some(-60), &[10_000, 1, 1, 0, 30, 0]));
    assert!(is_marked(Some(1_000_000_000), &[0, 2, 29, 0, 0]));
    assert!(is_marked(None, &[0, 2, 29]));
}

#[test]
fn out_of_calendar_by_the_local_year() {
    // the first minute of the year 1, and the last of 9999
    for (offset, first, last) in [
        (None, false, false),
        (Some(0), false, false),
        (Some(1), false, true),
        (Some(-1), true, false),
        (Some(1439), false, true),
        (Some(-1439), true, false),
        (Some(5_258_964_959), false, true),
        (Some(5_258_964_960), true, true),
        (Some(-5_258_964_959), true, false),
        (Some(-5_258_964_960), true, true),
        (Some(i64::MAX), true, true),
        (Some(i64::MIN), true, true),
    ] {
        for second in [&[][..], &[59]] {
            assert_eq!(is_marked(offset, &[&[1, 1, 1, 0, 0], second].concat()), first, "{offset:?}");
            assert_eq!(is_marked(offset, &[&[9999, 12, 31, 23, 59], second].concat()), last, "{offset:?}");
        }
        // the other ends lie a year away
        let year = 525_600;
        assert_eq!(is_marked(offset, &[1, 12, 31, 23, 59]), offset.is_some_and(|o| o < 1 - year || o > 5_258_964_960 - year));
        assert_eq!(is_marked(offset, &[9999, 1, 1, 0, 0]), offset.is_some_and(|o| o > year - 1 || o < year - 5_258_964_960));
    }
    // a date alone is not judged by its offset
    for offset in [None, Some(0), Some(1), Some(-1), Some(1440), Some(-1440), Some(i64::MAX), Some(i64::MIN)] {
        for date in [&[1][..], &[1, 1], &[1, 1, 1], &[9999], &[9999, 12], &[9999, 12, 31]] {
            assert!(!is_marked(offset, date), "{offset:?} {date:?}");
        }
    }
}

/// What the random streams and those of `years` have of timestamps.
#[test]
fn timestamps_in_the_calendar_and_out_of_it_are_many() {
    let mut rng = Rng::new(1);
    let random: Vec<Vec<u8>> = (0..100_000).map(|_| streams::stream(&mut rng).0).collect();
    for streams in [random, streams::years()] {
        let mut counts = [0; 5];
        for stream in &streams {
            for event in walk(stream, 0).0 {
                let Event::Scalar { value: Scalar::Timestamp { value, out_of_calendar }, .. } = event else {
                    continue;
                };
                let at_an_end = matches!(value.fields[0], 1 | 9999);
                let kind = match (out_of_calendar, at_an_end) {
                    (true, true) => 0,
                    (true, false) if matches!(value.fields[0], 0 | 10_000) => 1,
                    (true, false) => 2,
                    (false, true) if value.fields.len() < 5 && value.offset.is_some() => 3,
                    (false, _) => 4,
                };
                counts[kind] += 1;
            }
        }
        assert!(counts.iter().all(|count| *count >= 1000), "{counts:?} of {}", streams.len());
    }
}

#[test]
fn fractions_are_below_one() {
    reads(&[
        ("6a800fd08181808080c109", "t0:2000,1,1,0,0,0:1,09 whole"),
        ("6a800fd08181808080c10a", "!13@0"),
        ("6b800fd08181808080c303e7", "t0:2000,1,1,0,0,0:3,03e7 whole"),
        ("6b800fd08181808080c303e8", "!13@0"),
        // negative zero is zero, another negative number is none
        ("6a800fd08181808080c180", "t0:2000,1,1,0,0,0:1, whole"),
        ("6a800fd08181808080c181", "!13@0"),
        ("6a800fd081818080808080", "t0:2000,1,1,0,0,0: whole"),
        ("6a800fd081818080808001", "!13@0"),
        ("6e92800fd08181808080410000000000000080 01", "t0:2000,1,1,0,0,0:72057594037927936,01 whole"),
        ("6e93800fd08181808080 41000000000000000080 01", "t0:2000,1,1,0,0,0:9223372036854775808,01 whole"),
    ]);
}

#[test]
fn positions() {
    assert_eq!(answer("b32101b0", 1), "i+01 [ . whole");
    assert_eq!(answer("b32101b0", 4), "whole");
    assert_eq!(answer("b32101b0", 5), "!2@5");
    assert_eq!(answer("21", 1), "whole");
    assert_eq!(answer("", 1), "!2@1");
    assert_eq!(answer("e00100ea20", 1), "!14@3");
}

#[test]
fn the_place_is_where_the_item_begins() {
    reads(&[
        ("d48a208b12", "{ 10=i+ !13@3"),
        ("b520e3818a12", "[ i+ !13@2"),
        ("d78a208be3818a12", "{ 10=i+ !13@3"),
        ("20b22012", "i+ [ i+ !13@3"),
        ("2021", "i+ !14@1"),
    ]);
}
