//! `read-back` says no where what was written reads as something else.

#[path = "../../tests/common/mod.rs"]
mod common;

use common::{run, says_which_file_is_missing};

const PROGRAM: &str = env!("CARGO_BIN_EXE_read-back");

/// Whether it was content, and its last line.
fn read_back(name: &str, contents: &[&str]) -> (bool, String) {
    let (content, printed) = run(PROGRAM, name, contents);
    (content, printed.lines().last().unwrap_or_default().to_string())
}

/// Of one trial line and the bytes that were written for it.
fn agrees(line: &str, bytes: &str) -> bool {
    let (content, last) = read_back(&format!("line-{bytes}"), &[&format!("{line}\n"), &format!("{bytes}\n")]);
    assert!(last.starts_with("1 read back, ") && content == last.ends_with(" 0 differences"), "{last}");
    content
}

#[test]
fn another_value() {
    assert!(agrees("(i64 1)", "2101"));
    for bytes in ["2102", "3101", "21", "21012101", "e3818a11"] {
        assert!(!agrees("(i64 1)", bytes), "{bytes}");
    }
}

/// Cut bytes, bytes that are none, and a value that is whole with bytes behind it that do not read.
#[test]
fn what_does_not_read() {
    for bytes in ["", "2", "210", "21012", "zz", "?", "210121"] {
        assert!(!agrees("(i64 1)", bytes), "{bytes}");
    }
    assert!(!agrees("(int 0)", "210"));
    assert!(!agrees("(bool 2)", "11"));
}

/// The writer chooses the width of a float.
#[test]
fn floats() {
    for bytes in ["443fc00000", "483ff8000000000000"] {
        assert!(agrees("(f64 3ff8000000000000)", bytes));
        assert!(agrees("(f32 3fc00000)", bytes));
    }
    assert!(!agrees("(f64 3ff8000000000000)", "443fc00001"));
}

/// The first UTC minute of the year 1 has no mark; the year 0 has one, so it must not have been written.
#[test]
fn a_mark() {
    assert!(agrees("(ts 0 1 1 1 0 0)", "66808181818080"));
    assert!(!agrees("(ts 60 1 1 1 0 30)", "66bc808c9f979e"));
}

const LINES: &str = "(bool 1)\n(int -0)\n(bool 0)\n";
const OURS: &str = "11\n!5\n10\n";
const STREAM: &str = "value (bool 1)\nmarker\nvalue (list (i64 5))\n";
const OUR_STREAM: &str = "e00100ea\n11\ne00100ea\nb22105\n";

/// Each line that was not refused, each item, and the stream whole: both where they stand in it and together.
#[test]
fn lines_and_streams() {
    assert_eq!(read_back("both", &[LINES, OURS, STREAM, OUR_STREAM]), (true, "6 read back, 0 differences".into()));
    // A difference is one of the host crate's reader and one of the model.
    for (at, (ours, our_stream, differences)) in [
        ("11\n!5\n11\n", OUR_STREAM, 2),
        (OURS, "e00100ea\n10\ne00100ea\nb22105\n", 4),
        (OURS, "e00100ea\n11\ne00100ea\nb22106\n", 4),
        // bytes of a neighbour: the whole is in order
        (OURS, "e00100ea\n11e0\n0100ea\nb22105\n", 4),
        // the start and a missing answer show in the whole alone
        (OURS, "11\n11\ne00100ea\nb22105\n", 2),
        (OURS, "\n11\ne00100ea\nb22105\n", 2),
        (OURS, "e00100ea\n11\n10\nb22105\n", 4),
        (OURS, "e00100ea\n11\n?\nb22105\n", 3),
    ]
    .iter()
    .enumerate()
    {
        let answer = read_back(&format!("both-{at}"), &[LINES, ours, STREAM, our_stream]);
        assert_eq!(answer, (false, format!("6 read back, {differences} differences")), "{ours}{our_stream}");
    }
}

#[test]
fn files_that_are_not_there() {
    assert!(!read_back("one-file", &[LINES]).0);
    assert!(!read_back("three-files", &[LINES, OURS, STREAM]).0);
    assert!(read_back("empty", &["", ""]).0);
    says_which_file_is_missing(PROGRAM, "missing", 2);
    says_which_file_is_missing(PROGRAM, "missing", 4);
}
