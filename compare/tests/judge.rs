//! The judge as a program: its counts, its last lines and its exit status; and `answers`, which makes the sample's.

mod common;

use common::{run, says_which_file_is_missing};

fn judge(name: &str, contents: &[&str]) -> (bool, String) {
    run(env!("CARGO_BIN_EXE_judge"), name, contents)
}

const LINES: &str = "(bool 1)\n(bool 2)\n\n(int -0)\n(ts ? 2000 1 1 0 0 0 0 0)\n(symbol \"go\")\n";
const OURS: &str = "11\n!12\n!12\n!5\n!7\n!11\n";
const RUST: &str = "11\n?form bool\n?form empty\n?hold zero\n68c00fd08181808080\n?err text\n";

#[test]
fn equal_and_parted() {
    let (content, printed) = judge("equal", &[LINES, OURS, RUST]);
    assert!(content, "{printed}");
    let end = "parted by intent: 0 over 4,096 bytes, 0 over 32 deep, 1 of no fraction digits\n6 lines, 0 differences\n";
    assert!(printed.ends_with(end), "{printed}");
    assert!(printed.contains("1 with the same bytes, 4 refused by both (1 of !5, 1 of !11, 2 of !12)"), "{printed}");
}

#[test]
fn each_intent_is_counted_by_itself() {
    let deep = format!("{}(bool 1){}\n", "(list ".repeat(33), ")".repeat(33));
    let long = format!("(int {})\n", "0".repeat(4091));
    let lines = format!("{deep}{long}{deep}");
    let (content, printed) = judge("intents", &[&lines, "!4\n!12\n!4\n", "b0\n2100\nb0\n"]);
    let end = "\nparted by intent: 1 over 4,096 bytes, 2 over 32 deep, 0 of no fraction digits\n3 lines, 0 differences\n";
    assert!(content && printed.ends_with(end), "{printed}");
}

#[test]
fn differences() {
    for (at, ours) in
        ["10\n!12\n!12\n!5\n!7\n!11\n", "11\n!11\n!12\n!5\n!7\n!11\n", "11\n!12\n!12\n!7\n!7\n!11\n"].iter().enumerate()
    {
        let (content, printed) = judge(&format!("different-{at}"), &[LINES, ours, RUST]);
        assert!(!content && printed.ends_with("6 lines, 1 differences\n"), "{printed}");
    }
}

#[test]
fn differences_are_said() {
    for (at, (ours, said)) in [
        ("10\n!12\n!12\n!5\n!7\n!11\n", "line 1: (bool 1)\n  ours 10\n  Rust 11\n  the documents bytes\n"),
        ("11\n!11\n!12\n!5\n!7\n!11\n", "line 2: (bool 2)\n  ours !11\n  Rust ?form bool\n  the documents !12\n"),
        ("11\n!12\n!12\n!7\n!7\n!11\n", "line 4: (int -0)\n  ours !7\n  Rust ?hold zero\n  the documents !5\n"),
    ]
    .iter()
    .enumerate()
    {
        let (content, printed) = judge(&format!("said-{at}"), &[LINES, ours, RUST]);
        assert!(!content && printed.starts_with(said) && printed.ends_with("6 lines, 1 differences\n"), "{printed}");
    }
}

#[test]
fn two_hundred_differences_are_printed_and_all_are_counted() {
    let [lines, ours, rust] = ["(bool 1)\n", "10\n", "11\n"].map(|line| line.repeat(203));
    let (content, printed) = judge("many", &[&lines, &ours, &rust]);
    assert!(!content && printed.ends_with("\n203 lines, 203 differences\n"), "{printed}");
    assert!(printed.contains("\n3 more differences\n"), "{printed}");
    assert_eq!(printed.matches(": (bool 1)\n").count(), 200);
}

#[test]
fn left_out() {
    let lines = format!("{LINES}(ts 60 1 1 1 0 0)\n(list (int -0) (ts -60 9999 12 31 23 30))\n(bool 0)\n");
    let rust = format!("{RUST}66bc808c9f9780\n?hold zero\n10\n");
    let (content, printed) = judge("left-out", &[&lines, &format!("{OURS}!7\n!5\n10\n"), &rust]);
    assert!(content, "{printed}");
    assert!(
        printed.contains("\nleft out of the comparison, ours held to document 02, Item 2: 2 with a UTC year of 0 or 10000\n"),
        "{printed}"
    );
    // They are not counted among the lines.
    assert!(printed.ends_with("\n7 lines, 0 differences\n"), "{printed}");
    for (at, ours) in ["66bc808c9f9780\n!5\n10\n", "!7\n!7\n10\n", "!7\n!5\n11\n"].iter().enumerate() {
        let (content, printed) = judge(&format!("left-out-{at}"), &[&lines, &format!("{OURS}{ours}"), &rust]);
        assert!(!content && printed.starts_with(&format!("line {}: ", at + 7)), "{printed}");
    }
}

#[test]
fn short_and_long_files() {
    let short = OURS.strip_suffix("!11\n").expect("six lines");
    let long = format!("{OURS}11\n");
    for (name, files, lines) in
        [("short", [LINES, short, RUST], 5), ("short-rust", [LINES, OURS, "11\n"], 1), ("long", [LINES, &long, RUST], 6)]
    {
        let (content, printed) = judge(name, &files);
        assert!(!content && printed.ends_with(&format!("\n{lines} lines, 1 differences\n")), "{printed}");
    }
}

#[test]
fn a_long_file_of_the_rust() {
    let long_rust = format!("{RUST}11\n");
    let (content, printed) = judge("long-rust", &[LINES, OURS, &long_rust]);
    assert!(!content && printed.ends_with("\n6 lines, 1 differences\n"), "{printed}");
}

#[test]
fn files_that_are_not_there() {
    assert!(!judge("two-files", &[LINES, OURS]).0);
    assert!(!judge("four-files", &[LINES, OURS, RUST, "marker\n"]).0);
    assert!(judge("empty", &["", "", ""]).0);
    says_which_file_is_missing(env!("CARGO_BIN_EXE_judge"), "judge-missing", 3);
    says_which_file_is_missing(env!("CARGO_BIN_EXE_judge"), "judge-missing", 6);
}

const STREAM: &str = "value (bool 1)\nmarker\nvalue (list (i64 5))\n";
const OUR_STREAM: &str = "e00100ea\n11\ne00100ea\nb22105\n";
const RUST_STREAM: &str = "e00100ea11e00100eab22105\n";

#[test]
fn streams() {
    let stream = "value (bool 1)\nmarker\nvalue (list (i64 5))\n";
    let ours = "e00100ea\n11\ne00100ea\nb22105\n";
    let rust = "e00100ea11e00100eab22105\n";
    let (content, printed) = judge("stream", &[LINES, OURS, RUST, stream, ours, rust]);
    assert!(content && printed.ends_with("\n9 lines, 0 differences\n"), "{printed}");
    let moved = "e00100ea\ne00100ea\n11\nb22105\n";
    assert!(!judge("stream-order", &[LINES, OURS, RUST, stream, moved, rust]).0);
    let short = "e00100ea\n11\ne00100ea\n";
    let (content, printed) = judge("stream-short", &[LINES, OURS, RUST, stream, short, rust]);
    assert!(!content && printed.ends_with("\n8 lines, 1 differences\n"), "{printed}");
    let more = "e00100ea11e00100eab2210511\n";
    assert!(!judge("stream-long", &[LINES, OURS, RUST, stream, ours, more]).0);
}

#[test]
fn streams_that_differ() {
    let (content, printed) = judge("stream-items", &[LINES, OURS, RUST, STREAM, OUR_STREAM, RUST_STREAM]);
    assert!(content && printed.ends_with("\n9 lines, 0 differences\n"), "{printed}");
    assert!(printed.contains("\n3 stream items\n"), "{printed}");
    // What differs, where the judge sees it, and how many items it has looked at by then.
    for (at, (stream, ours, rust, said, items)) in [
        (STREAM, "e00100ea\n10\ne00100ea\nb22105\n", RUST_STREAM, "item 1: value (bool 1)\n  ours 10\n  Rust 11e0", 1),
        (STREAM, "e00100ea\ne00100ea\n11\nb22105\n", RUST_STREAM, "item 1: ", 1),
        // the start's marker, ours, the Rust's and both
        (STREAM, "e00100eb\n11\ne00100ea\nb22105\n", RUST_STREAM, "start of the stream: ", 0),
        (STREAM, "e00100ea11\n11\ne00100ea\nb22105\n", "e00100ea1111e00100eab22105\n", "start of the stream: ", 0),
        (STREAM, "\n11\ne00100ea\nb22105\n", RUST_STREAM, "start of the stream: ", 0),
        (STREAM, OUR_STREAM, "e00100eb11e00100eab22105\n", "start of the stream: ", 0),
        (STREAM, OUR_STREAM, "e001\n", "start of the stream: ", 0),
        (STREAM, "e00100eb\n11\ne00100ea\nb22105\n", "e00100eb11e00100eab22105\n", "start of the stream: ", 0),
        // no hex: nothing, half a byte, letters that both have
        (STREAM, "e00100ea\n\n11e00100ea\nb22105\n", RUST_STREAM, "item 1: ", 1),
        (STREAM, "e00100ea\n1\n1e00100ea\nb22105\n", RUST_STREAM, "item 1: ", 1),
        (STREAM, "e00100ea\n1G\ne00100ea\nb22105\n", "e00100ea1Ge00100eab22105\n", "item 1: ", 1),
        // bytes of a neighbour, and another marker in both
        (STREAM, "e00100ea\n11e0\n0100ea\nb22105\n", RUST_STREAM, "item 1: ", 1),
        ("value (i64 5)\nvalue (bool 1)\n", "e00100ea\n21\n0511\n", "e00100ea210511\n", "item 1: ", 1),
        (STREAM, "e00100ea\n11\ne00101ea\nb22105\n", "e00100ea11e00101eab22105\n", "item 2: ", 2),
        // items that are none
        ("marke\n", "e00100ea\ne00100ea\n", "e00100eae00100ea\n", "item 1: ", 1),
        ("(bool 1)\n", "e00100ea\n11\n", "e00100ea11\n", "item 1: ", 1),
        ("value (symbol \"go\")\n", "e00100ea\n7104\n", "e00100ea7104\n", "item 1: ", 1),
        ("value (bool 2)\n", "e00100ea\n11\n", "e00100ea11\n", "item 1: ", 1),
        // too few and too many, of ours and of the Rust's
        (STREAM, "e00100ea\n11\ne00100ea\n", RUST_STREAM, "OURS is short or too long\n", 2),
        (STREAM, "", RUST_STREAM, "OURS is short or too long\n", 0),
        (STREAM, "e00100ea\n11\ne00100ea\nb22105\n11\n", RUST_STREAM, "OURS is short or too long\n", 3),
        (STREAM, "e00100ea\n11\ne00100ea\nb22105\n\n", RUST_STREAM, "OURS is short or too long\n", 3),
        (STREAM, OUR_STREAM, "", "RUST is short or too long\n", 0),
        (STREAM, OUR_STREAM, "e00100ea11e00100eab2210511\n", "RUST is short or too long\n", 3),
        (STREAM, OUR_STREAM, "e00100ea11e00100eab22105\n11\n", "RUST is short or too long\n", 3),
        (STREAM, OUR_STREAM, "e00100ea11e00100eab221\n", "item 3: ", 3),
    ]
    .iter()
    .enumerate()
    {
        let name = format!("stream-{at}");
        let (content, printed) = judge(&name, &[LINES, OURS, RUST, stream, ours, rust]);
        let folder = format!("{}/{name}", env!("CARGO_TARGET_TMPDIR"));
        let printed = printed.replace(&format!("{folder}/4 "), "OURS ").replace(&format!("{folder}/5 "), "RUST ");
        assert!(!content && printed.starts_with(said), "{name}: {printed}");
        assert!(printed.ends_with(&format!("\n{} lines, 1 differences\n", 6 + items)), "{name}: {printed}");
    }
}

#[test]
fn answers() {
    let run = |name: &str, rust: &str| run(env!("CARGO_BIN_EXE_answers"), name, &[LINES, rust]);
    assert_eq!(run("answers", RUST), (true, OURS.to_string()));
    for (at, rust) in [
        RUST.replace("11\n?form bool", "?form bool\n?form bool"),
        RUST.replace("?hold zero", "2100"),
        RUST.replace("?err text", "?hold text"),
        RUST.replace("?err text\n", ""),
        format!("{RUST}11\n"),
    ]
    .iter()
    .enumerate()
    {
        assert!(!run(&format!("answers-{at}"), rust).0, "{rust}");
    }
}
