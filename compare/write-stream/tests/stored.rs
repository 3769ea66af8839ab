//! The program over a stored stream, whose bytes are the original Rust's. `scripts/make-sample` makes both files again.

use std::collections::BTreeSet;
use std::fs::{self, File};
use std::path::Path;
use std::process::{Command, Output};

use compare::stream;

const STREAM: &str = include_str!("stream");
const RUST: &str = include_str!("stream.rust");

fn write_stream(words: &[&str], name: &str, stream: &str) -> Output {
    let file = Path::new(env!("CARGO_TARGET_TMPDIR")).join(name);
    fs::write(&file, stream).expect("a file");
    let stdin = File::open(file).expect("a stream");
    Command::new(env!("CARGO_BIN_EXE_write-stream")).args(words).stdin(stdin).output().expect("a run")
}

/// The bytes are the same whatever is made between the calls. Each container's closing is looked at, and there is some of all that
/// leaves no trace.
#[test]
fn the_bytes_of_the_original() {
    let containers: usize = ["(list", "(sexp", "(struct"].iter().map(|word| STREAM.matches(word).count()).sum();
    let mut all = BTreeSet::new();
    for seed in 1..=10 {
        let output = write_stream(&[&seed.to_string()], "stream", STREAM);
        let said = String::from_utf8(output.stderr).expect("text");
        assert!(output.status.success(), "seed {seed}: {said}");
        let judged = stream::judge(STREAM.as_bytes(), &output.stdout, RUST.as_bytes());
        assert_eq!(judged, (STREAM.lines().count() as u64, None), "seed {seed}");
        let counts: Vec<usize> = said.split(' ').filter_map(|word| word.parse().ok()).collect();
        let [closed, emptied, abandoned, misplaced, refused] = counts[..] else { panic!("{said}") };
        assert!(emptied >= 3 && abandoned >= 100 && misplaced >= 50 && refused >= 50, "seed {seed}: {said}");
        assert_eq!(closed, containers, "seed {seed}");
        all.insert(counts);
    }
    assert!(all.len() > 1, "every seed draws the same");
}

#[test]
fn streams_that_are_not_written() {
    assert!(write_stream(&["1"], "items", "marker\nvalue (bool 1)\n").status.success());
    for (at, (words, item, said)) in [
        (&["1"][..], "value (bool 2)", "write-stream: item 2: not of the form"),
        (&["1"], "(bool 1)", "write-stream: item 2: neither marker nor value"),
        (&["1"], "", "write-stream: item 2: neither marker nor value"),
        (&["1"], "value (list (int -0))", "write-stream: item 2: "),
        (&[], "marker", "usage: "),
        (&["one"], "marker", "usage: "),
    ]
    .iter()
    .enumerate()
    {
        let output = write_stream(words, &format!("items-{at}"), &format!("marker\n{item}\n"));
        assert!(!output.status.success() && String::from_utf8_lossy(&output.stderr).starts_with(said), "{item}");
    }
}
