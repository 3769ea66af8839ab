//! `streams`, and the stored stream that `write-stream` is tried with.

use std::process::{Command, Output};

use compare::refusal::number;

fn streams(words: &[&str]) -> Output {
    Command::new(env!("CARGO_BIN_EXE_streams")).args(words).output().expect("a run")
}

fn stored() -> String {
    let folder = concat!(env!("CARGO_MANIFEST_DIR"), "/write-stream/tests");
    std::fs::read_to_string(format!("{folder}/stream")).expect("compare/write-stream/tests/stream")
}

#[test]
fn write_stream_has_the_stored_stream() {
    let made = streams(&["7", "300"]);
    assert!(made.status.success() && made.stdout == stored().as_bytes(), "scripts/make-sample makes it again");
    assert_ne!(streams(&["8", "300"]).stdout, made.stdout);
    assert!(!streams(&["7"]).status.success() && !streams(&["7", "many"]).status.success());
}

/// Items that document 01 accepts: markers, and values of each kind, annotated, empty, long and as deep as can be.
#[test]
fn the_stored_stream_has_all() {
    let stored = stored();
    let values: Vec<&str> = stored.lines().filter_map(|item| item.strip_prefix("value ")).collect();
    let markers = stored.lines().filter(|item| *item == "marker").count();
    assert_eq!(markers + values.len(), 300);
    assert!(markers >= 10, "{markers} markers");
    for value in &values {
        assert_eq!(number(value.as_bytes()), None, "{value}");
    }
    for part in [
        "(null ", "(bool 0)", "(bool 1)", "(i64 -", "(int -", "(f32 ", "(f64 ", "(dec ", "(dec -", "(ts ? ", "(ts -", "(symbol ",
        "(string ", "(clob ", "(blob ", "(list (", "(sexp (", "(struct (", "(ann (", "(ann ()", "(list)", "(sexp)", "(struct)",
    ] {
        assert!(values.iter().any(|value| value.contains(part)), "{part}");
    }
    assert!(values.iter().any(|value| value.len() > 2000));
    let has_32_open = |value: &&str| number(format!("(list {value})").as_bytes()) == Some(4);
    assert!(values.iter().any(has_32_open));
}
