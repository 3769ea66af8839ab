//! The families, and the sample in crates/trial.

use std::collections::BTreeSet;

use compare::reading::{written, Event, Scalar};
use compare::refusal::{faults, number, Fault};
use compare::{families, form, length, sample};

#[test]
fn families_meet_every_refusal_of_a_line() {
    let families = families::all();
    let lines = || families.iter().flat_map(|family| &family.lines);
    assert!(lines().all(|line| !line.contains(&b'\n')));
    let numbers: BTreeSet<u8> = lines().filter_map(|line| number(line)).collect();
    assert_eq!(numbers, BTreeSet::from([4, 5, 6, 7, 8, 11, 12]));
    for family in &families {
        assert!(family.lines.iter().any(|line| number(line).is_none()), "{}: no line is accepted", family.name);
    }
}

/// The UTC years by the order of the fields against those that are counted through the calendar.
#[test]
fn accepted_lines_have_no_timestamp_out_of_calendar() {
    let outside = |event: &Event| matches!(event, Event::Scalar { value: Scalar::Timestamp { value, .. }, .. } if value.is_out_of_calendar());
    let (mut accepted, mut refused) = (0, 0);
    for line in families::all().iter().flat_map(|family| &family.lines) {
        let faults = faults(line);
        if faults.iter().any(|fault| *fault != Fault::UtcYear) {
            continue;
        }
        let value = form::parse(line).expect("of the form");
        assert_eq!(written::events(&value).iter().any(outside), !faults.is_empty(), "{}", line.escape_ascii());
        match faults.is_empty() {
            true => accepted += 1,
            false => refused += 1,
        }
    }
    assert!(accepted > 10_000 && refused > 1000, "{accepted} accepted, {refused} refused");
}

#[test]
fn the_trial_program_has_the_sample() {
    let folder = concat!(env!("CARGO_MANIFEST_DIR"), "/../crates/trial");
    let stdin = std::fs::read(format!("{folder}/stdin")).expect("crates/trial/stdin");
    let stdout = std::fs::read_to_string(format!("{folder}/stdout")).expect("crates/trial/stdout");
    let lines = sample::lines();
    assert!(stdin == [lines.join(&b'\n'), b"\n".to_vec()].concat(), "scripts/make-sample makes it again");
    assert_eq!(stdout.lines().count(), lines.len());
    for (line, answer) in lines.iter().zip(stdout.lines()) {
        let refused = answer.strip_prefix('!').map(|digits| digits.parse().expect("a number"));
        assert_eq!(refused, number(line), "{}", line.escape_ascii());
    }
}

/// The answers are the original's bytes.
#[test]
fn lengths_are_those_of_the_sample() {
    let folder = concat!(env!("CARGO_MANIFEST_DIR"), "/../crates/trial");
    let stdout = std::fs::read_to_string(format!("{folder}/stdout")).expect("crates/trial/stdout");
    let mut accepted = 0;
    for (line, answer) in sample::lines().iter().zip(stdout.lines()) {
        if answer.starts_with('!') {
            continue;
        }
        let value = form::parse(line).expect("of the form");
        assert_eq!(length::encoded(&value), answer.len() / 2, "{}", line.escape_ascii());
        accepted += 1;
    }
    assert!(accepted > 700, "{accepted} accepted");
}
