//! Our answer and the Rust's for one trial line, each held to document 01 and to document 02, Item 2.

use std::fmt;

use crate::refusal::{self, Fault};

#[derive(Clone, Copy, Debug, PartialEq, Eq)]
pub enum Verdict {
    /// The same bytes, or a refusal of both.
    Equal,
    /// Bytes from the Rust, and a refusal from us that document 01 asks for.
    Parted(Intent),
    /// A timestamp of the UTC year 0 or 10000 stands in the line (document 02, Item 2): our answer is as the documents ask, the
    /// Rust's is not looked at.
    LeftOut,
    Different,
}

/// Where document 01 parts from the Rust for trial lines.
#[derive(Clone, Copy, Debug, PartialEq, Eq)]
pub enum Intent {
    Length,
    Depth,
    NoFractionDigits,
}

impl Intent {
    pub const ALL: [Intent; 3] = [Intent::Length, Intent::Depth, Intent::NoFractionDigits];
}

impl fmt::Display for Intent {
    fn fmt(&self, f: &mut fmt::Formatter) -> fmt::Result {
        f.write_str(match self {
            Intent::Length => "over 4,096 bytes",
            Intent::Depth => "over 32 deep",
            Intent::NoFractionDigits => "of no fraction digits",
        })
    }
}

/// What the Rust makes of a fault: the word after its `?`, or bytes by intent; or it is not asked.
enum RustSide {
    Refusal(&'static str),
    Bytes(Intent),
    LeftOut,
}

fn rust_side(fault: Fault) -> RustSide {
    match fault {
        Fault::Form => RustSide::Refusal("form"),
        Fault::NegativeZero | Fault::NotUtf8 | Fault::Timestamp => RustSide::Refusal("hold"),
        Fault::DecimalBody | Fault::Text => RustSide::Refusal("err"),
        Fault::Length => RustSide::Bytes(Intent::Length),
        Fault::Depth => RustSide::Bytes(Intent::Depth),
        Fault::NoFractionDigits => RustSide::Bytes(Intent::NoFractionDigits),
        Fault::UtcYear => RustSide::LeftOut,
    }
}

/// Our refusals must have the number that the documents give; the Rust's must be of the class of one
/// of the line's faults, since it builds all values of a line before it writes the first.
pub fn verdict(line: &[u8], ours: &[u8], rust: &[u8]) -> Verdict {
    let faults = refusal::faults(line);
    if let Some(first) = faults.first() {
        if ours != format!("!{}", first.number()).as_bytes() {
            return Verdict::Different;
        }
    }
    if faults.iter().any(|fault| matches!(rust_side(*fault), RustSide::LeftOut)) {
        return Verdict::LeftOut;
    }
    if let Some(refused) = rust.strip_prefix(b"?") {
        let class = refused.split(|b| *b == b' ').next().unwrap_or_default();
        let of_class = |fault: &Fault| match rust_side(*fault) {
            RustSide::Refusal(word) => word.as_bytes() == class,
            RustSide::Bytes(_) | RustSide::LeftOut => false,
        };
        return match faults.iter().any(of_class) {
            true => Verdict::Equal,
            false => Verdict::Different,
        };
    }
    if !is_hex(rust) {
        return Verdict::Different;
    }
    let Some(first) = faults.first() else {
        return if ours == rust { Verdict::Equal } else { Verdict::Different };
    };
    let refused_by_rust = |fault: &Fault| matches!(rust_side(*fault), RustSide::Refusal(_));
    match rust_side(*first) {
        RustSide::Bytes(intent) if !faults.iter().any(refused_by_rust) => Verdict::Parted(intent),
        _ => Verdict::Different,
    }
}

/// The answer to a line: the number by the documents, or else the Rust's bytes. `None` if the two do
/// not go together.
pub fn expected(line: &[u8], rust: &[u8]) -> Option<Vec<u8>> {
    let answer = match refusal::number(line) {
        Some(number) => format!("!{number}").into_bytes(),
        None => rust.to_vec(),
    };
    (verdict(line, &answer, rust) != Verdict::Different).then_some(answer)
}

/// One byte or more, in pairs of lower-case hex digits.
pub fn is_hex(answer: &[u8]) -> bool {
    let is_digit = |b: &u8| matches!(b, b'0'..=b'9' | b'a'..=b'f');
    !answer.is_empty() && answer.len().is_multiple_of(2) && answer.iter().all(is_digit)
}

#[cfg(test)]
mod tests {
    use super::*;

    fn judge(line: &str, ours: &str, rust: &str) -> Verdict {
        verdict(line.as_bytes(), ours.as_bytes(), rust.as_bytes())
    }

    #[test]
    fn bytes_must_be_the_same() {
        assert_eq!(judge("(bool 1)", "11", "11"), Verdict::Equal);
        assert_eq!(judge("(bool 1)", "10", "11"), Verdict::Different);
        assert_eq!(judge("(bool 1)", "", ""), Verdict::Different);
        assert_eq!(judge("(bool 1)", "!12", "11"), Verdict::Different);
        assert_eq!(judge("(bool 1)", "!12", "?form"), Verdict::Different);
        assert_eq!(judge("(bool 1)", "11", "?err"), Verdict::Different);
    }

    #[test]
    fn other_bytes_and_answers_that_are_no_hex() {
        for (ours, rust) in [("1111", "11"), ("11", "1111"), ("!12", "!12")] {
            assert_eq!(judge("(bool 1)", ours, rust), Verdict::Different, "{ours} {rust}");
        }
        // the same answer of both
        for answer in ["1", "111", "1g", "1A", "A1", "11 ", "0x11"] {
            assert_eq!(judge("(bool 1)", answer, answer), Verdict::Different, "{answer}");
        }
    }

    #[test]
    fn refusals_must_have_their_number() {
        assert_eq!(judge("(bool 2)", "!12", "?form bool"), Verdict::Equal);
        assert_eq!(judge("(bool 2)", "!11", "?form bool"), Verdict::Different);
        assert_eq!(judge("(bool 2)", "!12", "?err bool"), Verdict::Different);
        assert_eq!(judge("(int -0)", "!5", "?hold zero"), Verdict::Equal);
        assert_eq!(judge("(int -0)", "!6", "?hold zero"), Verdict::Different);
        assert_eq!(judge("(int -0)", "!5", "2100"), Verdict::Different);
        assert_eq!(judge("(symbol \"go\")", "!11", "?err text"), Verdict::Equal);
        assert_eq!(judge("(symbol \"go\")", "!11", "?panic"), Verdict::Different);
    }

    /// Each fault by its number and the class of the Rust's reason, and by no other.
    #[test]
    fn refusals_must_have_their_number_and_their_class() {
        let decimal = format!("(dec {} 0)", "ff".repeat(31));
        for (line, number, class) in [
            ("(bool 2)", 12, "form"),
            ("(int -0)", 5, "hold"),
            ("(string ff)", 6, "hold"),
            ("(ts ? 0)", 7, "hold"),
            ("(ts ? 2000 13 1 0 0 0 0 0)", 7, "hold"),
            (&decimal, 8, "err"),
            ("(symbol \"go\")", 11, "err"),
        ] {
            let refused = format!("!{number}");
            for rust in ["?form", "?hold", "?err", "?panic", "?", "?forms", "?holder", "?error"] {
                let want = if rust[1..] == *class { Verdict::Equal } else { Verdict::Different };
                for rust in [rust, &format!("{rust} why")] {
                    assert_eq!(judge(line, &refused, rust), want, "{line} {rust}");
                }
            }
            for ours in
                ["!4", "!5", "!6", "!7", "!8", "!11", "!12", "!13", "", "!", "11", &format!("{refused}1"), &format!("{refused} ")]
            {
                let want = if ours == refused { Verdict::Equal } else { Verdict::Different };
                assert_eq!(judge(line, ours, &format!("?{class} why")), want, "{line} {ours}");
            }
            assert_eq!(judge(line, &refused, "11"), Verdict::Different, "{line}");
            assert_eq!(judge(line, "11", "11"), Verdict::Different, "{line}");
        }
    }

    #[test]
    fn of_several_faults_the_first_answers() {
        let line = "(list (symbol \"go\") (int -0))";
        assert_eq!(judge(line, "!11", "?hold zero"), Verdict::Equal);
        assert_eq!(judge(line, "!5", "?hold zero"), Verdict::Different);
    }

    #[test]
    fn of_several_faults_the_rust_may_answer_another() {
        let line = "(list (symbol \"go\") (int -0))";
        assert_eq!(judge(line, "!11", "?err text"), Verdict::Equal);
        assert_eq!(judge(line, "!11", "?form"), Verdict::Different);
    }

    #[test]
    fn parted_by_intent() {
        let no_digits = "(ts ? 2000 1 1 0 0 0 0 0)";
        let bytes = "68c00fd08181808080";
        assert_eq!(judge(no_digits, "!7", bytes), Verdict::Parted(Intent::NoFractionDigits));
        assert_eq!(judge(no_digits, bytes, bytes), Verdict::Different);
        assert_eq!(judge("(ts ? 2000 13 1 0 0 0 0 0)", "!7", bytes), Verdict::Different);
        let deep = format!("{}{}", "(list ".repeat(32) + "(list", ")".repeat(33));
        assert_eq!(judge(&deep, "!4", "be"), Verdict::Parted(Intent::Depth));
        let long = format!("(int {})", "0".repeat(4091));
        assert_eq!(judge(&long, "!12", "2100"), Verdict::Parted(Intent::Length));
        assert_eq!(judge(&long, "2100", "2100"), Verdict::Different);
    }

    #[test]
    fn parted_by_intent_where_the_rust_has_bytes() {
        let no_digits = "(ts ? 2000 1 1 0 0 0 0 0)";
        let deep = format!("{}{}", "(list ".repeat(32) + "(list", ")".repeat(33));
        let long = format!("(int {})", "0".repeat(4091));
        for (line, ours) in [(no_digits, "!7"), (&deep, "!4"), (&long, "!12")] {
            for rust in ["?form", "?hold", "?err", "", "1", "1G"] {
                assert_eq!(judge(line, ours, rust), Verdict::Different, "{line} {rust}");
            }
        }
        // of two, the one that answers
        assert_eq!(judge(&format!("(list {no_digits} {deep})"), "!7", "be"), Verdict::Parted(Intent::NoFractionDigits));
        assert_eq!(judge(&format!("(list {deep} {no_digits})"), "!4", "be"), Verdict::Parted(Intent::Depth));
        assert_eq!(judge(&format!("(list {long} {deep})"), "!12", "be"), Verdict::Parted(Intent::Length));
    }

    /// Where the line has another fault, the Rust refuses it.
    #[test]
    fn parted_by_intent_and_refused_by_the_rust() {
        let no_digits = "(ts ? 2000 1 1 0 0 0 0 0)";
        for (other, number, class) in [("(int -0)", 5, "hold"), ("(symbol \"go\")", 11, "err")] {
            let other_first = format!("!{number}");
            for (line, ours) in
                [(format!("(list {no_digits} {other})"), "!7"), (format!("(list {other} {no_digits})"), &*other_first)]
            {
                for (rust, want) in [
                    (format!("?{class}"), Verdict::Equal),
                    ("?form".to_string(), Verdict::Different),
                    ("b0".to_string(), Verdict::Different),
                ] {
                    assert_eq!(judge(&line, ours, &rust), want, "{line} {rust}");
                }
            }
        }
    }

    #[test]
    fn utc_years_outside_the_calendar_are_left_out() {
        let early = "(ts 60 1 1 1 0 0)";
        for rust in ["66bc808c9f9780", "?hold year", "66bc818c9f9780", ""] {
            assert_eq!(judge(early, "!7", rust), Verdict::LeftOut);
            assert_eq!(judge(early, "66bc808c9f9780", rust), Verdict::Different);
            assert_eq!(judge(early, "!12", rust), Verdict::Different);
        }
        // the line's first refusal answers, before such a timestamp or behind it
        let late = "(ts -1 9999 12 31 23 59)";
        assert_eq!(judge(&format!("(list (bool 1) {late} (int -0))"), "!7", "?hold zero"), Verdict::LeftOut);
        assert_eq!(judge(&format!("(list (int -0) {late})"), "!5", "?hold zero"), Verdict::LeftOut);
        assert_eq!(judge(&format!("(list (int -0) {late})"), "!7", "?hold zero"), Verdict::Different);
        assert_eq!(judge(&format!("(ann (\"go\") {late})"), "!11", "?err text"), Verdict::LeftOut);
        // the UTC year 9999 is compared, and so is a local year that the Rust refuses too
        assert_eq!(judge("(ts 0 9999 12 31 23 59)", "67800000", "67800000"), Verdict::Equal);
        assert_eq!(judge("(ts ? 0)", "!7", "?hold year"), Verdict::Equal);
        assert_eq!(judge("(ts ? 10000)", "!7", "62c080"), Verdict::Different);
    }
}
