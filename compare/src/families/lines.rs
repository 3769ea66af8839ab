//! Whole lines: those of the documents, several faults, lengths, forms and damages.

use super::containers::{nested, sequence};
use super::Line;
use crate::damage;

/// The lines of document 01 and of docs/DIFFERENCES.md, and those at which the Rust and document 01 invite doubt.
pub fn documents() -> Vec<String> {
    let lines = "\
(list (i64 0) (int 0))
(ann (10) (struct (4 (bool 1))))
(symbol \"go\")
(null list)
(bool 1)
(bool 0)
(i64 -5)
(int -ff)
(dec -96 -2)
(ts ? 2000)
(symbol 4)
(string 6f)
(clob)
(blob 00ff)
(list)
(sexp)
(struct)
(struct (4 (bool 1)))
(ann (10 12) (bool 1))
(i64 0)
(i64 -0)
(i64 -1)
(i64 -9223372036854775808)
(i64 9223372036854775807)
(i64 9223372036854775808)
(i64 -9223372036854775809)
(i64 007)
(bool 01)
(int 0)
(int 000)
(int -0)
(int FF)
(symbol 0)
(symbol 256)
(symbol 18446744073709551615)
(symbol 18446744073709551616)
(f64 0000000000000000)
(f32 00000000)
(f64 8000000000000000)
(f32 80000000)
(f64 3ff8000000000000)
(f64 3fb999999999999a)
(f64 36a0000000000000)
(f64 3690000000000000)
(f64 47efffffe0000000)
(f64 47efffffe0000001)
(f64 47f0000000000000)
(f64 7ff0000000000000)
(f64 fff0000000000000)
(f64 7ff8000000000000)
(f64 7ff0000000000001)
(f64 7ff8000020000000)
(f64 fff8000000000001)
(f32 7fc00000)
(f32 7f800001)
(f32 ffc00000)
(dec 0 0)
(dec -0 0)
(dec 0 5)
(dec -0 5)
(dec 96 -2)
(dec -80 0)
(dec 0 63)
(dec 0 64)
(dec 0 -64)
(dec 1 9223372036854775807)
(dec 1 -9223372036854775808)
(dec 7fffffffffffffffffffffffffffffffffffffffffffffffffffffffffffff 0)
(dec ffffffffffffffffffffffffffffffffffffffffffffffffffffffffffffff 0)
(dec 800000000000000000000000000000000000000000000000000000000000 0)
(dec 7fffffffffffffffffffffffffffffffffffffffffffffffffffffffffffffff 0)
(ts 60 2000 1 1 0 30)
(ts ? 2000 1 1 0 0)
(ts -0 2000 1 1 0 0)
(ts ? 2000 1 1 0 0 0 0 0)
(ts 60 2000 1 1 0 30 0 0 0)
(ts ? 2000 1 1 0 0 0 0 1)
(ts ? 2000 1 1 0 0 0)
(ts ? 2000 1 1 0 0 0 18 0)
(ts ? 2000 1 1 0 0 0 18 999999999999999999)
(ts ? 2000 1 1 0 0 0 19 0)
(ts ? 2000 1 1 0 0 0 1 10)
(ts ? 2000 1 1 0 0 0 18 18446744073709551615)
(ts ? 2000 1 1 0 0 0 18 18446744073709551616)
(ts 0 2000)
(ts 60 2000 1 1)
(ts 60 1 1 1 0 0)
(ts 60 1 1 1 0 30)
(ts 1439 1 1 1 0 0 0)
(ts -60 9999 12 31 23 30)
(ts -1 9999 12 31 23 59)
(ts -1439 9999 12 31 23 59 59 18 999999999999999999)
(ts ? 0)
(ts ? 10000)
(ts ? 65537)
(ts ? 70000)
(ts ? 2147483647)
(ts ? 2147483648)
(ts ? 2000 257)
(ts 65536 2000 1 1 0 0)
(ts 1440 2000 1 1 0 0)
(ts ? 2000 2 29)
(ts ? 1900 2 29)
(ts ? 2000 1 1 0)
(ts ? 2000 1 1 0 0 0 1)
(string ff)
(ann (10) (list))
(ann () (list))
(ann () (bool 1))
(ann (10) (ann (11) (bool 1)))
(list (blob 000000000000000000000000))
(list (blob 00000000000000000000000000))
(struct (127 (bool 1)))
(struct (128 (bool 1)))
(struct (16383 (bool 1)))
(struct (16384 (bool 1)))
(list )
(clob )
(bool 1) 
";
    let mut lines: Vec<String> = lines.lines().map(str::to_string).collect();
    lines.push(String::new());
    for zeros in [125, 126] {
        lines.push(format!("(list (blob {}))", "00".repeat(zeros)));
    }
    for depth in [32, 33] {
        lines.push(nested("list", depth, "(bool 1)"));
    }
    lines.push(sequence("list", &vec!["(i64 5)".to_string(); 600]));
    // Its bytes would pass the trial buffer too.
    lines.push(sequence("list", &vec![format!("(blob {})", "00".repeat(1000)); 17]));
    lines
}

pub fn order_of_refusals() -> Vec<String> {
    let deep = nested("list", 32, "(bool 1)");
    let deep_text = nested("list", 31, "(ann (\"go\") (list))");
    let faulty = [
        "(bool 1)",
        "(symbol \"go\")",
        "(ann (\"go\") (bool 1))",
        "(ann (10 \"go\") (list (int -0)))",
        "(struct (\"go\" (int -0)))",
        "(struct (4 (int -0)) (\"go\" (bool 1)))",
        "(int -0)",
        "(ann (\"go\") (int -0))",
        "(string ff)",
        "(ann (\"go\") (string ff))",
        "(ts ? 2000 13)",
        "(ann (\"go\") (ts ? 2000 13))",
        "(ts ? 2000 1 1 0 0 0 0 0)",
        "(ts 60 1 1 1 0 30)",
        "(ann (\"go\") (ts -60 9999 12 31 23 30))",
        "(dec ffffffffffffffffffffffffffffffffffffffffffffffffffffffffffffff 0)",
        "(ann (\"go\") (dec ffffffffffffffffffffffffffffffffffffffffffffffffffffffffffffff 0))",
        "(bool 2)",
        deep.as_str(),
        deep_text.as_str(),
    ];
    let mut lines = Vec::new();
    for first in faulty {
        lines.push(first.to_string());
        for second in faulty {
            lines.push(format!("(list {first} {second})"));
            lines.push(format!("(struct (4 {first}) (5 {second}))"));
            lines.push(format!("(sexp (list {first}) (list {second}))"));
            lines.push(format!("(struct (4 {first}) (\"go\" {second}))"));
        }
    }
    lines
}

/// Lines of 4,090 to 4,100 bytes of every form that can be as long.
pub fn line_lengths() -> Vec<String> {
    let mut lines = Vec::new();
    let filled = |start: &str, fill: &str, end: &str, length: usize| {
        let left = length - start.len() - end.len();
        left.is_multiple_of(fill.len()).then(|| format!("{start}{}{end}", fill.repeat(left / fill.len())))
    };
    // 4,096 and 4,103 bytes.
    lines.push(nested("list", 584, "(bool 1)"));
    lines.push(nested("list", 585, "(bool 1)"));
    for length in (4090..=4100).chain([8191, 8192]) {
        for (start, fill, end) in [
            ("(int ", "1", ")"),
            ("(int -", "0", ")"),
            ("(int ", "0", ")"),
            ("(i64 ", "0", ")"),
            ("(i64 -", "0", "7)"),
            ("(i64 ", "9", ")"),
            ("(dec ", "0", "1 5)"),
            ("(dec 1 ", "0", "5)"),
            ("(dec ", "1", " 5)"),
            ("(symbol ", "0", "4)"),
            ("(symbol \"", "a", "\")"),
            ("(struct (", "0", "4 (bool 1)))"),
            ("(struct (\"", "a", "\" (bool 1)))"),
            ("(ann (", "0", "4) (bool 1))"),
            ("(ann (\"", "a", "\") (bool 1))"),
            ("(ts ? ", "0", "2000)"),
            ("(ts ", "0", " 2000 1 1 0 0)"),
            ("(ts ? 2000 1 1 0 0 0 ", "0", "1 5)"),
            ("(ts ? 2000 1 1 0 0 0 1 ", "0", "5)"),
            ("(string ", "61", ")"),
            ("(clob ", "ff", ")"),
            ("(blob ", "00", ")"),
            ("(string ", "ff", ")"),
            ("(list", " (list)", ")"),
            ("(list", " (bool 1)", ")"),
            ("(list (bool 1)", " (list)", ")"),
            ("(list (i64 55)", " (list)", ")"),
            ("(sexp", " (i64 5)", ")"),
            ("(struct", " (4 (list))", ")"),
            ("(ann (", "1 ", "1) (list))"),
            ("(ann (", "1 ", "11) (list))"),
            ("", "(", ""),
            ("", " ", ""),
            ("", "a", ""),
            ("(bool 1)", ")", ""),
        ] {
            lines.extend(filled(start, fill, end, length));
        }
    }
    lines
}

/// One line of each form, and what is near a form.
fn undamaged() -> Vec<&'static str> {
    vec![
        "(null list)", "(null null)", "(bool 1)", "(i64 -5)", "(i64 9223372036854775807)", "(int -ff)", "(int 0a)",
        "(f32 3fc00000)", "(f64 3ff8000000000000)", "(dec -96 -2)", "(dec 0 9223372036854775807)", "(ts ? 2000)",
        "(ts ? 2000 12)", "(ts ? 2004 2 29)", "(ts -60 2000 1 1 0 30)", "(ts 0 2000 1 1 0 0 59)",
        "(ts 1439 9999 12 31 23 59 59 3 999)", "(symbol 4)", "(symbol 18446744073709551615)", "(symbol \"go\")",
        "(string 6fc3a9)", "(clob)", "(blob 00ff)", "(list)", "(list (bool 1) (i64 0))", "(sexp (list))",
        "(struct (4 (bool 1)))", "(struct (\"go\" (i64 5)) (5 (sexp)))", "(ann (10 12) (bool 1))", "(ann () (list (int 1)))",
        "(ann (\"go\" 4) (struct (128 (ann (5) (symbol 6)))))",
    ]
}

pub fn forms() -> Vec<String> {
    let mut lines: Vec<String> = undamaged().into_iter().map(str::to_string).collect();
    for line in [
        "(", ")", "()", "(())", " ", "  ", "\"go\"", "go", "5", "?", "-", "null", "(bool 1)(bool 1)", "(bool 1) (bool 1)",
        " (bool 1)", "(bool 1) ", "( bool 1)", "(bool  1)", "(bool 1 )", "(Bool 1)", "(BOOL 1)", "(bool1)", "(bool\t1)",
        "(bool 1)\r", "\r", "(i32 1)", "(i64)", "(int)", "(f16 0000)", "(f32)", "(f64)", "(dec)", "(dec 1)", "(ts)", "(ts ?)",
        "(ts 2000)", "(symbol)", "(list())", "(list ())", "(list(bool 1))", "(list 5)", "(list  (bool 1))", "(list (bool 1) )",
        "(list (bool 1)  (bool 1))", "(list (bool 1)(bool 1))", "(list \"go\")", "(struct ())", "(struct 4)", "(struct (4))",
        "(struct (4 ))", "(struct (4 5))", "(struct (bool 1))", "(struct 4 (bool 1))", "(struct (4 (bool 1) (bool 1)))",
        "(struct (4  (bool 1)))", "(struct (4(bool 1)))", "(struct (4 (bool 1)) )", "(struct(4 (bool 1)))", "(struct )",
        "(sexp )", "(sexp (4 (bool 1)))", "(tuple)", "(float 1)", "(decimal 1 1)", "(timestamp ? 2000)", "[list]", "(list]",
        "; comment", "(bool 1);", "(bool 1) ; comment", "{}", "null.list", "$10::true", "marker", "value (bool 1)",
    ] {
        lines.push(line.to_string());
    }
    lines
}

pub fn damaged() -> Vec<Line> {
    undamaged().into_iter().flat_map(|line| damage::each(line.as_bytes())).collect()
}
