//! The list of small values: made in two ways, its members by hand, its numbers, and the judge of what a program prints.

use std::io::Write;
use std::process::{Command, Output, Stdio};
use std::sync::LazyLock;

use compare::reading::vectors::bytes;
use compare::small_values::{asked, built, judge, line};

static LIST: LazyLock<Vec<Vec<u8>>> = LazyLock::new(asked);

fn printed(list: &[Vec<u8>]) -> String {
    list.iter().map(|value| line(value)).collect()
}

fn first_that_differs<'a>(one: &'a [Vec<u8>], other: &'a [Vec<u8>]) -> Option<(&'a Vec<u8>, &'a Vec<u8>)> {
    one.iter().zip(other).find(|(one, other)| one != other)
}

#[test]
fn asked_and_built_are_the_same() {
    let built = built();
    assert_eq!(first_that_differs(&LIST, &built), None);
    assert_eq!(LIST.len(), built.len());
}

#[test]
fn listed() {
    for hex in [
        // one byte: nulls, bools, and what has no body
        "0f 1f 2f 3f 4f 5f 6f 7f 8f 9f af bf cf df 10 11 20 40 50 70 80 90 a0 b0 c0 d0",
        // overlong lengths
        "2e80 2e0080 5e80 7e0080 8e80 9e80 ae0080 be80 be0080 ce80 de80 de0080 2e8100 7e81ff 8e8141 be810f ce81d0",
        // ints; magnitudes may begin with zeros
        "2100 21ff 220000 3101 31ff 320001 3201ff 3e8101",
        // decimals: an exponent, of one byte or of two, and any coefficient
        "5180 51c0 51ff 528000 528080 52c0ff 520080 527fff 5e8180",
        // timestamps of the years 1 to 127, with an offset or with none
        "628081 6280ff 62c081 62ffff",
        "7100 72ffff 8100 817f 82c280 82dfbf 824141 91ff 92ffff a1ff a2ffff",
        "b10f b2100f b2b10f b2b0b0 b22e80 b22100 c1d0 c2c1c0 d2800f d2ff20 d284b0",
    ] {
        for hex in hex.split(' ') {
            assert!(LIST.contains(&bytes(hex)), "{hex}");
        }
    }
}

#[test]
fn not_listed() {
    for hex in [
        // pads, at top level and inside
        "00 01ff 0e80 0e0080 0e8100 000f 0f00 0f0000 b100 b20f00 b2000f b2b100 b20e80 b201ff c100 be8100 d28000 d28a00",
        // no value, or more than one
        "1010 101010 0f0f 20b0 b00f b010",
        // no header, or one that the type never has
        "12 1e 1e80 41 4100 4e80 4e0080 30 3e80 3e0080 60 6e80 6e0080 6e8180 d1 d10f d180 d1800f d18100 de81 de810f f0 ff ef",
        // cut short
        "21 2e 2e00 2e81 22 2200 b1 b2 b210 b121 d2 d280 8e82 8e8200",
        // negative zero, an unended field, no UTF-8, the year 0
        "3100 320000 3e8100 5100 517f 520000 527f7f d20f10 628000 620081 628180 628080 62c080 8180 81c3 82c0 82c080 82c341 828080 8e81ff",
        // version markers, wrappers
        "e0 e001 e00100 e1 e281 e3818a e3 ee80 b1e0 b2e001",
    ] {
        for hex in hex.split(' ') {
            assert!(!LIST.contains(&bytes(hex)), "{hex}");
        }
    }
    assert!(!LIST.contains(&Vec::new()));
    assert!(!LIST.iter().any(|value| value[0] == 0x61 || value[0] == 0xd1 || value[0] >= 0xe0));
}

/// By hand, from the counts of bodies.
#[test]
fn counts() {
    let any = 256 * 256;
    // 14 nulls, false and true, and ten of no body
    let one = 14 + 2 + 10;
    // a body of one byte: int, negative int, decimal, symbol, string, clob, blob, list and s-expression
    let of_one = 256 + 255 + 128 + 256 + 128 + 256 + 256 + one + one;
    // no body, the length as a VarUInt: all of one byte but null, bool and float
    let of_none = 9;
    let two = of_one + of_none;
    let decimals = 128 * 256 + 128 * 128;
    let strings = 128 * 128 + 30 * 64;
    let members = two + one * one;
    let of_two = any + (any - 1) + decimals + 128 * 127 + any + strings + any + any + members + members + 128 * one;
    let three = of_two + of_one + of_none;
    let count = |length: usize| LIST.iter().filter(|value| value.len() == length).count();
    assert_eq!([count(0), count(1), count(2), count(3)], [0, one, two, three]);
    assert_eq!([one, two, three], [26, 1596, 420_859]);
    assert_eq!(LIST.len(), 422_481);
}

/// The file that the program in crates/ is held to at every check.
#[test]
fn the_file_of_two_bytes_at_most() {
    let short: Vec<Vec<u8>> = LIST.iter().filter(|value| value.len() <= 2).cloned().collect();
    assert!(include_str!("../../crates/every_small_value/stdout") == printed(&short));
}

fn grouped(number: usize) -> String {
    match number {
        0..1000 => number.to_string(),
        _ => format!("{},{:03}", grouped(number / 1000), number % 1000),
    }
}

/// How many of one to three bytes: a row of the page, where none is an empty cell.
fn row(name: &str, is_of: impl Fn(&[u8]) -> bool) -> String {
    let count = |length: usize| LIST.iter().filter(|value| value.len() == length && is_of(value)).count();
    let cell = |length: usize| match count(length) {
        0 => " |".to_string(),
        count => format!(" {} |", grouped(count)),
    };
    format!("| {name} |{}{}{}", cell(1), cell(2), cell(3))
}

#[test]
fn the_page() {
    let page = include_str!("../../docs/SMALL-VALUES.md");
    let has = |line: &str| page.lines().any(|other| other == line);
    let (int, negative) = ("int, positive or zero", "int, negative");
    let names = [
        "null (`0f`)", "bool", int, negative, "float", "decimal", "timestamp", "symbol", "string", "clob", "blob", "list",
        "s-expression", "struct",
    ];
    for (code, name) in names.into_iter().enumerate() {
        let row = row(name, |value| usize::from(value[0] >> 4) == code);
        assert!(has(&row), "{row}");
    }
    assert!(has(&row("all", |_| true)));
    let known_offset = |value: &[u8]| value.len() == 3 && value[0] == 0x62 && value[1] != 0xc0;
    let offsets = LIST.iter().filter(|value| known_offset(value)).count();
    let others = (1 << 24) + (1 << 16) + (1 << 8) + 1 - LIST.len();
    for number in [LIST.len(), printed(&LIST).len(), offsets, others] {
        assert!(page.contains(&grouped(number)), "{number}");
    }
}

#[test]
fn shorter_first_then_by_bytes_and_none_twice() {
    let ordered = |pair: &[Vec<u8>]| (pair[0].len(), &pair[0]) < (pair[1].len(), &pair[1]);
    assert!(LIST.windows(2).all(ordered));
}

#[test]
fn lines() {
    assert_eq!(line(&[0x0f]), "0f\n");
    assert_eq!(line(&[0x2e, 0x00, 0xab]), "2e00ab\n");
}

#[track_caller]
fn judged(ours: &str, differences: usize, first: Option<&str>) {
    let list = [vec![0x0f], vec![0x10], vec![0x2e, 0x80]];
    let judged = judge(&list, ours.as_bytes());
    assert_eq!((judged.values, judged.differences, judged.first.as_deref()), (3, differences, first));
}

#[test]
fn the_same_lines() {
    judged("0f\n10\n2e80\n", 0, None);
}

#[test]
fn other_lines() {
    let last = Some(r"line 3: ours none, the model '2e80\n'");
    judged("0f\n10\n", 1, last);
    judged("", 3, Some(r"line 1: ours none, the model '0f\n'"));
    judged("10\n2e80\n", 3, Some(r"line 1: ours '10\n', the model '0f\n'"));
    judged("0f\n2e80\n", 2, Some(r"line 2: ours '2e80\n', the model '10\n'"));
    judged("0f\n10\n2e80\n2e81\n", 1, Some(r"line 4: ours '2e81\n', the model none"));
    judged("0f\n10\n2e80\n\n", 1, Some(r"line 4: ours '\n', the model none"));
    judged("0f\n10\n2e80\n0", 1, Some(r"line 4: ours '0', the model none"));
    judged("0f\n0f\n10\n2e80\n", 3, Some(r"line 2: ours '0f\n', the model '10\n'"));
    judged("10\n0f\n2e80\n", 2, Some(r"line 1: ours '10\n', the model '0f\n'"));
    judged("0f\n10\n2E80\n", 1, Some(r"line 3: ours '2E80\n', the model '2e80\n'"));
    judged("0f\n10\n2e80", 1, Some(r"line 3: ours '2e80', the model '2e80\n'"));
    judged("0f\r\n10\n2e80\n", 1, Some(r"line 1: ours '0f\r\n', the model '0f\n'"));
    judged("0f\n10 \n2e80\n", 1, Some(r"line 2: ours '10 \n', the model '10\n'"));
}

fn run(words: &[&str], input: &[u8]) -> Output {
    let mut command = Command::new(env!("CARGO_BIN_EXE_small-values"));
    let child = command.args(words).stdin(Stdio::piped()).stdout(Stdio::piped()).stderr(Stdio::piped()).spawn();
    let mut child = child.expect("a run");
    child.stdin.take().expect("its input").write_all(input).expect("it reads all");
    child.wait_with_output().expect("its end")
}

#[test]
fn the_program_prints_the_list() {
    let output = run(&[], b"");
    assert!(output.status.success());
    assert!(output.stdout == printed(&LIST).as_bytes());
    assert_eq!(output.stdout.iter().filter(|byte| **byte == b'\n').count(), 422_481);
}

#[test]
fn the_program_judges() {
    let whole = printed(&LIST);
    let short = whole.strip_suffix("de0080\n").expect("the last line");
    for (ours, status, said) in [
        (&whole[..], 0, "422481 small values, 0 differences\n"),
        (short, 1, "line 422481: ours none, the model 'de0080\\n'\n422481 small values, 1 differences\n"),
    ] {
        let output = run(&["judge"], ours.as_bytes());
        assert_eq!(String::from_utf8_lossy(&output.stdout), said);
        assert_eq!(output.status.code(), Some(status));
    }
    assert_eq!(run(&["judges"], b"").status.code(), Some(2));
}
