//! Containers and annotations: lengths, counts, depth.

use super::texts::lob;
use crate::refusal::LINE_LIMIT;

/// Members that take exactly `length` bytes: a blob, then bools.
fn members_of(length: usize) -> Vec<String> {
    let mut members = Vec::new();
    let mut left = length;
    if let Some(count) = (0..length).rev().find(|count| blob_length(*count) <= length) {
        members.push(lob("blob", count));
        left -= blob_length(count);
    }
    members.extend(vec!["(bool 1)".to_string(); left]);
    members
}

fn blob_length(count: usize) -> usize {
    match count {
        0..=13 => 1 + count,
        14..=127 => 2 + count,
        _ => 3 + count,
    }
}

pub fn sequence(kind: &str, members: &[String]) -> String {
    let members: String = members.iter().map(|member| format!(" {member}")).collect();
    format!("({kind}{members})")
}

/// A list, sexp or struct with a body of exactly `length` bytes; `None` for a struct of one.
fn container_of(kind: &str, length: usize) -> Option<String> {
    if kind != "struct" {
        return Some(sequence(kind, &members_of(length)));
    }
    if length == 0 {
        return Some("(struct)".to_string());
    }
    // The name takes what the blob leaves.
    let count = (0..length).rev().find(|count| blob_length(*count) < length)?;
    let name = match length - blob_length(count) {
        1 => 4,
        2 => 128,
        _ => 16384,
    };
    Some(format!("(struct ({name} {}))", lob("blob", count)))
}

pub fn container_bodies() -> Vec<String> {
    let mut lines = Vec::new();
    for kind in ["list", "sexp", "struct"] {
        for length in (0..=300).chain([1000, 1500]).chain(2000..=2048) {
            let Some(container) = container_of(kind, length) else {
                continue;
            };
            lines.push(format!("(ann (10) {container})"));
            if length <= 20 || (110..=140).contains(&length) || length >= 2000 {
                lines.push(format!("(ann (10 128 16384) {container})"));
                lines.push(format!("(ann () {container})"));
                lines.push(format!("(list {container})"));
                lines.push(format!("(list {container} (i64 5))"));
                lines.push(format!("(struct (4 (ann (10) {container})) (5 (bool 1)))"));
                lines.push(format!("(ann (11) (sexp (ann (10) {container})))"));
            }
            lines.push(container);
        }
    }
    lines
}

pub fn member_counts() -> Vec<String> {
    let mut lines = Vec::new();
    for count in 0..=460 {
        lines.push(sequence("list", &vec!["(bool 1)".to_string(); count]));
        lines.push(sequence("sexp", &vec!["(i64 0)".to_string(); count]));
        if count <= 330 {
            let fields: Vec<String> = (0..count).map(|i| format!("({i} (list))")).collect();
            lines.push(sequence("struct", &fields));
        }
    }
    lines
}

pub fn annotation_counts() -> Vec<String> {
    let mut lines = Vec::new();
    for sid in ["0", "10", "127", "128", "16383", "16384", "18446744073709551615"] {
        for count in 0..=200 {
            let sids = vec![sid; count].join(" ");
            lines.push(format!("(ann ({sids}) (bool 1))"));
            lines.push(format!("(ann ({sids}) (list (i64 5)))"));
            if count <= 16 || (60..=66).contains(&count) || (120..=130).contains(&count) {
                lines.push(format!("(ann ({sids}) (null list))"));
                lines.push(format!("(ann ({sids}) (blob 000102030405060708090a0b0c0d0e0f))"));
                lines.push(format!("(ann ({sids}) (struct (4 (ann ({sids}) (sexp)))))"));
            }
        }
    }
    for count in [500, 1000, 1500, 2000, 2030, 2035, 2039, 2040, 2041, 2042] {
        let sids = vec!["1"; count].join(" ");
        lines.push(format!("(ann ({sids}) (bool 1))"));
        lines.push(format!("(ann ({sids}) (list))"));
    }
    for bad in [
        "(ann (10)  (bool 1))", "(ann (10)(bool 1))", "(ann(10) (bool 1))", "(ann ( 10) (bool 1))", "(ann (10 ) (bool 1))",
        "(ann (10  11) (bool 1))", "(ann 10 (bool 1))", "(ann (bool 1))", "(ann (10))", "(ann (10) )", "(ann)", "(ann )",
        "(ann () )", "(ann ())", "(ann () (ann () (bool 1)))", "(ann (10) (ann () (bool 1)))", "(ann () (ann (10) (bool 1)))",
        "(ann (10) (bool 1) (bool 1))", "(ann (10) 10)", "(ann ((10)) (bool 1))", "(ann (10) (list (ann (11) (bool 1))))",
        "(ann (10) (list (ann (11) (ann (12) (bool 1)))))",
    ] {
        lines.push(bad.to_string());
    }
    lines
}

/// `depth` containers in each other around a value, or around nothing.
pub fn nested(kind: &str, depth: usize, inner: &str) -> String {
    let (opening, closing) = match kind {
        "struct" => ("(struct (4 ", "))"),
        "sexp" => ("(sexp ", ")"),
        "annotated list" => ("(ann (10) (list ", "))"),
        "annotated struct" => ("(ann (10 11) (struct (4 ", ")))"),
        _ => ("(list ", ")"),
    };
    format!("{}{inner}{}", opening.repeat(depth), closing.repeat(depth))
}

pub fn nesting() -> Vec<String> {
    let mut lines = Vec::new();
    for kind in ["list", "sexp", "struct", "annotated list", "annotated struct"] {
        for depth in 1.. {
            let line = nested(kind, depth, "(bool 1)");
            if line.len() > LINE_LIMIT + 40 {
                break;
            }
            if depth <= 40 {
                for inner in [
                    "(list)", "(sexp)", "(struct)", "(null list)", "(symbol 4)", "(symbol \"go\")", "(ann (10) (list))",
                    "(ann () (list))", "(ann (\"go\") (list))", "(ann (\"go\") (bool 1))", "(struct (\"go\" (bool 1)))",
                    "(list) (list)", "(int -0)", "(list (int -0))", "(list )", "(i64 5) (sexp (i64 6)) (bool 0)",
                ] {
                    lines.push(nested(kind, depth, inner));
                }
            }
            if depth <= 40 || depth % 10 == 0 || line.len() > LINE_LIMIT - 60 {
                lines.push(line);
            }
        }
    }
    // 32 open, closed and opened again; siblings do not count.
    for depth in 30..=34 {
        let deep = nested("list", depth - 1, "(bool 1)");
        lines.push(format!("(list {deep} {deep})"));
        lines.push(format!("(list {deep} (symbol \"go\"))"));
        lines.push(format!("(list (symbol \"go\") {deep})"));
        lines.push(format!("(struct (4 {deep}) (\"go\" {deep}))"));
    }
    lines.push(sequence("list", &vec!["(list)".to_string(); 100]));
    lines
}
