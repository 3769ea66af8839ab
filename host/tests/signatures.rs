//! Neither linker nor compiler compares what the library exports with what its callers declare: the entry points' source, the C
//! header and the declarations in sys.rs must have the same types in the same order, and header and crate the same constants.
use goatminute::{LONGEST_BUFFER, MOST_OPEN, STATE_SIZE};
use std::collections::BTreeMap;
use std::fs;
use std::path::Path;

/// Parameter types, with those of a slice as pointer and length, and the answer's type.
type Signatures = BTreeMap<String, Vec<String>>;

fn read(path: &str) -> String {
    let path = Path::new(env!("CARGO_MANIFEST_DIR")).join(path);
    fs::read_to_string(&path).unwrap_or_else(|why| panic!("{}: {why}", path.display()))
}

/// The sources of the libraries, whichever of them have entry points.
fn libraries() -> String {
    let crates = Path::new(env!("CARGO_MANIFEST_DIR")).join("../crates");
    let sources = fs::read_dir(crates)
        .unwrap()
        .map(|entry| entry.unwrap().path().join("src/lib.rt"));
    sources
        .filter(|source| source.is_file())
        .map(|source| fs::read_to_string(source).unwrap())
        .collect()
}

/// What stands before the next `to`, and the rest behind it.
fn between<'t>(text: &'t str, to: &str) -> (&'t str, &'t str) {
    text.split_once(to)
        .unwrap_or_else(|| panic!("no {to:?} in {:?}", text.get(..60)))
}

/// Declarations of the form `fn gm_name(parameter: type, ..) -> type`.
fn of_rust(text: &str, before: &str) -> Signatures {
    let mut all = Signatures::new();
    for declaration in text.split(before).skip(1) {
        let (name, rest) = between(declaration, "(");
        let (parameters, rest) = between(rest, ")");
        let answer = between(rest, "-> ").1.split(|c: char| !c.is_alphanumeric()).next().unwrap();
        let mut types = Vec::new();
        for parameter in parameters.split(',').map(str::trim).filter(|parameter| !parameter.is_empty()) {
            match between(parameter, ":").1.trim() {
                "&mut [u8]" => types.extend(["*mut u8".to_string(), "usize".to_string()]),
                "&mut [u64]" => types.extend(["*mut u64".to_string(), "usize".to_string()]),
                "&[u8]" => types.extend(["*const u8".to_string(), "usize".to_string()]),
                other => types.push(other.to_string()),
            }
        }
        types.push(answer.to_string());
        let other = all.insert(format!("gm_{name}"), types);
        assert_eq!(other, None, "gm_{name} twice");
    }
    all
}

fn of_c(text: &str) -> Signatures {
    let rust = |c: &str| {
        match c.trim() {
            "uint8_t *" => "*mut u8",
            "uint64_t *" => "*mut u64",
            "const uint8_t *" => "*const u8",
            "size_t" => "usize",
            "uint8_t" => "u8",
            "uint32_t" => "u32",
            "uint64_t" => "u64",
            "int32_t" => "i32",
            "int64_t" => "i64",
            other => panic!("no type for {other:?}"),
        }
        .to_string()
    };
    let mut all = Signatures::new();
    let declarations = text.lines().collect::<Vec<_>>().join(" ");
    for declaration in declarations
        .split(';')
        .filter(|part| part.contains(" gm_") && part.ends_with(')'))
    {
        let (before, parameters) = declaration.rsplit_once('(').unwrap();
        let (before, name) = before.rsplit_once(' ').unwrap();
        let answer = before.rsplit(' ').next().unwrap();
        let mut types: Vec<String> = Vec::new();
        for parameter in parameters.trim_end_matches(')').split(',') {
            types.push(rust(
                parameter.trim().trim_end_matches(|c: char| c.is_alphanumeric() || c == '_'),
            ));
        }
        types.push(rust(answer));
        all.insert(name.to_string(), types);
    }
    all
}

#[test]
fn entry_points_header_and_declarations_agree() {
    let exported = of_rust(&libraries(), "pub extern \"C\" fn gm_");
    let declared = of_rust(&read("src/sys.rs"), "    fn gm_");
    let header = of_c(&read("include/goatminute.h"));
    assert_eq!(exported.len(), 28);
    assert_eq!(declared, exported);
    assert_eq!(header, exported);
}

/// Of each entry point the text between its name and its body, as it is laid out aside: parameters, answer and clauses.
fn promises(text: &str, before: &str) -> BTreeMap<String, String> {
    let promise = |declaration: &str| {
        let (name, rest) = between(declaration, "(");
        let promise: String = between(rest, "\n{\n").0.split_whitespace().collect();
        // a list over several lines ends in a comma
        (name.to_string(), promise.replace(",)", ")"))
    };
    text.split(before).skip(1).map(promise).collect()
}

/// A weaker clause of an export would be proved all the same.
#[test]
fn exports_promise_what_the_entry_points_do() {
    let sources = libraries();
    let exports = promises(&sources, "pub extern \"C\" fn gm_");
    assert_eq!(exports.len(), 28);
    assert!(exports.values().all(|promise| promise.contains("ensures{")));
    assert_eq!(exports, promises(&sources, "pub fn gm_"));
}

#[test]
fn header_has_the_constants() {
    let header = read("include/goatminute.h");
    for (name, value) in [
        ("STATE_SIZE", STATE_SIZE),
        ("LONGEST_BUFFER", LONGEST_BUFFER),
        ("MOST_OPEN", MOST_OPEN),
    ] {
        let definition = format!("#define GM_{name} {value}");
        assert!(
            header.lines().any(|line| line == definition),
            "no {definition:?} in the header"
        );
    }
}

/// The kinds of no item and of a version marker, each with its comment behind it.
#[test]
fn header_has_the_kinds() {
    let header = read("include/goatminute.h");
    for (name, value) in [("NOTHING", "0xFF"), ("MARKER", "0xE0")] {
        let definition = ["#define", &format!("GM_{name}"), value];
        assert!(
            header.lines().any(|line| line.split(' ').take(3).eq(definition)),
            "no {definition:?} in the header"
        );
    }
}
