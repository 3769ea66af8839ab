//! README.md and the picture of a record: a new project works by README.md alone, and both show the record that the Ion document gives.
use std::fs;
use std::path::Path;
use std::process::Command;

fn page(name: &str) -> String {
    let path = Path::new(env!("CARGO_MANIFEST_DIR")).join("..").join(name);
    fs::read_to_string(&path).unwrap_or_else(|why| panic!("{}: {why}", path.display()))
}

/// The indented lines behind a line of a page, without their indentation.
fn code_behind(page: &str, line: &str) -> String {
    let (_, rest) = page
        .split_once(&format!("{line}\n\n"))
        .unwrap_or_else(|| panic!("no line {line:?}"));
    rest.lines()
        .take_while(|code| code.is_empty() || code.starts_with("    "))
        .map(|code| code.strip_prefix("    ").unwrap_or_default().to_string() + "\n")
        .collect()
}

/// A decimal of 812.5 and a bool, annotated by sid 20, behind a version marker.
const FILE: &[u8] = b"\xE0\x01\x00\xEA\xEA\x81\x94\xD7\x8A\x53\xC1\x1F\xBD\x8B\x11";

#[test]
fn new_project_works_by_the_readme() {
    let readme = page("README.md");
    let project = Path::new(env!("CARGO_TARGET_TMPDIR")).join("new-project");
    let _ = fs::remove_dir_all(&project);
    fs::create_dir_all(project.join("src")).unwrap();
    let dependencies = code_behind(&readme, "with the path to this repository:");
    let (named, path) = ("\"../goatminute/host\"", format!("{:?}", env!("CARGO_MANIFEST_DIR")));
    assert!(dependencies.contains(named), "{dependencies}");
    let manifest = "[package]\nname = \"new-project\"\nversion = \"0.1.0\"\nedition = \"2021\"\n\n[workspace]\n\n";
    fs::write(
        project.join("Cargo.toml"),
        manifest.to_string() + &dependencies.replace(named, &path),
    )
    .unwrap();
    fs::write(project.join("src/main.rs"), code_behind(&readme, "A program, whole:")).unwrap();
    let ran = Command::new(env!("CARGO"))
        .args(["run", "--quiet", "--offline"])
        .current_dir(&project)
        .output()
        .unwrap();
    assert!(ran.status.success(), "{}", String::from_utf8_lossy(&ran.stderr));
    assert_eq!(
        String::from_utf8_lossy(&ran.stdout),
        "Closed { size: 11, members: 2, moved: 9 }\n"
    );
    assert_eq!(fs::read(project.join("loads.10n")).unwrap(), FILE);
}

#[test]
fn picture_has_the_bytes_of_the_readme() {
    let readme = page("README.md");
    let (_, record) = readme.split_once("first record: ").unwrap();
    let shown: Vec<&str> = record.lines().next().unwrap().split(' ').collect();
    assert_eq!((shown.len(), shown[0]), (37, "ee"));
    let picture = page("docs/winch-record.svg");
    let drawn: Vec<&str> = picture
        .split("<text class=\"byte\"")
        .skip(1)
        .map(|text| text.split(['>', '<']).nth(1).unwrap())
        .collect();
    assert_eq!(drawn, shown);
}
