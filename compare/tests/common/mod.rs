//! The comparison's programs, run over files.

use std::path::{Path, PathBuf};
use std::process::Command;

fn folder(name: &str) -> PathBuf {
    let folder = Path::new(env!("CARGO_TARGET_TMPDIR")).join(name);
    std::fs::create_dir_all(&folder).expect("a folder");
    folder
}

/// Runs a program over files of these contents, named by their number. Answers whether it was content, and what it printed.
pub fn run(program: &str, name: &str, contents: &[&str]) -> (bool, String) {
    let folder = folder(name);
    let files: Vec<PathBuf> = (0..contents.len()).map(|at| folder.join(at.to_string())).collect();
    for (file, content) in files.iter().zip(contents) {
        std::fs::write(file, content).expect("a file");
    }
    let output = Command::new(program).args(&files).output().expect("a run");
    (output.status.success(), String::from_utf8(output.stdout).expect("text"))
}

/// Of so many files one is not there, and the others are empty: the program must say so, whichever it is.
pub fn says_which_file_is_missing(program: &str, name: &str, count: usize) {
    let folder = folder(name);
    std::fs::write(folder.join("empty"), "").expect("a file");
    for at in 0..count {
        let mut files = vec!["empty"; count];
        files[at] = "missing";
        let output = Command::new(program).args(files).current_dir(&folder).output().expect("a run");
        assert!(!output.status.success(), "file {at}");
        assert!(String::from_utf8_lossy(&output.stderr).contains(": missing: "), "file {at}");
    }
}
