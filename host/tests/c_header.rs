//! A C program that includes goatminute.h and links the library, built with `cc`, which cargo links with too, and run.
use std::path::Path;
use std::process::Command;

#[test]
fn c_program_drives_the_entry_points() {
    let host = Path::new(env!("CARGO_MANIFEST_DIR"));
    let compiler = std::env::var("CC").unwrap_or_else(|_| "cc".into());
    let program = Path::new(env!("CARGO_TARGET_TMPDIR")).join("c_calls");
    let built = Command::new(&compiler)
        .args(["-std=c11", "-Wall", "-Wextra", "-Wpedantic", "-Werror", "-I"])
        .arg(host.join("include"))
        .arg(host.join("tests/c/calls.c"))
        .arg(env!("GOATMINUTE_ARCHIVE"))
        .arg("-o")
        .arg(&program)
        .status()
        .expect("the C compiler runs");
    assert!(built.success(), "the C program does not build");
    let output = Command::new(&program).output().expect("the C program runs");
    assert!(output.status.success(), "{}", String::from_utf8_lossy(&output.stdout));
}
