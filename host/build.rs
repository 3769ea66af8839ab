// Links libgoatminute.a, which scripts/library makes from the proved crates.
use std::env;
use std::path::{Path, PathBuf};
use std::process::exit;

/// The directory that GOATMINUTE_LIB_DIR names, or the one that scripts/library makes.
fn directory() -> PathBuf {
    println!("cargo:rerun-if-env-changed=GOATMINUTE_LIB_DIR");
    let named = env::var_os("GOATMINUTE_LIB_DIR").unwrap_or_default();
    if named.is_empty() {
        return Path::new(env!("CARGO_MANIFEST_DIR")).join("../target/staticlib");
    }
    let named = PathBuf::from(named);
    if named.is_absolute() {
        return named;
    }
    // cargo runs this in the crate's own directory; where the caller stands is known from the shell alone
    println!("cargo:rerun-if-env-changed=PWD");
    match env::var_os("PWD").map(PathBuf::from) {
        Some(from) if from.is_absolute() => from.join(named),
        _ => fail(&format!(
            "GOATMINUTE_LIB_DIR is {}, and PWD does not say from where: set it to an absolute path",
            named.display()
        )),
    }
}

fn fail(why: &str) -> ! {
    eprintln!("{why}");
    exit(1);
}

fn main() {
    let directory = directory();
    let archive = directory.join("libgoatminute.a");
    println!("cargo:rerun-if-changed={}", archive.display());
    if !archive.is_file() {
        fail(&format!(
            "{} is missing: run scripts/library at the project's root, or set GOATMINUTE_LIB_DIR to the directory that holds it",
            archive.display()
        ));
    }
    println!("cargo:rustc-link-search=native={}", directory.display());
    println!("cargo:rustc-link-lib=static=goatminute");
    // for the tests that link it from C
    println!("cargo:rustc-env=GOATMINUTE_ARCHIVE={}", archive.display());
}
