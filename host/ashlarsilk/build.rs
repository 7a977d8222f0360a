//! Links libashlarsilk.a, which `rt lib` in crates/ashlarsilk writes to the folder out there. The
//! environment variable ASHLARSILK_LIB_DIR names another folder.

use std::env;
use std::path::{Path, PathBuf};
use std::process::ExitCode;

const VARIABLE: &str = "ASHLARSILK_LIB_DIR";

fn main() -> ExitCode {
    println!("cargo:rerun-if-env-changed={VARIABLE}");
    let folder = match env::var_os(VARIABLE) {
        Some(folder) => PathBuf::from(folder),
        None => Path::new(env!("CARGO_MANIFEST_DIR")).join("../../crates/ashlarsilk/out"),
    };
    let archive = folder.join("libashlarsilk.a");
    println!("cargo:rerun-if-changed={}", archive.display());
    if !archive.is_file() {
        eprintln!(
            "{} is not there: run `rt lib` in crates/ashlarsilk, or set {VARIABLE} to the folder of \
             libashlarsilk.a",
            archive.display()
        );
        return ExitCode::FAILURE;
    }
    println!("cargo:rustc-link-search=native={}", folder.display());
    println!("cargo:rustc-link-lib=static=ashlarsilk");
    // Handed to the test that compiles the C example.
    println!("cargo:rustc-env=ASHLARSILK_ARCHIVE={}", archive.display());
    ExitCode::SUCCESS
}
