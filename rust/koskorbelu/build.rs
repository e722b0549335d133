//! Gives the archive of the proved library to the linker, with the feature
//! `proved`: the file that KOSKORBELU_ARCHIVE names, else the one that
//! `scripts/native-archive` leaves in the project's target/staticlib.

use std::env;
use std::fs;
use std::path::PathBuf;
use std::process::ExitCode;

const VARIABLE: &str = "KOSKORBELU_ARCHIVE";

/// From this package's folder.
const USUAL: &str = "../../target/staticlib/libkoskorbelu.a";

fn main() -> ExitCode {
    println!("cargo:rerun-if-changed=build.rs");
    println!("cargo:rerun-if-env-changed={VARIABLE}");
    if env::var_os("CARGO_FEATURE_PROVED").is_none() {
        return ExitCode::SUCCESS;
    }
    let archive = match env::var_os(VARIABLE) {
        Some(path) => PathBuf::from(path),
        None => PathBuf::from(env!("CARGO_MANIFEST_DIR")).join(USUAL),
    };
    println!("cargo:rerun-if-changed={}", archive.display());
    // The linker wants a name of its own pattern, so it gets a copy.
    let out = PathBuf::from(env::var_os("OUT_DIR").expect("cargo sets it"));
    if let Err(error) = fs::copy(&archive, out.join("libkoskorbelu_proved.a")) {
        eprintln!(
            "The feature `proved` links the proved library.\n{}: {error}\n\
             Make it by scripts/native-archive, or name another archive in {VARIABLE}.",
            archive.display()
        );
        return ExitCode::FAILURE;
    }
    println!("cargo:rustc-link-search=native={}", out.display());
    println!("cargo:rustc-link-lib=static=koskorbelu_proved");
    ExitCode::SUCCESS
}
