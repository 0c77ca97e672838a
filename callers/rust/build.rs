//! Finds `libdumarewhi_c.a`, and links it.
use std::env;
use std::path::{Path, PathBuf};
use std::process::exit;

const ARCHIVE: &str = "libdumarewhi_c.a";

fn main() {
    println!("cargo:rerun-if-changed=build.rs");
    println!("cargo:rerun-if-env-changed=DUMAREWHI_LIB");
    let folder = folder();
    let archive = folder.join(ARCHIVE);
    println!("cargo:rerun-if-changed={}", archive.display());
    println!("cargo:rustc-env=DUMAREWHI_ARCHIVE={}", archive.display());
    // Documentation links no program.
    if env::var_os("DOCS_RS").is_some() {
        return;
    }
    if !archive.is_file() {
        missing(&folder);
    }
    println!("cargo:rustc-link-search=native={}", folder.display());
    println!("cargo:rustc-link-lib=static=dumarewhi_c");
}

/// Where the archive is: in the folder that DUMAREWHI_LIB names, or else where the repository builds it.
fn folder() -> PathBuf {
    if let Some(folder) = env::var_os("DUMAREWHI_LIB") {
        return PathBuf::from(folder);
    }
    let package = PathBuf::from(env::var_os("CARGO_MANIFEST_DIR").expect("cargo sets CARGO_MANIFEST_DIR"));
    package.join("../../crates/dumarewhi_c/out")
}

fn missing(folder: &Path) -> ! {
    eprintln!(
        "error: {ARCHIVE} is missing in {}: make it with `cd crates/dumarewhi_c && rt lib` in the repository of \
         dumarewhi, or set DUMAREWHI_LIB to the folder that has it.",
        folder.display()
    );
    exit(1)
}
