//! Links `libdumarewhi_c.a`, which is in this package.
use std::env;
use std::path::PathBuf;

fn main() {
    println!("cargo:rerun-if-changed=build.rs");
    println!("cargo:rerun-if-changed=lib/libdumarewhi_c.a");
    let variable = |name: &str| env::var(name).unwrap_or_default();
    let system = (variable("CARGO_CFG_TARGET_ARCH"), variable("CARGO_CFG_TARGET_OS"));
    if system != ("x86_64".into(), "linux".into()) {
        eprintln!("error: this package has its library for Linux on x86-64 alone");
        std::process::exit(1);
    }
    let package = PathBuf::from(env::var_os("CARGO_MANIFEST_DIR").expect("cargo sets CARGO_MANIFEST_DIR"));
    println!("cargo:rustc-link-search=native={}", package.join("lib").display());
    println!("cargo:rustc-link-lib=static=dumarewhi_c");
}
