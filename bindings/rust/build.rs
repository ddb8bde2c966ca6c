//! Finds the library: in the folder that `TYPETEXT_LIB` names, else where the repository's own tools lay it.

use std::env;
use std::path::{Path, PathBuf};

fn main() {
    println!("cargo::rerun-if-changed=build.rs");
    println!("cargo::rerun-if-env-changed=TYPETEXT_LIB");
    let folder = folder();
    for name in ["typetext", "capi"] {
        let archive = folder.join(format!("lib{name}.a"));
        // Named even when absent, so that the next build notices its arrival.
        println!("cargo::rerun-if-changed={}", archive.display());
        if archive.is_file() {
            println!("cargo::rustc-link-search=native={}", folder.display());
            println!("cargo::rustc-link-lib=static={name}");
            return;
        }
    }
    println!(
        "cargo::error=no libtypetext.a or libcapi.a in {}: {}",
        folder.display(),
        advice()
    );
}

/// A relative `TYPETEXT_LIB` is taken from the repository's root. The shipped library is for x86-64; on another machine it
/// is the one compiled for this machine.
fn folder() -> PathBuf {
    let package = PathBuf::from(env::var_os("CARGO_MANIFEST_DIR").expect("cargo sets it"));
    let root = package.ancestors().nth(2).unwrap_or(Path::new("../.."));
    let usual = match on_x86_64() {
        true => "build",
        false => "target/native",
    };
    root.join(env::var_os("TYPETEXT_LIB").unwrap_or(usual.into()))
}

fn advice() -> &'static str {
    match on_x86_64() {
        true => "run tools/library, or set TYPETEXT_LIB to the folder that holds it",
        false => "run tools/native-archive capi, or set TYPETEXT_LIB to the folder that holds it",
    }
}

fn on_x86_64() -> bool {
    env::var("CARGO_CFG_TARGET_ARCH").is_ok_and(|arch| arch == "x86_64")
}
