//! Finds the original `types.rs` and names it to the compiler by an absolute path, unchanged; takes the function `bits`
//! out of the original `verify_target.rs`, unchanged; links our library. `bench` is built by it too.

use std::path::{Path, PathBuf};
use std::process::Command;
use std::{env, fs};

/// Where the source lies when `CUTILE_IR_SRC` isn't set, seen from the repository root.
const DEFAULT_SOURCE: &str = "../shared/docs/src";

fn main() {
    println!("cargo::rustc-check-cfg=cfg(has_source)");
    println!("cargo::rerun-if-env-changed=CUTILE_IR_SRC");
    let types = source_path("src/ir/types.rs");
    let target = source_path("src/verify_target.rs");
    // Named even when absent, so that the next build notices their arrival.
    println!("cargo::rerun-if-changed={}", types.display());
    println!("cargo::rerun-if-changed={}", target.display());
    let (mut text, mut bits) = (String::new(), String::new());
    if let Ok(found) = fs::canonicalize(&types) {
        println!("cargo::rustc-cfg=has_source");
        // The allow stands outside the original, which has parts nobody here calls.
        text = format!("#[allow(dead_code)]\n#[path = {found:?}]\npub mod types;\n");
        println!("cargo::rustc-env=ORIGINAL_TYPES={}", found.display());
        bits = bits_of(&target);
    }
    link_library();
    println!("cargo::rustc-env=BUILT_BY={}", compiler());
    let out = PathBuf::from(env::var_os("OUT_DIR").expect("cargo sets OUT_DIR"));
    fs::write(out.join("original_types.rs"), text).expect("OUT_DIR can be written");
    fs::write(out.join("original_bits.rs"), bits).expect("OUT_DIR can be written");
}

/// The function `bits`, as it stands there. The rest of the file is about operations, which are left out.
fn bits_of(target: &Path) -> String {
    let shown = target.display();
    let all = fs::read_to_string(target).unwrap_or_else(|why| panic!("{shown}: {why}"));
    let from = all.find("\nfn bits(").map(|place| place + 1);
    let rest = &all[from.unwrap_or_else(|| panic!("{shown} has no function bits"))..];
    let end = rest.find("\n}\n").map(|place| place + 3);
    rest[..end.unwrap_or_else(|| panic!("{shown}: bits has no end"))].to_string()
}

/// Links our own readers and writer where `TYPETEXT_LIB` names the folder that holds `libcapi.a`.
fn link_library() {
    println!("cargo::rustc-check-cfg=cfg(has_library)");
    println!("cargo::rerun-if-env-changed=TYPETEXT_LIB");
    let Some(folder) = env::var_os("TYPETEXT_LIB") else {
        return;
    };
    let archive = root().join(folder).join("libcapi.a");
    println!("cargo::rerun-if-changed={}", archive.display());
    if let Ok(found) = fs::canonicalize(&archive) {
        let folder = found.parent().expect("a file lies in a folder");
        println!("cargo::rustc-cfg=has_library");
        println!("cargo::rustc-link-search=native={}", folder.display());
        println!("cargo::rustc-link-lib=static=capi");
    }
}

/// The compiler's name and version, which `bench` prints.
fn compiler() -> String {
    let rustc = env::var_os("RUSTC").expect("cargo sets RUSTC");
    let said = Command::new(rustc).arg("--version").output();
    let said = said.map(|out| String::from_utf8_lossy(&out.stdout).trim().to_string());
    said.unwrap_or_else(|_| "an unknown rustc".to_string())
}

fn root() -> PathBuf {
    let package = PathBuf::from(env::var_os("CARGO_MANIFEST_DIR").expect("cargo sets it"));
    package.parent().unwrap_or(Path::new("..")).to_path_buf()
}

fn source_path(file: &str) -> PathBuf {
    let source = env::var_os("CUTILE_IR_SRC").unwrap_or_else(|| DEFAULT_SOURCE.into());
    root().join(source).join(file)
}
