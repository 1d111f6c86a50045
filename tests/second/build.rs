//! Points the linker at the archive under test, and compiles the peer in C.

use std::env;
use std::path::Path;
use std::process::Command;

const PEER: &str = "peer/calls.c";

/// As an object of its own, as nothing of an archive is inlined into the caller
/// either. The linker that is named for another machine's programs is its gcc.
fn compile_peer() {
    let folder = env::var("OUT_DIR").expect("cargo names a folder to build in");
    let object = Path::new(&folder).join("calls.o");
    let gcc = env::var("RUSTC_LINKER").unwrap_or_else(|_| "gcc".to_string());
    let done = Command::new(&gcc)
        .args(["-O2", "-Wall", "-Wextra", "-Werror", "-c", PEER, "-o"])
        .arg(&object)
        .status();
    assert!(
        done.is_ok_and(|status| status.success()),
        "{gcc} compiles {PEER}"
    );
    println!("cargo:rustc-link-arg-bin=second={}", object.display());
    println!("cargo:rerun-if-changed={PEER}");
}

fn main() {
    let manifest = env::var("CARGO_MANIFEST_DIR").expect("cargo names the folder");
    let folder = Path::new(&manifest).join("../../target/staticlib");
    println!("cargo:rustc-link-search=native={}", folder.display());
    println!(
        "cargo:rerun-if-changed={}",
        folder.join("libgemthatch.a").display()
    );
    compile_peer();
}
