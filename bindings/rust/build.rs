//! Links the archive of the proved calls.
use std::path::PathBuf;

fn main() {
    println!("cargo:rerun-if-env-changed=INDOVALUMP_LIB");
    let dir = match std::env::var_os("INDOVALUMP_LIB") {
        Some(dir) => PathBuf::from(dir),
        None => PathBuf::from(std::env::var_os("CARGO_MANIFEST_DIR").unwrap()).join("../../crates/ffi/out"),
    };
    let archive = dir.join("libffi.a");
    println!("cargo:rerun-if-changed={}", archive.display());
    if !archive.exists() {
        println!("cargo:warning=there is no {}", archive.display());
        println!("cargo:warning=run `rt lib` in the folder crates/ffi of the repository (it proves the calls and writes the archive),");
        println!("cargo:warning=or set INDOVALUMP_LIB to the folder that has libffi.a");
        std::process::exit(1);
    }
    println!("cargo:rustc-link-search=native={}", dir.display());
    println!("cargo:rustc-link-lib=static=ffi");
}
