//! Links the static library, which `tools/build library` writes; SCEOLANDRA_LIB names another folder that has it.

use std::path::PathBuf;
use std::process::exit;

fn main() {
    println!("cargo:rerun-if-env-changed=SCEOLANDRA_LIB");
    let folder = match std::env::var_os("SCEOLANDRA_LIB") {
        Some(folder) => PathBuf::from(folder),
        None => {
            PathBuf::from(std::env::var_os("CARGO_MANIFEST_DIR").unwrap_or_default()).join("../../target/staticlib")
        }
    };
    let archive = folder.join("libsceolandra.a");
    println!("cargo:rerun-if-changed={}", archive.display());
    if !archive.is_file() {
        eprintln!("{} is missing: run `tools/build library` first", archive.display());
        exit(1);
    }
    println!("cargo:rustc-link-search=native={}", folder.display());
    println!("cargo:rustc-link-lib=static=sceolandra");
}
