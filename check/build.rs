//! Links the static library, which `tools/build library` writes.

fn main() {
    let root = std::env::var("CARGO_MANIFEST_DIR").unwrap();
    println!("cargo:rustc-link-search=native={root}/../target/staticlib");
    println!("cargo:rustc-link-lib=static=sceolandra");
    println!("cargo:rerun-if-changed={root}/../target/staticlib/libsceolandra.a");
}
