//! Links the archive libsaratoga.a of the repository's target/staticlib/.

use std::path::Path;

fn main() {
    let dir = Path::new(env!("CARGO_MANIFEST_DIR")).join("../../target/staticlib");
    let archive = dir.join("libsaratoga.a");
    if !archive.exists() {
        panic!("target/staticlib/libsaratoga.a is missing; run: make lib");
    }
    println!("cargo:rerun-if-changed={}", archive.display());
    println!("cargo:rustc-link-search=native={}", dir.display());
    println!("cargo:rustc-link-lib=static=saratoga");
}
