//! Links the proved library, which `tests/build.sh interface` builds.

use std::path::Path;

fn main() {
    let folder = Path::new(env!("CARGO_MANIFEST_DIR")).join("../target/staticlib");
    let archive = folder.join("libinterface.a");
    println!("cargo::rerun-if-changed={}", archive.display());
    assert!(
        archive.exists(),
        "target/staticlib/libinterface.a is missing: run 'tests/build.sh interface' first"
    );
    println!("cargo::rustc-link-search=native={}", folder.display());
    println!("cargo::rustc-link-lib=static=interface");
}
