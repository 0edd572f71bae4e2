//! Links the library, from the folder that SANKAYOP_LIB names, or else from where `./archive` writes it.

use std::{env, path::PathBuf};

fn main() {
    println!("cargo::rerun-if-env-changed=SANKAYOP_LIB");
    let built = || PathBuf::from(env!("CARGO_MANIFEST_DIR")).join("../target/staticlib");
    let folder = env::var_os("SANKAYOP_LIB").map_or_else(built, PathBuf::from);
    let archive = folder.join("libsankayop.a");
    assert!(
        archive.exists(),
        "there is no {}: ./archive makes one",
        archive.display()
    );
    println!("cargo::rerun-if-changed={}", archive.display());
    println!("cargo::rustc-link-search=native={}", folder.display());
    println!("cargo::rustc-link-lib=static=sankayop");
}
