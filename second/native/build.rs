//! Links the library that `command/library` writes, or the one in DOVETENON_LIBRARY.

use std::path::Path;

fn main() {
    let usual = Path::new(env!("CARGO_MANIFEST_DIR")).join("../../target/staticlib/libexport.a");
    let asked = std::env::var_os("DOVETENON_LIBRARY");
    let library = asked.map_or(usual, |path| path.into());
    println!("cargo::rerun-if-env-changed=DOVETENON_LIBRARY");
    println!("cargo::rerun-if-changed={}", library.display());
    if let Some(folder) = library.parent() {
        println!("cargo::rustc-link-search=native={}", folder.display());
    }
    println!("cargo::rustc-link-lib=static=export");
}
