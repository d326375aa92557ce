//! Links libkuldveth.a, which `rt lib` in crates/kuldveth writes into its folder out/, or the one in the folder that STATIC_LIBS names.

use std::env;
use std::path::PathBuf;

fn main() {
    let beside = PathBuf::from(env::var("CARGO_MANIFEST_DIR").unwrap_or_default());
    let folder = env::var("STATIC_LIBS").unwrap_or_else(|_| "../crates/kuldveth/out".to_string());
    let library = beside.join(folder).join("libkuldveth.a");
    println!("cargo:rerun-if-env-changed=STATIC_LIBS");
    println!("cargo:rerun-if-changed={}", library.display());
    assert!(
        library.exists(),
        "{} is missing: `rt lib` in crates/kuldveth writes it",
        library.display()
    );
    if let Some(folder) = library.parent() {
        println!("cargo:rustc-link-search=native={}", folder.display());
    }
    println!("cargo:rustc-link-lib=static=kuldveth");
}
