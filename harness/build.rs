//! Links libprobe.a and libkuldveth.a, which `rt lib` writes into the folder out/ of their crates, or those in the folder that
//! STATIC_LIBS names.

use std::env;
use std::path::PathBuf;

fn main() {
    let beside = PathBuf::from(env::var("CARGO_MANIFEST_DIR").unwrap_or_default());
    println!("cargo:rerun-if-env-changed=STATIC_LIBS");
    for name in ["probe", "kuldveth"] {
        let folder = env::var("STATIC_LIBS").unwrap_or_else(|_| format!("../crates/{name}/out"));
        let folder = beside.join(folder);
        let library = folder.join(format!("lib{name}.a"));
        assert!(
            library.exists(),
            "{} is missing: `rt lib` in crates/{name} writes it",
            library.display()
        );
        println!("cargo:rustc-link-search=native={}", folder.display());
        println!("cargo:rerun-if-changed={}", library.display());
        println!("cargo:rustc-link-lib=static={name}");
    }
}
