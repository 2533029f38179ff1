//! Links the proved kernel's archives, which the repository's root builds.

use std::path::Path;

const ARCHIVES: [&str; 3] = ["timing", "host", "finding"];

fn main() {
    let root = std::env::var("CARGO_MANIFEST_DIR").expect("cargo names the manifest's folder");
    let folder = Path::new(&root).join("../target/staticlib");
    println!("cargo:rustc-link-search=native={}", folder.display());
    for name in ARCHIVES {
        let archive = folder.join(format!("lib{name}.a"));
        println!("cargo:rerun-if-changed={}", archive.display());
        if !archive.exists() {
            panic!("target/staticlib/lib{name}.a is missing: run `tools/staticlib {name}` first");
        }
        println!("cargo:rustc-link-lib=static={name}");
    }
}
