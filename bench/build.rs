// Links the static library that `tools/staticlib` writes.
use std::path::Path;

fn main() {
    let here = std::env::var("CARGO_MANIFEST_DIR").unwrap();
    let dir = Path::new(&here).join("../target/staticlib");
    let library = dir.join("libkambelohi.a");
    println!("cargo:rerun-if-changed={}", library.display());
    println!("cargo:rustc-link-search=native={}", dir.display());
    println!("cargo:rustc-link-lib=static=kambelohi");
}
