//! Links the proved code: `rt lib` in crates/embed writes crates/embed/out/libembed.a.
use std::path::Path;

fn main() {
    let root = std::env::var("CARGO_MANIFEST_DIR").expect("cargo sets it");
    let folder = Path::new(&root).join("../../crates/embed/out");
    println!("cargo:rustc-link-search=native={}", folder.display());
    println!(
        "cargo:rerun-if-changed={}",
        folder.join("libembed.a").display()
    );
}
