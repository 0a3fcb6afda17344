//! Hands on the padding with which the program is built.
fn main() {
    // Bytes before the program's code: what moves every loop, and changes nothing else.
    println!("cargo:rerun-if-env-changed=PAD");
    let pad = std::env::var("PAD").unwrap_or("0".into());
    println!("cargo:rustc-env=PAD={pad}");
}
