//! The Rust example of README.md is the one that this crate's documentation tests.

const README: &str = include_str!("../../../README.md");
const CRATE: &str = include_str!("../src/lib.rs");

#[test]
fn the_examples_are_the_same() {
    let block = |lines: Vec<String>, opening: &str| -> Vec<String> {
        let after = lines.into_iter().skip_while(|line| line != opening).skip(1);
        after.take_while(|line| line != "```").collect()
    };
    let readme = README.lines().map(String::from).collect();
    let documented = CRATE.lines().filter_map(|line| line.strip_prefix("//!"));
    let documented = documented
        .map(|line| line.trim_start().to_string())
        .collect();
    let ours = block(documented, "```");
    assert!(ours.len() > 5);
    assert_eq!(block(readme, "```rust"), ours);
}
