//! README's lines of Rust are those of the crate's own page, which `cargo test` compiles and runs as a doc test.

mod common;

use common::lines_of;

/// The first block of these lines that opens so, up to its end.
fn block(lines: Vec<String>, opening: &str) -> Vec<String> {
    let inside = lines.into_iter().skip_while(|line| line != opening).skip(1);
    inside.take_while(|line| line != "```").collect()
}

fn texts_of(file: &str) -> Vec<String> {
    lines_of(file).into_iter().map(|line| String::from_utf8(line).expect("text")).collect()
}

#[test]
fn readme_shows_what_the_crates_page_shows() {
    let readme = block(texts_of("README.md"), "```rust");
    let page = texts_of("kiosk/src/lib.rs")
        .into_iter()
        .filter_map(|line| line.strip_prefix("//!").map(|words| words.trim_start().to_string()));
    // a line that begins with # is compiled and not shown
    let page: Vec<String> = block(page.collect(), "```").into_iter().filter(|line| !line.starts_with("# ")).collect();
    assert!(readme.len() >= 10);
    assert_eq!(readme, page);
}
