//! The pages of Rust in the repository's README are this crate's, which are themselves run as tests of documentation.

fn pages_of_rust(text: &str) -> Vec<&str> {
    let pages = text.split("```rust\n").skip(1);
    pages.map(|page| page.split_once("```").expect("it ends").0).collect()
}

#[test]
fn both_show_the_same_pages() {
    let pages = pages_of_rust(include_str!("../README.md"));
    assert_eq!(pages.len(), 2);
    assert_eq!(pages_of_rust(include_str!("../../../README.md")), pages);
}
