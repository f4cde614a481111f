//! The README's first program in Rust is the example `first`.

use std::fs;
use std::path::Path;

#[test]
fn the_readme_shows_the_example() {
    let here = Path::new(env!("CARGO_MANIFEST_DIR"));
    let readme = fs::read_to_string(here.join("../../README.md")).expect("the README");
    let example = fs::read_to_string(here.join("examples/first.rs")).expect("the example");
    // The example's own first line says what it is for.
    let program = example.split_once("\n\n").expect("a line of words, then the program").1;
    let indented = |line: &str| if line.is_empty() { "\n".into() } else { format!("    {line}\n") };
    assert!(readme.contains(&program.lines().map(indented).collect::<String>()));
}
