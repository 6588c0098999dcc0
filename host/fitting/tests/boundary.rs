//! Unsafe code stands in one module, and the crate has nothing to allocate with.

use std::fs;
use std::path::Path;

const BOUNDARY: &str = "library";

fn words(text: &str) -> impl Iterator<Item = &str> {
    text.split(|letter: char| !letter.is_alphanumeric() && letter != '_')
}

#[test]
fn every_module_but_the_boundary_forbids_unsafe_code_and_none_has_alloc() {
    let folder = Path::new(env!("CARGO_MANIFEST_DIR")).join("src");
    let root = fs::read_to_string(folder.join("lib.rs")).unwrap();
    assert!(root.contains("\n#![no_std]\n#![deny(unsafe_code)]\n"));
    for entry in fs::read_dir(folder).unwrap() {
        let path = entry.unwrap().path();
        let name = path.file_stem().unwrap().to_str().unwrap();
        let text = fs::read_to_string(&path).expect("only files of text");
        let forbidden = root.contains(&format!("\n#[forbid(unsafe_code)]\nmod {name};\n"));
        assert_eq!(forbidden, name != "lib" && name != BOUNDARY, "{name}");
        let is_unsafe = words(&text).any(|word| word == "unsafe");
        assert_eq!(is_unsafe, name == BOUNDARY, "{name}");
        let lines = text.lines().map(str::trim_start);
        let mut code = lines.filter(|line| !line.starts_with("//")).flat_map(words);
        let found = code.find(|word| ["std", "alloc"].contains(word));
        assert_eq!(found, None, "{name}");
    }
}
