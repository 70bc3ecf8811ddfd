//! Every public function, method, type, constant and module of the crate has an example in its documents. `cargo test` runs them.

use std::fs;
use std::path::{Path, PathBuf};

/// The word after `pub` of what has to have an example. A field has none, and `pub use` only names what stands elsewhere.
const DECLARED: [&str; 10] = [
    "async", "const", "enum", "fn", "mod", "static", "struct", "trait", "type", "unsafe",
];

fn source(file: &str) -> PathBuf {
    Path::new(env!("CARGO_MANIFEST_DIR")).join("src").join(file)
}

/// The root and the modules that it makes public, by itself or by names out of them.
fn public_files() -> Vec<String> {
    let root = fs::read_to_string(source("lib.rs")).unwrap();
    let module = |line: &str| {
        let rest = line.strip_prefix("pub ")?;
        let named = rest.strip_prefix("mod ").or(rest.strip_prefix("use "))?;
        Some(named.split([';', ':']).next()?.to_string() + ".rs")
    };
    let modules = root.lines().filter_map(module);
    modules.chain(["lib.rs".to_string()]).collect()
}

/// The lines that declare public items, each with the lines of its document.
fn public_items(code: &str) -> Vec<(&str, Vec<&str>)> {
    let lines: Vec<&str> = code.lines().map(str::trim_start).collect();
    let is_declared = |line: &str| {
        let word = line
            .strip_prefix("pub ")
            .and_then(|rest| rest.split(' ').next());
        word.is_some_and(|word| DECLARED.contains(&word))
    };
    let numbers = (0..lines.len()).filter(|n| is_declared(lines[*n]));
    let with_document = |n: usize| (lines[n], document_above(&lines[..n]));
    numbers.map(with_document).collect()
}

/// The document that ends the lines, without its slashes; attributes may stand in it.
fn document_above<'a>(lines: &[&'a str]) -> Vec<&'a str> {
    let above = lines.iter().rev();
    let near = above.take_while(|line| line.starts_with("///") || line.starts_with("#["));
    let mut document: Vec<&str> = near.filter_map(|line| line.strip_prefix("///")).collect();
    document.reverse();
    document
}

/// The document at the top of a module's file.
fn document_inside(module: &str) -> Vec<String> {
    let code = fs::read_to_string(source(&format!("{module}.rs"))).unwrap();
    let document = code.lines().map_while(|line| line.strip_prefix("//!"));
    document.map(String::from).collect()
}

/// Whether a document has a block of code that is run: one that is not marked as anything else.
fn has_example<T: AsRef<str>>(document: &[T]) -> bool {
    let mut inside = false;
    for line in document {
        if let Some(mark) = line.as_ref().trim().strip_prefix("```") {
            if !inside && mark.is_empty() {
                return true;
            }
            inside = !inside;
        }
    }
    false
}

/// A module is documented in its own file, all else above its line.
fn is_shown(declaration: &str, document: &[&str]) -> bool {
    match declaration.strip_prefix("pub mod ") {
        Some(module) => has_example(&document_inside(module.trim_end_matches(';'))),
        None => has_example(document),
    }
}

#[test]
fn every_public_item_has_an_example() {
    let mut seen = 0;
    for file in public_files() {
        let code = fs::read_to_string(source(&file)).unwrap();
        for (declaration, document) in public_items(&code) {
            assert!(
                is_shown(declaration, &document),
                "{file}: no example at {declaration}"
            );
            seen += 1;
        }
    }
    assert!(seen > 50, "only {seen} public items are found");
}

#[test]
fn an_example_is_a_block_that_runs() {
    assert!(has_example(&[" Words.", "", " ```", " code();", " ```"]));
    assert!(has_example(&[" ```text", " ```", " ```", " ```"]));
    assert!(!has_example(&[" Words."]));
    assert!(!has_example(&[" ```text", " drawing", " ```"]));
    assert!(!has_example(&[" ```compile_fail", " wrong();", " ```"]));
}
