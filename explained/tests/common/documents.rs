//! Reading the documents.

use std::fs;
use std::path::{Path, PathBuf};

pub fn root() -> PathBuf {
    Path::new(env!("CARGO_MANIFEST_DIR")).join("..")
}

pub fn document(name: &str) -> String {
    fs::read_to_string(root().join(name)).expect("a document")
}

/// The fenced blocks of a language.
pub fn blocks<'a>(text: &'a str, language: &str) -> Vec<&'a str> {
    let start = format!("```{language}\n");
    let rest = text.split(&start).skip(1);
    rest.map(|block| &block[..block.find("```").expect("an end")])
        .collect()
}

/// The cells of the rows of all tables, without their code marks.
pub fn rows(text: &str) -> Vec<Vec<String>> {
    let rows = text
        .lines()
        .filter(|line| line.starts_with("| ") && !line.starts_with("|---"));
    let cell = |cell: &str| cell.trim().to_string();
    rows.map(|row| row.trim_matches('|').split(" | ").map(cell).collect())
        .collect()
}

pub fn plain(cell: &str) -> String {
    cell.replace('`', "")
}

/// A document's words, wherever its lines end.
pub fn flowing(name: &str) -> String {
    let text = document(name);
    let words = text.split_whitespace().filter(|word| *word != "#");
    words.collect::<Vec<_>>().join(" ")
}
