//! The example in C that feeds the proved reader in pieces, and the size of a line that the header gives.

mod common;

use common::c::{compiled, example};
use common::{folder, names};
use std::fs::{self, File};
use std::path::Path;
use std::process::Command;

#[test]
#[cfg_attr(not(library), ignore = "needs the engine's library")]
fn the_example_in_pieces_gives_the_lines() {
    let program = compiled(&example("pieces.c"));
    for name in names() {
        let file = |end: &str| folder().join(format!("{name}.{end}"));
        let list = File::open(file("in")).expect("a list");
        let output = Command::new(&program).stdin(list).output().expect("a run");
        assert_eq!(output.status.code(), Some(0));
        assert!(
            output.stdout == fs::read(file("out")).expect("lines"),
            "{name}"
        );
    }
}

/// The number behind a name in a file, where they stand together.
fn number(file: &str, name: &str) -> usize {
    let root = Path::new(env!("CARGO_MANIFEST_DIR")).join("..");
    let text = fs::read_to_string(root.join(file)).expect("a source");
    let at = text.find(name).expect("the name") + name.len();
    let digits = text[at..].split([';', '\n']).next().expect("a value");
    digits.trim().parse().expect("a number")
}

/// The example compares the words of a state; the bytes of a line stand in the code.
#[test]
fn the_header_has_the_bytes_of_a_line() {
    let bytes = number("crates/transcript/src/lib.rt", "LINE: usize =");
    assert_eq!(number("c/satuphir.h", "SATUPHIR_LINE_BYTES"), bytes);
}
