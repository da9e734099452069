//! The example lists, and a list explained.

// Not every test needs all of it.
#![allow(dead_code)]

pub mod c;
pub mod clone;
pub mod documents;
pub mod json;
pub mod named;
pub mod run;
pub mod seen;
pub mod steps;
pub mod svg;
pub mod told;

use explained::before::row::Row;
use explained::before::Ask;
use explained::notation::Places;
use explained::page::page;
use explained::picture::{Drawing, Roll, Sheets, Story};
use explained::play::play;
use explained::report::{report, Report};
use explained::{engine, version};
use reference::generator;
use std::fs;
use std::path::{Path, PathBuf};

/// The folder of the example lists.
pub fn folder() -> PathBuf {
    Path::new(env!("CARGO_MANIFEST_DIR")).join("../examples")
}

/// The names of all examples, in order.
pub fn names() -> Vec<String> {
    let files = fs::read_dir(folder()).expect("the examples' folder");
    let paths = files.map(|file| file.expect("a file").path());
    let lists = paths.filter(|path| path.extension().is_some_and(|end| end == "in"));
    let stem = |path: PathBuf| {
        path.file_stem()
            .expect("a name")
            .to_string_lossy()
            .into_owned()
    };
    let mut names: Vec<String> = lists.map(stem).collect();
    names.sort();
    names
}

pub fn list(name: &str) -> Vec<u8> {
    fs::read(folder().join(format!("{name}.in"))).expect("a list")
}

/// Random lists of six machines and twelve chares, with their seeds.
pub fn widest_lists() -> impl Iterator<Item = (u64, Vec<u8>)> {
    let lists = (0..3000).map(|seed| (seed, generator::list(seed, 120)));
    lists.filter(|(_, list)| list[..6].eq_ignore_ascii_case(b"01060C"))
}

pub fn explained(input: &[u8]) -> Report {
    let report = report(input, &engine::lines(input), &Places::default());
    assert_eq!(report.difference, None);
    report
}

pub fn drawn(title: &str, story: &Story) -> String {
    let drawing = Drawing::new(title, "made by a test", story);
    drawing.expect("a picture").whole()
}

/// What the command writes into each file: whose lines, version, hash of the list in digits.
pub fn made_by(list: &[u8]) -> String {
    let (version, hash) = (version::VERSION, version::hash(list));
    format!("Lines of the proved engine, satuphir {version}, list {hash}")
}

/// The picture as the command writes it.
pub fn written(title: &str, list: &[u8]) -> String {
    let drawing = Drawing::new(title, &made_by(list), &explained(list).story);
    drawing.expect("a picture").whole()
}

/// The sheets of a list's picture.
pub fn sheets(title: &str, list: &[u8]) -> Sheets {
    let roll = Roll::new(&explained(list).story).expect("a picture");
    Sheets::new(title, "made by a test", &roll)
}

/// The page of a list.
pub fn made(title: &str, list: &[u8]) -> String {
    let (lines, ask) = (engine::lines(list), engine::precedes as Ask);
    let page = page(title, &made_by(list), list, &lines, Some(ask)).expect("a page");
    assert_eq!(page.wrong, None);
    page.html
}

/// The row of a list.
pub fn row(list: &[u8]) -> Row {
    let mut row = Row::default();
    let played = play(list, &engine::lines(list), |step| row.see(step));
    assert_eq!(played, Ok(()));
    row
}
