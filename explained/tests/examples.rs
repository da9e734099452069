//! Every example's stored files are what the tool makes.

mod common;

use common::{explained, folder, list, names, written};
use reference::reader::Sitting;
use std::fs;

fn stored(name: &str, end: &str) -> String {
    let file = folder().join(format!("{name}.{end}"));
    fs::read_to_string(&file).unwrap_or_else(|e| panic!("{}: {e}", file.display()))
}

#[test]
fn there_are_examples() {
    assert!(names().len() >= 12);
}

/// The stored lines come from the second implementation; the proved engine gives the same.
#[test]
fn lines_of_the_engine() {
    for name in names() {
        let lines = explained::engine::lines(&list(&name));
        assert_eq!(stored(&name, "out").as_bytes(), lines, "{name}");
    }
}

#[test]
fn lines() {
    for name in names() {
        let mut sitting = Sitting::new();
        let mut lines = Vec::new();
        sitting.feed(&list(&name), &mut lines);
        sitting.finish(&mut lines);
        assert_eq!(stored(&name, "out").as_bytes(), lines, "{name}");
    }
}

#[test]
fn texts() {
    for name in names() {
        let text = explained(&list(&name)).text;
        assert!(stored(&name, "txt") == text, "{name}.txt is not up to date");
    }
}

#[test]
fn pictures() {
    for name in names() {
        let picture = written(&name, &list(&name));
        assert!(
            stored(&name, "svg") == picture,
            "{name}.svg is not up to date"
        );
    }
}

/// A title, and two to ten lines that say what the list is about.
#[test]
fn explanations() {
    for name in names() {
        let text = stored(&name, "md");
        let lines: Vec<&str> = text.lines().filter(|line| !line.is_empty()).collect();
        assert!(lines[0].starts_with("# "), "{name}");
        assert!(
            (3..=11).contains(&lines.len()),
            "{name}: {} lines",
            lines.len()
        );
    }
}

/// A line that the words name before its frame, as in "08 (frame 677)", is the one stored.
#[test]
fn lines_in_the_words() {
    let mut found = 0;
    for name in names() {
        let lines = stored(&name, "out");
        let words = stored(&name, "md");
        let words = words.split_whitespace().collect::<Vec<_>>().join(" ");
        for (at, _) in words.match_indices(" (frame ") {
            let line = words[..at].rsplit(' ').next().unwrap_or_default();
            let number = line.len() >= 2 && line.as_bytes()[0].is_ascii_digit();
            if !number && line != "FF" {
                continue;
            }
            let rest = &words[at + " (frame ".len()..];
            let frame: usize = rest[..rest.find(')').expect("an end")]
                .parse()
                .expect("a frame");
            assert_eq!(
                lines.lines().nth(frame - 1),
                Some(line),
                "{name}, frame {frame}"
            );
            found += 1;
        }
    }
    assert!(found >= 9, "{found}");
}

/// The script that makes them says where the lines come from, and takes them there; the gate compares them with the engine's.
#[test]
fn where_the_lines_come_from() {
    let read = |name: &str| fs::read_to_string(folder().join(name)).expect("a script");
    let script = read("make.sh");
    let words = script.split_whitespace().filter(|word| *word != "#");
    let script = words.collect::<Vec<_>>().join(" ");
    for words in [
        "The lines come from the second implementation, never from the engine that they are compared with",
        "the gate plays each list with the proved engine too (explained/tests/examples.rs)",
        "run reference --bin sitting < \"$list\" > \"$name.out\"",
    ] {
        assert!(script.contains(words), "make.sh does not say: {words}");
    }
    let gate = read("../.ci/run");
    assert!(gate.contains("cargo test --offline --quiet --manifest-path explained/Cargo.toml\n"));
}
