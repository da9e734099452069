//! Each letter comes with what it means, wherever a line is shown.

mod common;

use common::svg::{number, place, places, said, shapes};
use common::{drawn, explained, list, names};
use explained::notation::Places;
use explained::page::page;
use explained::words::letter::HEADING;
use explained::{ahead, engine, state};
use reference::answer::Rule;
use reference::generator;
use std::collections::BTreeSet;

/// The letters as they were asked for: the packet, and what the rule is called.
const LETTERS: [(char, &str, &str); 10] = [
    ('A', "ASK", "entry found"),
    ('B', "ASK", "worked"),
    ('C', "ASK", "new ticket"),
    ('D', "GRANT", "dropped"),
    ('E', "GRANT", "old"),
    ('F', "GRANT", "received"),
    ('G', "GRANT", "new"),
    ('H', "DATA", "filled"),
    ('I', "DATA", "dropped"),
    ('J', "", "any other accepted frame"),
];

/// The example that has them all.
const ALL: &str = "16-the-letters";

/// The letter of a line, if it has one.
fn letter(line: &str) -> Option<char> {
    line.strip_prefix("00")?.chars().last()
}

/// What the rule of a letter is called.
fn name(letter: char) -> &'static str {
    let found = LETTERS.iter().find(|(other, ..)| *other == letter);
    found.expect("a letter from A to J").2
}

/// The same with its packet.
fn title(letter: char) -> String {
    match LETTERS.iter().find(|(other, ..)| *other == letter) {
        Some((_, "", name)) => name.to_string(),
        Some((_, packet, name)) => format!("{packet}, {name}"),
        None => panic!("{letter} is no letter from A to J"),
    }
}

fn all() -> BTreeSet<char> {
    ('A'..='J').collect()
}

#[test]
fn ten_letters() {
    let letters = Rule::ALL.map(Rule::letter);
    assert_eq!(letters, LETTERS.map(|(letter, ..)| letter));
    let lines = String::from_utf8(engine::lines(&list(ALL))).expect("text");
    let used: BTreeSet<char> = lines.lines().filter_map(letter).collect();
    assert_eq!(used, all());
}

/// The frames of an explained list, each with its line and its words, and what stands below them.
fn frames(text: &str) -> (Vec<(String, String)>, &str) {
    let (frames, below) = text.split_once("\n\n").unwrap_or((text, ""));
    let mut found: Vec<(String, String)> = Vec::new();
    for line in frames.lines() {
        match (line.strip_prefix("      "), found.last_mut()) {
            (Some(more), Some((_, words))) => *words += &format!("{more}\n"),
            _ => {
                let (_, line) = line.rsplit_once("  ->  ").expect("a line");
                found.push((line.to_string(), String::new()));
            }
        }
    }
    (found, below)
}

/// The letters of a list's lines. The words of a frame name the rule of its letter and no other, J being no rule of its own.
fn explained_letters(name_of_list: &str, input: &[u8]) -> BTreeSet<char> {
    let text = explained(input).text;
    let (frames, below) = frames(&text);
    let mut used = BTreeSet::new();
    for (at, (line, words)) in frames.iter().enumerate() {
        let at = format!("{name_of_list}, frame {}: {line}\n{words}", at + 1);
        let told: Vec<&str> = words.lines().filter(|l| l.starts_with("Rule ")).collect();
        match letter(line) {
            None | Some('J') => assert!(told.is_empty(), "{at}"),
            Some(letter) => {
                let start = format!("Rule {letter}, {}: ", name(letter));
                assert!(matches!(told[..], [one] if one.starts_with(&start)), "{at}");
            }
        }
        used.extend(letter(line));
    }
    // Below stand these letters and no others, each with its meaning.
    let mut lines = below.lines();
    assert_eq!(lines.next(), (!used.is_empty()).then_some(HEADING));
    let heads: Vec<&str> = lines.filter(|line| !line.starts_with("      ")).collect();
    assert_eq!(heads.len(), used.len(), "{name_of_list}: {below}");
    for (head, &letter) in heads.iter().zip(&used) {
        let start = format!("   {letter}  {}: ", title(letter));
        assert!(head.starts_with(&start), "{name_of_list}: {head}");
    }
    used
}

#[test]
fn letters_are_explained() {
    for name in names() {
        let used = explained_letters(&name, &list(&name));
        assert!(name != ALL || used == all());
    }
    // A letter that only one frame has is there too.
    let list = list(ALL);
    let ends = (0..list.len()).filter(|&at| list[at] == b'\n');
    for end in ends {
        explained_letters(&format!("up to byte {end}"), &list[..end]);
    }
    // Words are made from what a frame did, letters by the rules: in random lists too they say the same.
    let lists = (0..80).map(|seed| (seed, generator::list(seed, 600)));
    let mut used = BTreeSet::new();
    for (seed, list) in lists {
        used.extend(explained_letters(&format!("seed {seed}"), &list));
    }
    assert_eq!(used, all());
    // No accepted line, no letters.
    assert!(explained_letters("refused", b"1201\n").is_empty());
    assert!(explained_letters("empty", b"").is_empty());
}

/// Beside each line stands what happened under its rule, and the legend has every letter.
#[test]
fn letters_are_drawn() {
    for name_of_list in names() {
        let picture = drawn(&name_of_list, &explained(&list(&name_of_list)).story);
        let (lines_at, _) = places(&picture, "line")[0];
        let (words_at, _) = places(&picture, "what happened")[0];
        let column = |at: f64| shapes(&picture, "<text").filter(move |t| number(t, "x") == at);
        let mut used = BTreeSet::new();
        for line in column(lines_at) {
            let (y, line) = (number(line, "y"), said(line));
            let Some(letter) = letter(&line) else {
                continue;
            };
            let words = column(words_at).find(|text| number(text, "y") == y);
            let words = said(words.expect("words"));
            let told = words.ends_with(&format!(": {}", name(letter)));
            assert_eq!(told, letter != 'J', "{name_of_list}: {line} {words}");
            used.insert(letter);
        }
        assert!(name_of_list != ALL || used == all());
        for (letter, ..) in LETTERS {
            let line = places(&picture, &format!("00{letter}"));
            let (x, y) = line
                .into_iter()
                .min_by(|a, b| a.1.total_cmp(&b.1))
                .expect("a sample");
            assert_eq!(place(&picture, &title(letter)), (x + 28.0, y), "{letter}");
        }
    }
}

#[test]
fn letters_are_on_the_page() {
    let list = list(ALL);
    let page = page(ALL, "some", &list, &engine::lines(&list), None).expect("a page");
    let (_, letters) = page
        .html
        .split_once("<details id=\"letters\">")
        .expect("letters");
    let (letters, _) = letters.split_once("</details>").expect("an end");
    let mut lines = letters.lines();
    assert_eq!(
        lines.next(),
        Some("<summary>What the letters mean</summary>")
    );
    for (letter, ..) in LETTERS {
        let line = lines.next().expect("a letter");
        let start = format!("<p><b>{letter}</b> {}: ", title(letter));
        assert!(line.starts_with(&start), "{line}");
    }
    assert_eq!(lines.next(), None);
}

/// What stands after a frame begins with the frame, its line, and the meaning of the letter.
#[test]
fn letters_stand_over_a_state() {
    for name in [ALL, "00-the-rule-books-sitting"] {
        let list = list(name);
        let lines = String::from_utf8(engine::lines(&list)).expect("text");
        for (at, line) in lines.lines().enumerate() {
            let text =
                state::after(&list, lines.as_bytes(), at + 1, &Places::default()).expect("a state");
            let mut text = text.lines();
            let head = text.next().expect("a frame");
            assert!(head.ends_with(&format!("  ->  {line}")), "{head}");
            let next = text.next().expect("a line");
            match letter(line) {
                None => assert!(!next.starts_with("Rule "), "{head}: {next}"),
                Some(letter) => {
                    let start = format!("Rule {letter} ({}): ", title(letter));
                    assert!(next.starts_with(&start), "{head}: {next}");
                }
            }
        }
    }
}

/// What can come next is told with the rule that it would fall under.
#[test]
fn letters_are_told_ahead() {
    let list = list(ALL);
    let frames: Vec<&[u8]> = list.split_inclusive(|&b| b == b'\n').collect();
    let lines = String::from_utf8(engine::lines(&list)).expect("text");
    let mut told = BTreeSet::new();
    for (at, line) in lines.lines().enumerate() {
        let digits = String::from_utf8_lossy(frames[at]);
        let digits = format!(" {}  ", digits.trim_end());
        let before = frames[..at].concat();
        let next = ahead::next(&before, &engine::lines(&before), None, &Places::default())
            .expect("what comes next");
        let Some((_, words)) = next.split_once(&digits) else {
            continue; // A job and a show are not told.
        };
        let letter = letter(line).expect("an accepted frame");
        let start = format!("Rule {letter}, {}: ", name(letter));
        let same = match letter {
            'J' => !words.starts_with("Rule "),
            _ => words.starts_with(&start),
        };
        assert!(same, "frame {}: {line} {words}", at + 1);
        told.insert(letter);
    }
    assert_eq!(told, all());
}
