//! The same output in other forms: as a table, as JSON, on standard output; where a frame stands in the list.

mod common;

use common::json::Json;
use common::run::{fed, fresh, run};
use common::{folder, list};
use explained::notation::digits;
use explained::version;
use reference::generator;
use reference::reader::answer_all;
use std::fs;

/// The frames of this stand on lines 2, 6, 7, 8 and 9.
const LIST: &str = "\
# a sitting
job 2 machines
chare 1 on 1 to 2
chare 2 on 2

inject 1 value 3 hops 1   # the desk
110100010001
work 1
crash 2
";

fn file(name: &str) -> String {
    folder().join(format!("{name}.in")).display().to_string()
}

/// What a run gives that says nothing on standard error.
fn out(args: &[&str], list: &[u8]) -> String {
    let (status, out, error) = fed(args, list);
    assert_eq!((status, error.as_str()), (0, ""), "{args:?}");
    out
}

fn lines(list: &[u8]) -> Vec<String> {
    let lines = String::from_utf8(answer_all(&digits(list).expect("a list"))).expect("digits");
    lines.lines().map(str::to_string).collect()
}

#[test]
fn the_version() {
    for args in [&["--version"][..], &["-V"], &["play", "--version"]] {
        let want = format!("satuphir {}\n", env!("CARGO_PKG_VERSION"));
        assert_eq!(run(args), (0, want, String::new()));
    }
    assert_eq!(version::engine(false), "proved engine");
    assert_eq!(version::engine(true), "second implementation");
}

#[test]
#[cfg_attr(not(library), ignore = "needs the engine's library")]
fn a_table() {
    let want = "\
frame  at line  words                    gives
    1        2  job 2 machines           00J
                chare 1 on 1 to 2
                chare 2 on 2
    2        6  inject 1 value 3 hops 1  00J
    3        7  deliver ASK 0>1 #1       00C
    4        8  work 1                   06
    5        9  crash 2                  00J
";
    assert_eq!(out(&["play", "--table", "-"], LIST.as_bytes()), want);
    // Where every frame stands on the line of its number there is no such column; long words are shortened.
    let list = format!("1201\n{}\n\u{1}\n", "7".repeat(100));
    let (status, table, _) = fed(&["play", "-", "--table"], list.as_bytes());
    let words = format!("raw {}…{}", "7".repeat(26), "7".repeat(29));
    let want = format!(
        "frame  {:<60}  gives\n    1  {:<60}  02\n    2  {words:<60}  01\n    3  {:<60}  01\n",
        "words", "work 1", "raw \\x01"
    );
    assert_eq!((status, table), (0, want));
    assert_eq!(
        out(&["play", "--table", &file("15-buddy-before")], b"")
            .lines()
            .count(),
        {
            // A line for the heads, and one for each chare.
            let list = list_of_words("15-buddy-before");
            1 + list.lines().count()
        }
    );
}

fn list_of_words(name: &str) -> String {
    explained::notation::decode(&list(name))
}

/// Every frame with its line, whatever the bytes of the list.
#[test]
#[cfg_attr(not(library), ignore = "needs the engine's library")]
fn play_as_json() {
    let text = out(&["play", "--json", "-"], LIST.as_bytes());
    let json = Json::read(&text);
    assert_eq!(json.get("version").text(), env!("CARGO_PKG_VERSION"));
    assert_eq!(json.get("engine").text(), "proved engine");
    // The same for a list in words and in digits.
    let hash = version::hash(&digits(LIST.as_bytes()).expect("a list"));
    assert_eq!(json.get("list").text(), hash);
    let frames = json.get("frames").items();
    let number = |name: &str| -> Vec<usize> {
        let frames = frames.iter();
        frames.map(|frame| frame.get(name).number()).collect()
    };
    assert_eq!(number("frame"), [1, 2, 3, 4, 5]);
    assert_eq!(number("at"), [2, 6, 7, 8, 9]);
    // The words are a list again.
    let words: Vec<&str> = frames.iter().map(|f| f.get("words").text()).collect();
    let given: Vec<&str> = frames.iter().map(|f| f.get("digits").text()).collect();
    let again = digits(words.join("\n").as_bytes()).expect("a list");
    assert_eq!(String::from_utf8_lossy(&again), given.join("\n") + "\n");
    for seed in 0..20 {
        let list = generator::list(seed, 60);
        let (status, text, _) = fed(&["play", "--json", "-"], &list);
        assert_eq!(status, 0);
        let json = Json::read(&text);
        let frames = json.get("frames").items();
        let played: Vec<&str> = frames.iter().map(|f| f.get("line").text()).collect();
        assert_eq!(played, lines(&list), "seed {seed}");
        let words: Vec<&str> = frames.iter().map(|f| f.get("words").text()).collect();
        let again = digits(words.join("\n").as_bytes()).expect("a list");
        assert_eq!(answer_all(&again), answer_all(&list), "seed {seed}");
    }
    let quick = fed(&["play", "--json", "-", "--quick"], LIST.as_bytes()).1;
    let engine = Json::read(&quick).get("engine").text().to_string();
    assert_eq!(engine, "second implementation");
    let empty = Json::read(&fed(&["play", "--json", "-"], b"").1);
    assert_eq!(empty.get("frames").items(), []);
}

/// The facts are those of the text, each with what the frame did to it.
#[test]
#[cfg_attr(not(library), ignore = "needs the engine's library")]
fn state_as_json() {
    for number in 0..=5 {
        let number = number.to_string();
        let text = out(&["state", &number, "-"], LIST.as_bytes());
        let json = out(&["state", &number, "-", "--json"], LIST.as_bytes());
        let json = Json::read(&json);
        assert_eq!(json.get("frame").number().to_string(), number);
        let mut told = String::new();
        for section in json.get("state").items() {
            told.push_str(&format!("\n{}\n", section.get("title").text()));
            let facts = section.get("facts").items();
            if facts.is_empty() {
                told.push_str("    nothing\n");
            }
            for fact in facts {
                let (sign, before) = match fact.get("change").text() {
                    "none" => (' ', String::new()),
                    "new" => ('*', String::new()),
                    "gone" => ('-', String::new()),
                    "other" => ('*', format!(" (before: {})", fact.get("before").text())),
                    other => panic!("{other}"),
                };
                told.push_str(&format!("  {sign} {}{before}\n", fact.get("text").text()));
            }
        }
        assert!(text.ends_with(&told), "{text}{told}");
    }
    let json = out(&["state", "3", "-", "--json"], LIST.as_bytes());
    let json = Json::read(&json);
    let (at, words) = (json.get("at").number(), json.get("words").text());
    assert_eq!((at, words), (7, "deliver ASK 0>1 #1"));
    assert_eq!(json.get("line").text(), "00C");
}

/// Each frame that is told would get the line that is told.
#[test]
#[cfg_attr(not(library), ignore = "needs the engine's library")]
fn next_as_json() {
    let mut tried = 0;
    for number in 0..=5 {
        let json = out(
            &["next", &number.to_string(), "-", "--json"],
            LIST.as_bytes(),
        );
        let json = Json::read(&json);
        assert_eq!(json.get("frame").number(), number);
        assert_eq!(json.get("at").number(), [0, 2, 6, 7, 8, 9][number]);
        assert_eq!(json.get("job"), &Json::Bool(number > 0));
        assert_eq!(json.get("lost_at"), &Json::Null);
        let Json::Object(groups) = json.get("next") else {
            panic!("no groups");
        };
        let head = digits(LIST.as_bytes()).expect("a list");
        let head: Vec<&[u8]> = head.split_inclusive(|&b| b == b'\n').take(number).collect();
        for frame in groups.iter().flat_map(|(_, tries)| tries.items()) {
            let given = frame.get("digits").text().as_bytes();
            let line = lines(&[&head.concat(), given].concat())
                .pop()
                .expect("a line");
            assert_eq!(frame.get("line").text(), line);
            let accepted = line.starts_with("00");
            assert_eq!(frame.get("accepted"), &Json::Bool(accepted));
            assert!(!frame.get("why").text().is_empty());
            tried += 1;
        }
    }
    assert!(tried > 30, "{tried}");
    let (_, json, _) = run(&["next", "--json", &file("00-the-rule-books-sitting")]);
    assert_eq!(Json::read(&json).get("lost_at").number(), 13);
}

/// A frame is told with its line in the list, where that is not its number.
#[test]
#[cfg_attr(not(library), ignore = "needs the engine's library")]
fn lines_of_the_list() {
    let text = out(&["explain", "-"], LIST.as_bytes());
    for head in [
        "   1 (line 2)  0102020000010200020000  job 2 machines; ",
        "   3 (line 7)  110100010001  deliver ASK 0>1 #1  ->  00C\n",
        "   5 (line 9)  1402  crash 2  ->  00J\n",
    ] {
        assert!(text.contains(head), "{text}");
    }
    let text = out(&["state", "4", "-"], LIST.as_bytes());
    assert!(
        text.starts_with("After frame 4 (line 8):  1201  work 1  ->  06\n"),
        "{text}"
    );
    let text = out(&["explain", "-"], &list("05-crash-with-cover"));
    assert!(!text.contains("(line "), "{text}");
}

/// `-` is standard output: the bytes that the file would have.
#[test]
#[cfg_attr(not(library), ignore = "needs the engine's library")]
fn to_standard_output() {
    let folder = fresh("to-standard-output");
    let list = file("05-crash-with-cover");
    for (task, name) in [("page", "out.html"), ("picture", "out.svg")] {
        let there = folder.join(name).display().to_string();
        assert_eq!(
            run(&[task, &list, &there]),
            (0, String::new(), String::new())
        );
        let written = fs::read_to_string(&there).expect("a file");
        assert!(
            run(&[task, &list, "-"]) == (0, written, String::new()),
            "{task}"
        );
    }
    // From one to the other.
    let page = out(&["page", "-", "-"], LIST.as_bytes());
    assert!(page.starts_with("<!DOCTYPE html>"));
    assert!(!folder.join("-").exists() && !std::path::Path::new("-").exists());
}

/// A name that is too long for a picture's title is shortened, with a sign.
#[test]
fn a_long_name_in_a_title() {
    let folder = fresh("long-name");
    let name = format!("the-first-sitting-{}-of-spring", "x".repeat(150));
    let list = folder.join(format!("{name}.in"));
    fs::copy(file("05-crash-with-cover"), &list).expect("a copy");
    let args = ["picture", &list.display().to_string(), "-", "--quick"].map(str::to_string);
    let (status, picture, _) = run(&args);
    assert_eq!(status, 0);
    let title = picture
        .lines()
        .find(|line| line.contains("class=\"title\""));
    let title = common::svg::said(title.expect("a title"));
    assert!(title.starts_with("the-first-sitting-xxx"), "{title}");
    assert!(
        title.contains("x…x") && title.ends_with("(not the proved engine's lines)"),
        "{title}"
    );
    // It fits, at two thirds of a letter's height for each.
    let head = picture.lines().next().expect("a head");
    let width = common::svg::number(head, "width");
    assert!(title.chars().count() as f64 * 12.0 < width, "{title}");
}
