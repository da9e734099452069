//! The handout and its keys.

mod common;

use common::made_by;
use common::run::{fed, fresh, run};
use common::{folder, list, names};
use explained::lines::cut;
use explained::{notation, version};
use reference::reader::answer_all;
use std::fs;

const LIST: &str = "# the author's comment
job 2 machines        # another
chare 1 on 1 to 2
chare 2 on 2
inject 1 value 3 hops 1
deliver ASK 0>1 #1
work 1                # too early: a giveaway
raw 12<G>
";

/// The file that a call writes, with this on its standard input.
fn written(name: &str, list: &[u8], more: &[&str]) -> String {
    let out = fresh(name).join("out.html");
    let out_name = out.display().to_string();
    let args: Vec<&str> = ["handout", "-", &out_name]
        .into_iter()
        .chain(more.iter().copied())
        .collect();
    let (status, said, error) = fed(&args, list);
    assert_eq!((status, said.as_str()), (0, ""), "{error}");
    // A list with garbled lines has a note.
    let noted = error.starts_with("satuphir: note: ") && error.lines().count() == 1;
    assert!(error.is_empty() || noted, "{error}");
    fs::read_to_string(out).expect("a handout")
}

/// The cells of each row: number, frame with its words, line.
fn rows(html: &str) -> Vec<[String; 3]> {
    let rows = html.split("<tr><td").skip(1);
    let cell = |cell: &str| {
        let (_, text) = cell.split_once('>').expect("a cell");
        text[..text.find("</td>").expect("an end")].to_string()
    };
    let row = |row: &str| row.split("<td").map(cell).collect::<Vec<_>>();
    rows.map(|text| row(text).try_into().expect("three cells"))
        .collect()
}

const FRAMES: [&str; 5] = [
    "<p>job 2 machines</p><p>chare 1 on 1 to 2</p><p>chare 2 on 2</p>",
    "<p>inject 1 value 3 hops 1</p>",
    "<p>deliver ASK 0&gt;1 #1</p>",
    "<p>work 1</p>",
    "<p>raw 12&lt;G&gt;</p>",
];

#[test]
fn the_handout_has_blanks() {
    let html = written("handout-blank", LIST.as_bytes(), &[]);
    let rows = rows(&html);
    let frames: Vec<&str> = rows.iter().map(|row| row[1].as_str()).collect();
    assert_eq!(frames[..5], FRAMES);
    // Each chare's end.
    assert_eq!(frames[5..], ["<p>show 1</p>", "<p>show 2</p>"]);
    let numbers: Vec<&str> = rows.iter().map(|row| row[0].as_str()).collect();
    assert_eq!(numbers, ["1", "2", "3", "4", "5", "", ""]);
    assert!(rows.iter().all(|row| row[2].is_empty()));
    assert_eq!(html.matches("<td class=\"blank\">").count(), 7);
    // Title, place for a name, paper; nothing of the author's, no line, nothing fetched.
    assert!(html.contains("<h1>standard input</h1>") && html.contains("<span>Name <i></i></span>"));
    assert!(html.contains("@page { size: A4 portrait;"));
    for word in [
        "comment", "another", "giveaway", "00C", "Refused", "src=", "href", "http",
    ] {
        assert!(!html.contains(word), "{word}");
    }
}

#[test]
#[cfg_attr(not(library), ignore = "needs the engine's library")]
fn the_key_has_the_lines() {
    let html = written("handout-key", LIST.as_bytes(), &["--key"]);
    let rows = rows(&html);
    let frames: Vec<&str> = rows.iter().map(|row| row[1].as_str()).collect();
    assert_eq!(frames[..5], FRAMES);
    let lines: Vec<&str> = rows.iter().map(|row| row[2].as_str()).collect();
    let want = ["00J", "00J", "00C", "06", "01"];
    assert_eq!(lines[..5], want);
    assert_eq!(lines[5..], ["00000000000001J", "00000000000002J"]);
    assert!(html.contains("<h1>standard input: key</h1>"));
    assert!(!html.contains("giveaway") && !html.contains("class=\"words\""));
}

#[test]
#[cfg_attr(not(library), ignore = "needs the engine's library")]
fn the_explained_key_has_the_words() {
    for more in [&["--explained"][..], &["--key", "--explained"]] {
        let html = written("handout-explained", LIST.as_bytes(), more);
        let rows = rows(&html);
        assert_eq!(rows[3][2], "06");
        assert_eq!(
            rows[3][1],
            "<p>work 1</p><p class=\"words\">Refused by question 6, &quot;is the next TN received and noted?&quot;: TN 1, 0→1 #1, is not received; GRANT 0→1 #1 is still on the wire.</p>"
        );
        assert!(rows[6][1].ends_with("<p class=\"words\">Show: chare 2 has worked nothing, height 0 (hex 0000); its state is 00000002.</p>"));
        assert!(html.contains("<h1>standard input: key, explained</h1>"));
    }
}

/// The lines of a key are the second implementation's for the list, and for a show of each chare after it.
#[test]
#[cfg_attr(not(library), ignore = "needs the engine's library")]
fn keys_of_the_examples() {
    for name in names() {
        let input = list(&name);
        let html = written("handout-examples", &input, &["--key"]);
        let rows = rows(&html);
        let mut shown = input.clone();
        if shown.last() != Some(&b'\n') {
            shown.push(b'\n');
        }
        for row in &rows[cut(&input).len()..] {
            let words = row[1].replace("<p>", "").replace("</p>", "");
            assert!(words.starts_with("show "), "{name}: {words}");
            shown.extend(notation::digits(format!("{words}\n").as_bytes()).expect("a show"));
        }
        let lines = answer_all(&shown);
        let lines = String::from_utf8(lines).expect("digits");
        let key: Vec<&str> = rows.iter().map(|row| row[2].as_str()).collect();
        assert_eq!(key, lines.lines().collect::<Vec<_>>(), "{name}");
    }
}

/// Handout and key belong together by the hash of the list, which is that of its digits.
#[test]
#[cfg_attr(not(library), ignore = "needs the engine's library")]
fn both_say_from_which_list() {
    let digits = notation::digits(LIST.as_bytes()).expect("a list");
    let hash = version::hash(&digits);
    for list in [LIST.as_bytes(), &digits] {
        let html = written("handout-hash", list, &[]);
        assert!(html.contains(&format!("satuphir {}, list {hash}.", version::VERSION)));
        assert!(!html.contains("Lines of the"));
        let html = written("handout-hash", list, &["--key"]);
        assert!(html.contains(&format!("<p class=\"made\">{}.</p>", made_by(&digits))));
    }
}

/// A list without an accepted job has no chare, and so no end.
#[test]
#[cfg_attr(not(library), ignore = "needs the engine's library")]
fn no_job_no_end() {
    for list in [&b"1601\n"[..], b""] {
        let out = fresh("handout-no-job").join("out.html");
        let args = ["handout", "-", &out.display().to_string(), "--key"];
        assert_eq!(fed(&args, list).0, 0);
        let html = fs::read_to_string(out).expect("a handout");
        assert!(!html.contains("After the last frame"));
    }
}

#[test]
fn bad_calls() {
    let list = folder().join("05-crash-with-cover.in");
    let list = list.display().to_string();
    for (args, words) in [
        (&["handout"][..], "handout needs a list"),
        (
            &["handout", &list],
            "handout needs a file to write, such as out.html",
        ),
        (
            &["handout", &list, "/dev/null", "more"],
            "\"more\" is too much",
        ),
        (
            &["play", &list, "--key"],
            "--key and --explained go with handout alone",
        ),
        (
            &["page", &list, "/dev/null", "--explained"],
            "--key and --explained go with handout alone",
        ),
        (
            &["handout", &list, "/dev/null", "--pages"],
            "--pages goes with picture alone",
        ),
        (&["handout", &list, &list], "is the list itself"),
        (
            &["handout", &list, "/nowhere/out.html"],
            "/nowhere/out.html: ",
        ),
        (
            &["handout", "/nowhere/list", "/dev/null"],
            "/nowhere/list: ",
        ),
    ] {
        let (status, out, error) = run(args);
        assert_eq!((status, out.as_str()), (2, ""), "{args:?}");
        assert!(
            error.starts_with("satuphir: ") && error.contains(words),
            "{args:?}: {error}"
        );
    }
}
