//! Every subcommand as a person runs it. The lines that are expected come from the second implementation.

mod common;

use common::run::{fed, fresh, run};
use common::{explained, folder, list, made_by, written};
use explained::notation::decode;
use reference::reader::answer_all;
use std::fs;
use std::path::PathBuf;

const NAME: &str = "05-crash-with-cover";

/// The rule book's sitting in words.
const WORDS: &str = "\
# my sitting
job 2 machines, buddies 2 1
chare 1 on 1 to 2
chare 2 on 2

inject 1 value 3 hops 1
deliver ASK 0>1 #1
deliver GRANT 0>1 #1
deliver DATA 0>1 #1      # it has TN 1
work 1
crash 1
show 1
";

fn file(name: &str) -> String {
    folder().join(format!("{name}.in")).display().to_string()
}

fn lines(list: &[u8]) -> String {
    String::from_utf8(answer_all(list)).expect("digits")
}

fn said_nothing(error: &str) {
    assert_eq!(error, "");
}

#[test]
fn help_is_on_standard_output() {
    for args in [&["--help"][..], &["-h"], &["help"], &["play", "--help"]] {
        let (status, out, error) = run(args);
        assert_eq!(status, 0);
        for name in [
            "play",
            "explain",
            "picture",
            "page",
            "state",
            "next",
            "survivors",
            "before",
            "encode",
            "decode",
        ] {
            assert!(out.contains(&format!("tools/satuphir {name} ")), "{out}");
        }
        said_nothing(&error);
    }
}

#[test]
#[cfg_attr(not(library), ignore = "needs the engine's library")]
fn play_gives_the_lines() {
    for name in common::names() {
        let (status, out, _) = run(&["play", &file(&name)]);
        assert_eq!((status, out), (0, lines(&list(&name))), "{name}");
    }
}

#[test]
#[cfg_attr(not(library), ignore = "needs the engine's library")]
fn every_subcommand_takes_words_and_digits() {
    let digits = "0102020201010200020000\n1001000301\n110100010001\n110200010001\n110300010001\n1201\n1401\n1601\n";
    for args in [
        &["play", "-"][..],
        &["next", "-"],
        &["survivors", "-"],
        &["before", "-"],
        &["encode", "-"],
        &["decode", "-"],
    ] {
        let (in_words, in_digits) = (fed(args, WORDS.as_bytes()), fed(args, digits.as_bytes()));
        assert_eq!(in_words, in_digits, "{args:?}");
        assert_eq!(in_words.0, 0);
        said_nothing(&in_words.2);
    }
    // Of words the line in the list is told too.
    for args in [&["explain", "-"][..], &["state", "6", "-"]] {
        let (status, out, error) = fed(args, WORDS.as_bytes());
        let mut told = String::new();
        for (at, part) in out.split(" (line ").enumerate() {
            told.push_str(if at == 0 {
                part
            } else {
                &part[part.find(')').expect("an end") + 1..]
            });
        }
        let want = fed(args, digits.as_bytes());
        assert_eq!((status, told, error), want, "{args:?}");
    }
    let (_, out, _) = fed(&["play", "-"], WORDS.as_bytes());
    assert_eq!(out, "00J\n00J\n00C\n00G\n00H\n00J\n00J\n05\n");
    let (_, out, _) = fed(&["encode", "-"], WORDS.as_bytes());
    assert_eq!(out, digits);
    let (_, out, _) = fed(&["decode", "-"], digits.as_bytes());
    assert_eq!(out, decode(digits.as_bytes()));
    // Either form of a list gives the same picture and the same page.
    let folder = fresh("either-form");
    for (task, end) in [("picture", "svg"), ("page", "html")] {
        let made = [("a", WORDS), ("b", digits)].map(|(name, list)| {
            let out = folder.join(format!("{name}.{end}"));
            let (status, said, error) =
                fed(&[task, "-", &out.display().to_string()], list.as_bytes());
            assert_eq!((status, said.as_str(), error.as_str()), (0, "", ""));
            fs::read_to_string(out).expect("a file")
        });
        assert!(made[0] == made[1], "{task}");
    }
}

#[test]
#[cfg_attr(not(library), ignore = "needs the engine's library")]
fn explain_gives_words() {
    let (status, out, error) = run(&["explain", &file(NAME)]);
    assert_eq!((status, out), (0, explained(&list(NAME)).text));
    said_nothing(&error);
}

#[test]
#[cfg_attr(not(library), ignore = "needs the engine's library")]
fn explain_gives_a_picture_too() {
    let out = fresh("explain-picture").join("out.svg");
    let out = out.to_str().expect("a name");
    let (status, said, error) = run(&["explain", "--picture", out, &file(NAME)]);
    let report = explained(&list(NAME));
    assert_eq!((status, said), (0, report.text));
    said_nothing(&error);
    assert!(fs::read_to_string(out).expect("a picture") == written(NAME, &list(NAME)));
}

/// Options may stand after the list, and before the subcommand.
#[test]
#[cfg_attr(not(library), ignore = "needs the engine's library")]
fn options_stand_anywhere() {
    let out = fresh("options").join("out.svg");
    let out = out.to_str().expect("a name");
    let list = file(NAME);
    let made = |args: &[&str]| {
        let _ = fs::remove_file(out);
        (run(args), fs::read_to_string(out).ok())
    };
    let first = made(&["explain", "--picture", out, &list]);
    assert!(first.1.is_some());
    assert_eq!(made(&["explain", &list, "--picture", out]), first);
    assert_eq!(made(&["--picture", out, "explain", &list]), first);
}

#[test]
#[cfg_attr(not(library), ignore = "needs the engine's library")]
fn picture_and_its_pages() {
    let folder = fresh("pictures");
    let at = |name: &str| folder.join(name);
    let name = "11-full-window";
    let args = |more: &[&str]| {
        let out = at("out.svg").display().to_string();
        let args = ["picture".to_string(), file(name), out];
        args.into_iter()
            .chain(more.iter().map(|word| word.to_string()))
            .collect::<Vec<_>>()
    };
    let (status, out, error) = run(&args(&[]));
    assert_eq!((status, out.as_str(), error.as_str()), (0, "", ""));
    assert!(fs::read_to_string(at("out.svg")).expect("a picture") == written(name, &list(name)));
    assert_eq!(run(&args(&["--pages"])).0, 0);
    let there: Vec<PathBuf> = (1..=3).map(|n| at(&format!("out-{n}.svg"))).collect();
    assert!(there.iter().all(|file| file.is_file()) && !at("out-4.svg").exists());
    // Each says what made it; beside them is one file with all, to print.
    let says = |file: &PathBuf| {
        fs::read_to_string(file)
            .expect("a sheet")
            .contains(&made_by(&list(name)))
    };
    assert!(there.iter().all(says));
    let all = fs::read_to_string(at("out-print.html")).expect("a file to print");
    assert_eq!(all.matches("<div class=\"sheet\">").count(), 3);
    assert!(all.contains("@page { size: A4 landscape;"));
}

#[test]
#[cfg_attr(not(library), ignore = "needs the engine's library")]
fn state_shows_all_that_stands() {
    let (status, out, error) = fed(&["state", "6", "-"], WORDS.as_bytes());
    assert_eq!(status, 0);
    said_nothing(&error);
    for want in [
        "After frame 6 (line 10):  1201  work 1  ->  00J\nRule J (any other accepted frame): ",
        "    machine 1: up\n",
        "  * height 1, state 00000023 (before: height 0, state 00000001)\n",
        "  * worked of the desk: mark 1, window empty\n",
        "  * log, 1→2 #1 (value 35 (hex 0023), hops 0): no TN yet\n",
        "    copy of chare 1: height 0, state 00000001\n",
        "  * 110101020001  ASK 1→2 #1 from machine 1 to machine 2\n",
    ] {
        assert!(out.contains(want), "nowhere: {want}{out}");
    }
    let (_, out, _) = fed(&["state", "7", "-"], WORDS.as_bytes());
    for want in [
        "  * machine 1: DOWN (before: machine 1: up)\n",
        "  * nothing: machine 1 is down\n  - height 1, state 00000023\n",
        "  * NO copy: a crash of it would have no cover (before: a copy of it)\n",
    ] {
        assert!(out.contains(want), "nowhere: {want}{out}");
    }
    let (_, out, _) = fed(&["state", "8", "-"], WORDS.as_bytes());
    assert!(out.contains("It changed nothing.\n"), "{out}");
    let (_, out, _) = fed(&["state", "0", "-"], WORDS.as_bytes());
    assert!(
        out.contains("Before the first frame\n") && out.contains("    no job is set\n"),
        "{out}"
    );
}

/// Holes, notes, windows and the TN to reach.
#[test]
#[cfg_attr(not(library), ignore = "needs the engine's library")]
fn state_shows_what_is_rarer() {
    for (name, frame, want) in [
        ("08-holes", "17", "  * hole: TN 3\n"),
        ("08-holes", "17", "  * 110300010002  DATA 0→1 #2 (value 2 (hex 0002), hops 0) from the desk to machine 1\n"),
        (
            "08-holes",
            "17",
            "  * machine 1: catching up: chare 1 must work on to TN 2 (height 1)",
        ),
        (
            "08-holes",
            "17",
            "  * machine 1: chare 1 has to reach TN 2\n",
        ),
        ("04-checkpoint", "7", "  * note: 1→2 #1 has TN 1\n"),
        (
            "11-full-window",
            "7",
            "  * worked of the desk: mark 0, window: SN 2 worked too\n",
        ),
        (
            "11-full-window",
            "681",
            "  * worked of the desk: mark 0, window: SN 2 to 128 worked too (before: ",
        ),
        (
            "11-full-window",
            "685",
            "  * worked of the desk: mark 128, window empty (before: ",
        ),
        (
            "09-catching-up",
            "25",
            "catching up: 1→2 #1 and 1→2 #2 in its logs have no TN",
        ),
        (
            "17-mistyped-value",
            "5",
            "  * last SN to chare 1: 1 (before: last SN to chare 1: 2)\n",
        ),
        (
            "17-mistyped-value",
            "5",
            "  - log, 0→1 #2 (value 40 (hex 0028), hops 0): no TN yet\n",
        ),
        (
            "17-mistyped-value",
            "5",
            "  - 110100010002  ASK 0→1 #2 from the desk to machine 1\n",
        ),
    ] {
        let (_, out, _) = run(&["state", frame, &file(name)]);
        assert!(out.contains(want), "nowhere: {want}{out}");
    }
}

#[test]
#[cfg_attr(not(library), ignore = "needs the engine's library")]
fn page_is_written() {
    let out = fresh("page").join("out.html");
    let (status, said, error) = run(&["page", &file(NAME), out.to_str().expect("a name")]);
    assert_eq!((status, said.as_str(), error.as_str()), (0, "", ""));
    let page = fs::read_to_string(out).expect("a page");
    assert!(page.starts_with("<!DOCTYPE html>"));
    // On the screen and on paper.
    assert!(page.matches(&made_by(&list(NAME))).count() >= 2);
}

/// Every run with `--quick` says that its lines are not the proved engine's.
#[test]
#[cfg_attr(not(library), ignore = "needs the engine's library")]
fn quick_says_so() {
    let folder = fresh("quick");
    let list_file = file(NAME);
    let [svg, html, key] =
        ["q.svg", "q.html", "key.html"].map(|name| folder.join(name).display().to_string());
    for args in [
        &["play", &list_file][..],
        &["explain", &list_file],
        &["picture", &list_file, &svg],
        &["page", &list_file, &html],
        &["handout", &list_file, &key, "--key"],
        &["state", "3", &list_file],
        &["next", &list_file],
        &["survivors", &list_file],
        &["before", &list_file],
        &["before", &list_file, "1:1", "2:1"],
    ] {
        let quick: Vec<&str> = args.iter().copied().chain(["--quick"]).collect();
        let (status, out, error) = run(&quick);
        assert_eq!(status, 0, "{args:?}");
        assert_eq!(
            error,
            "satuphir: --quick: the lines are the second implementation's, not the proved engine's\n"
        );
        assert_eq!(out, run(args).1, "{args:?}");
        // What is written says so too; the run without `--quick` has just written over it.
        run(&quick);
    }
    for made in [svg, html, key] {
        let made = fs::read_to_string(made).expect("a file");
        assert!(made.contains("05-crash-with-cover (not the proved engine's lines)"));
    }
}
