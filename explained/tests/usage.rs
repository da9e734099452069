//! What cannot be done: each with its message, status 2, and nothing on standard output.

mod common;

use common::folder;
use common::run::{fed, fresh, result, run, satuphir, with_list};
use std::ffi::OsStr;
use std::fs::{self, File};
use std::path::Path;

const HINT: &str = "satuphir: `tools/satuphir --help` says how it is called\n";

fn example() -> String {
    folder().join("01-plain-delivery.in").display().to_string()
}

#[test]
#[cfg_attr(not(library), ignore = "needs the engine's library")]
fn bad_calls() {
    let list = example();
    for (args, message) in [
        (&[][..], "nothing to do: no subcommand was given"),
        (&["ply", &list], "there is no subcommand \"ply\""),
        (
            &["play"],
            "play needs a list (a file, or - for standard input)",
        ),
        (&["play", &list, "more"], "\"more\" is too much"),
        (&["play", "--slow", &list], "there is no option \"--slow\""),
        (&["play", &list, "-q"], "there is no option \"-q\""),
        (
            &["picture", &list],
            "picture needs a file to write, such as out.svg",
        ),
        (
            &["page", &list],
            "page needs a file to write, such as out.html",
        ),
        (
            &["state", "six", &list],
            "\"six\" is no number of a frame: state N LIST, N from 0",
        ),
        (&["state"], "state needs the number of a frame, and a list"),
        (
            &["next"],
            "next needs a list (a file, or - for standard input)",
        ),
        (
            &["next", "six", &list],
            "\"six\" is no number of a frame: next N LIST, N from 0",
        ),
        (
            &["next", "-1", &list],
            "there is no option \"-1\"",
        ),
        (
            &["next", "99", &list],
            "there is no frame 99: the list has 14 frames",
        ),
        (&["next", "6", &list, "more"], "\"more\" is too much"),
        (&["explain", &list, "--table"], "--table goes with play alone"),
        (
            &["explain", &list, "--json"],
            "--json goes with play, state and next alone",
        ),
        (
            &["play", &list, "--json", "--table"],
            "--table and --json do not go together",
        ),
        (
            &["explain", &list, "--picture", "-"],
            "--picture needs a file: the words go to standard output",
        ),
        (
            &["picture", &list, "-", "--pages"],
            "--pages needs a file: it writes several, and - is one",
        ),
        (
            &["variants", &list, "2", "--out", "-"],
            "--out needs a file or a folder: without it lists are printed",
        ),
        (
            &["picture", &list, "x.png"],
            "a picture is written as SVG, not as PNG: x.svg would do (a browser opens and prints it)",
        ),
        (
            &["explain", &list, "--picture", "a/b.v2.PDF"],
            "a picture is written as SVG, not as PDF: a/b.v2.svg would do (a browser opens and prints it)",
        ),
        (
            &["page", &list, "x.svg"],
            "a page is written as HTML, not as SVG: x.html would do (a browser opens and prints it)",
        ),
        (
            &["state", "6"],
            "state needs a list (a file, or - for standard input)",
        ),
        (
            &["state", "99", &list],
            "there is no frame 99: the list has 14 frames",
        ),
        (
            &["explain", &list, "--picture"],
            "--picture needs a file to write",
        ),
        (
            &["play", &list, "--picture", "x.svg"],
            "--picture goes with explain alone",
        ),
        (
            &["explain", &list, "--pages"],
            "--pages goes with picture alone",
        ),
        (
            &["survivors"],
            "survivors needs a list (a file, or - for standard input)",
        ),
        (&["survivors", &list, "3"], "\"3\" is too much"),
        (
            &["survivors", &list, "--picture", "x.svg"],
            "--picture goes with explain alone",
        ),
        (
            &["survivors", &list, "--pages"],
            "--pages goes with picture alone",
        ),
        (
            &["before"],
            "before needs a list (a file, or - for standard input)",
        ),
        (
            &["before", &list, "1:1"],
            "\"1:1\" stands alone: before LIST A B asks whether A came before B",
        ),
        (
            &["before", &list, "1:1", "2:1", "2:2"],
            "\"2:2\" stands alone: before LIST A B asks whether A came before B",
        ),
        (
            &["before", &list, "--picture", "x.svg"],
            "--picture goes with explain alone",
        ),
        (
            &["before", &list, "--pages"],
            "--pages goes with picture alone",
        ),
    ] {
        let (status, out, error) = run(args);
        assert_eq!((status, out.as_str()), (2, ""), "{args:?}");
        assert_eq!(error, format!("satuphir: {message}\n{HINT}"), "{args:?}");
    }
}

/// A processing is called by two decimal numbers, and nothing else.
#[test]
#[cfg_attr(not(library), ignore = "needs the engine's library")]
fn names_of_processings() {
    let list = example();
    for name in [
        "1", "1:", ":1", ":", "1:1:1", "1.1", "1-1", "a:1", "1:b", "+1:1", "1:+1", "0x1:1", " 1:1",
        "1:1 ", "256:1", "1:65536", "-1:1", "1:-1", "",
    ] {
        let message = match name.strip_prefix('-') {
            Some(_) => format!("there is no option \"{name}\""),
            None => format!(
                "\"{name}\" is no processing: it is called CHARE:TN, such as 3:2, up to 255:65535"
            ),
        };
        for pair in [[name, "1:1"], ["1:1", name]] {
            let (status, out, error) = run(&["before", &list, pair[0], pair[1]]);
            assert_eq!((status, out.as_str()), (2, ""), "{name}");
            assert_eq!(error, format!("satuphir: {message}\n{HINT}"), "{name}");
        }
    }
    // Numbers that fit are asked for, whatever they are.
    let (status, out, error) = run(&["before", &list, "255:65535", "0:0"]);
    assert_eq!((status, error.as_str()), (0, ""));
    assert!(out.starts_with("255:65535 before 0:0: unknown. "), "{out}");
}

#[test]
fn lists_that_cannot_be_read() {
    let folder = fresh("unread");
    for (name, reason) in [
        ("missing", "No such file or directory (os error 2)"),
        (".", "Is a directory (os error 21)"),
    ] {
        let list = folder.join(name);
        for args in with_list(list.as_os_str()) {
            let (status, out, error) = run(&args);
            assert_eq!((status, out.as_str()), (2, ""), "{args:?}");
            assert_eq!(error, format!("satuphir: {}: {reason}\n", list.display()));
        }
    }
}

/// A disk that is full is noticed, on standard output and in a file.
#[test]
#[cfg_attr(not(library), ignore = "needs the engine's library")]
fn a_full_disk() {
    let (list, full) = (example(), "/dev/full");
    let word = "No space left on device (os error 28)\n";
    for task in [
        &["play"][..],
        &["explain"],
        &["state", "3"],
        &["next"],
        &["next", "3"],
        &["play", "--table"],
        &["play", "--json"],
        &["survivors"],
        &["before"],
        &["encode"],
        &["decode"],
        &["--help"],
        &["--version"],
    ] {
        let args = task.iter().copied().chain([list.as_str()]);
        let disk = File::options().write(true).open(full).expect("a full disk");
        let output = satuphir().args(args).stdout(disk).output();
        let (status, _, error) = result(output.expect("a run"));
        assert_eq!(
            (status, error),
            (2, format!("satuphir: standard output: {word}")),
            "{task:?}"
        );
    }
    for task in ["picture", "page"] {
        let (status, _, error) = run(&[task, &list, full]);
        assert_eq!(
            (status, error),
            (2, format!("satuphir: {full}: {word}")),
            "{task}"
        );
    }
}

#[test]
fn a_folder_that_is_not_there() {
    for task in ["picture", "page"] {
        let (status, out, error) = run(&[task, &example(), "/nowhere/out"]);
        assert_eq!((status, out.as_str()), (2, ""));
        assert_eq!(
            error,
            "satuphir: /nowhere/out: No such file or directory (os error 2)\n"
        );
    }
}

/// The list is not written over by what is made from it, by whatever name.
#[test]
fn a_result_onto_its_own_list() {
    let folder = fresh("onto");
    let (list, other) = (folder.join("list.in"), folder.join("link.in"));
    fs::copy(example(), &list).expect("a copy");
    fs::hard_link(&list, &other).expect("a link");
    let before = fs::read(&list).expect("a list");
    let word = OsStr::new;
    for out in [&list, &other] {
        let (list, out) = (list.as_os_str(), out.as_os_str());
        for args in [
            &[word("explain"), word("--picture"), out, list][..],
            &[word("picture"), list, out],
            &[word("page"), list, out],
        ] {
            let (status, _, error) = run(args);
            let message = format!(
                "satuphir: {} is the list itself, and would be written over\n{HINT}",
                Path::new(out).display()
            );
            assert_eq!((status, error), (2, message));
            assert!(fs::read(list).expect("a list") == before);
        }
    }
}

#[test]
fn a_mistake_in_words() {
    let folder = fresh("mistake");
    let list = folder.join("list.txt");
    fs::write(&list, "job 2 machines\nchare 1 on 1\nwork x\n").expect("a list");
    for args in with_list(list.as_os_str()) {
        let (status, out, error) = run(&args);
        assert_eq!((status, out.as_str()), (2, ""), "{args:?}");
        let message = "line 3, column 6: expected a chare, from 0 to 255, found \"x\"";
        assert_eq!(error, format!("satuphir: {}, {message}\n", list.display()));
    }
}

#[test]
#[cfg_attr(not(library), ignore = "needs the engine's library")]
fn a_list_too_long_to_draw() {
    let list = reference::generator::list(107, 5000);
    let longer = b"1201\n".repeat(5001);
    for (list, task, message) in [
        (&list, "picture", "too long to draw: 5000 frames, "),
        (
            &longer,
            "picture",
            "too long to draw: 5001 frames, and a picture has at most 5000\n",
        ),
        (
            &list,
            "page",
            "too long for a page: 5000 frames, and a page has at most 1000\n",
        ),
    ] {
        let (status, out, error) = fed(&[task, "-", "/dev/null"], list);
        assert_eq!((status, out.as_str()), (2, ""), "{task}");
        // A random list may have its note first.
        let message = format!("satuphir: standard input: {message}");
        let last = error.lines().last().map(|line| line.to_string() + "\n");
        assert!(
            last.is_some_and(|last| last.starts_with(&message)),
            "{error}"
        );
    }
}
