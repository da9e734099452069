//! An input that cannot be read, a pipe that is closed, names of any bytes.

mod common;

use common::folder;
use common::run::{fresh, result, run, satuphir};
use std::ffi::OsStr;
use std::fs::{self, File};
use std::os::unix::ffi::OsStrExt;
use std::path::Path;

const HINT: &str = "satuphir: `tools/satuphir --help` says how it is called\n";

fn example() -> String {
    folder().join("01-plain-delivery.in").display().to_string()
}

/// A directory on standard input is no empty list.
#[test]
fn an_input_that_cannot_be_read() {
    let input = File::open(fresh("input")).expect("a folder");
    let output = satuphir().args(["play", "-"]).stdin(input).output();
    let (status, out, error) = result(output.expect("a run"));
    assert_eq!((status, out.as_str()), (2, ""));
    assert_eq!(
        error,
        "satuphir: standard input: Is a directory (os error 21)\n"
    );
}

#[test]
#[cfg_attr(not(library), ignore = "needs the engine's library")]
fn names_that_are_not_utf_8() {
    let folder = fresh("names");
    let [list, svg, html] = [&b"\xFFlist.in"[..], b"\xFE.svg", b"\xFE.html"]
        .map(|name| folder.join(OsStr::from_bytes(name)));
    let [list, svg, html] = [&list, &svg, &html].map(|path| path.as_os_str());
    let word = OsStr::new;
    fs::copy(example(), list).expect("a copy");
    for args in [
        &[word("explain"), word("--picture"), svg, list][..],
        &[word("play"), list],
        &[word("picture"), list, svg],
        &[word("page"), list, html],
    ] {
        for out in [svg, html] {
            let _ = fs::remove_file(out);
        }
        let (status, _, error) = run(args);
        assert_eq!((status, error.as_str()), (0, ""), "{args:?}");
        for out in [svg, html] {
            assert_eq!(Path::new(out).is_file(), args.contains(&out), "{args:?}");
        }
    }
    fs::remove_file(list).expect("a list");
    let missing = format!(
        "satuphir: {}: No such file or directory (os error 2)\n",
        list.to_string_lossy()
    );
    let (status, out, error) = run(&[word("explain"), list]);
    assert_eq!((status, out.as_str(), error), (2, "", missing));
    let (status, _, error) = run(&[OsStr::from_bytes(b"\xFF")]);
    assert_eq!(
        (status, error),
        (
            2,
            format!("satuphir: there is no subcommand \"\u{FFFD}\"\n{HINT}")
        )
    );
}

/// A reader that has seen enough is no error.
#[test]
#[cfg_attr(not(library), ignore = "needs the engine's library")]
fn a_closed_pipe() {
    let list = "1201\n".repeat(200_000);
    let folder = fresh("pipe");
    fs::write(folder.join("list"), list).expect("a list");
    let command = format!(
        "{} play list | head -n 1; echo ${{PIPESTATUS[0]}}",
        env!("CARGO_BIN_EXE_satuphir")
    );
    let output = std::process::Command::new("bash")
        .args(["-c", &command])
        .current_dir(folder)
        .output();
    let (_, out, error) = result(output.expect("a run"));
    assert_eq!((out.as_str(), error.as_str()), ("02\n0\n", ""));
}
