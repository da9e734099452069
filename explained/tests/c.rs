//! The header and the examples for callers in C, compiled without a warning and run over every example list.

mod common;

use common::c::{compiled, example};
use common::run::fresh;
use common::{folder, list, names};
use reference::survivors::answer;
use std::fs::{self, File};
use std::path::Path;
use std::process::{Command, Stdio};

#[test]
#[cfg_attr(not(library), ignore = "needs the engine's library")]
fn the_example_in_c_gives_the_lines() {
    let program = compiled(&example("play.c"));
    let file = |name: &str, end: &str| folder().join(format!("{name}.{end}"));
    for name in names() {
        let list = File::open(file(&name, "in")).expect("a list");
        let output = Command::new(&program).stdin(list).output().expect("a run");
        assert_eq!(output.status.code(), Some(0));
        assert!(
            output.stdout == fs::read(file(&name, "out")).expect("lines"),
            "{name}"
        );
    }
    notices_what_cannot_be_read_or_written(&program);
}

fn notices_what_cannot_be_read_or_written(program: &Path) {
    let directory = File::open(folder()).expect("a folder");
    let status = Command::new(program)
        .stdin(directory)
        .stderr(Stdio::null())
        .status();
    assert_eq!(status.expect("a run").code(), Some(2));
    let list = File::open(folder().join("01-plain-delivery.in")).expect("a list");
    let full = File::options()
        .write(true)
        .open("/dev/full")
        .expect("a full disk");
    let status = Command::new(program)
        .stdin(list)
        .stdout(full)
        .stderr(Stdio::null())
        .status();
    assert_eq!(status.expect("a run").code(), Some(2));
}

/// The lines of a program for what stands in a file.
fn given(program: &Path, input: &[u8]) -> Vec<u8> {
    let file = program.with_extension("in");
    fs::write(&file, input).expect("a list");
    let input = File::open(file).expect("a list");
    let output = Command::new(program).stdin(input).output().expect("a run");
    assert_eq!(output.status.code(), Some(0));
    output.stdout
}

#[test]
#[cfg_attr(not(library), ignore = "needs the engine's library")]
fn the_example_in_c_counts_crash_sets() {
    let program = compiled(&example("survivors.c"));
    for name in names() {
        let list = list(&name);
        assert_eq!(given(&program, &list), answer(&list), "{name}");
    }
    // What it does not read changes nothing: the longest frame has 2,046 digits, out of range here, and a longer line is garbled.
    let longest = [&b"01FFFF"[..], &[b'0'; 2040]].concat();
    for (input, lines) in [
        (b"".to_vec(), &b""[..]),
        (b"\n".to_vec(), b"01\n"),
        (longest.clone(), b"03\n"),
        ([&longest[..], b"\n01"].concat(), b"03\n"),
        ([&longest[..], b"0"].concat(), b"01\n"),
        ([&longest[..], b"00"].concat(), b"01\n"),
        ([&longest[..], b"0000\n"].concat(), b"01\n"),
    ] {
        assert_eq!(given(&program, &input), lines, "{} bytes", input.len());
        assert_eq!(answer(&input), lines, "{} bytes", input.len());
    }
    notices_what_cannot_be_read_or_written(&program);
}

/// With one byte less than the header asks for nothing is written, not even for a job of two machines.
#[test]
#[cfg_attr(not(library), ignore = "needs the engine's library")]
fn too_little_room_for_the_counts() {
    let source = fresh("c-source").join("room.c");
    fs::write(&source, ROOM).expect("a source");
    let output = Command::new(compiled(&source)).output().expect("a run");
    let lines = String::from_utf8_lossy(&output.stdout);
    let untouched = ".".repeat(48);
    assert_eq!(lines, format!("no room\n{untouched}\n1 2 2\n2 1 0\n"));
}

const ROOM: &str = r#"
#include "satuphir.h"
#include <stdio.h>
#include <string.h>

int main(void) {
  const char *job = "0102020201010200020000";
  unsigned char out[SATUPHIR_SURVIVORS_SPACE];
  memset(out, '.', sizeof out);
  size_t written = satuphir_survivors((const unsigned char *)job, strlen(job), out, sizeof out - 1);
  puts(written == SATUPHIR_NO_ROOM ? "no room" : "room");
  fwrite(out, 1, sizeof out, stdout);
  puts("");
  written = satuphir_survivors((const unsigned char *)job, strlen(job), out, sizeof out);
  fwrite(out, 1, written, stdout);
  return 0;
}
"#;
