//! What came before what for callers in C: the example over the rows of every example list and over bad ones, and the bytes of a record.

mod common;

use common::c::{compiled, example};
use common::run::{fresh, result};
use common::told::records;
use common::{folder, list, names};
use reference::precedes::{Answer, Chains, Name, Processing};
use std::fs::{self, File};
use std::mem::{offset_of, size_of};
use std::path::Path;
use std::process::{Command, Stdio};

/// A row as the example reads it.
fn in_decimal(row: &[Processing]) -> String {
    let line = |p: &Processing| format!("{} {} {} {}\n", p.chare, p.tn, p.sender, p.sender_tn);
    row.iter().map(line).collect()
}

/// What the example says of a row on its standard input.
fn of_row(program: &Path, row: &str, pairs: &[String]) -> (i32, String, String) {
    let file = program.with_extension("row");
    fs::write(&file, row).expect("a row");
    let row = File::open(file).expect("a row");
    let run = Command::new(program).args(pairs).stdin(row).output();
    result(run.expect("a run"))
}

/// Every pair of these names, as the example and as the second implementation has it.
fn check_pairs(program: &Path, row: &[Processing], names: &[Name]) {
    let chains = Chains::of(row);
    let (mut pairs, mut lines) = (Vec::new(), String::new());
    for &first in names {
        for &later in names {
            let [one, two] = [first, later].map(|(chare, tn)| format!("{chare}:{tn}"));
            let word = match chains.answer(first, later) {
                Answer::Yes => "yes".to_string(),
                Answer::No => "no".to_string(),
                Answer::Unknown => "unknown".to_string(),
                Answer::Bad(place) => format!("bad at place {place}"),
            };
            lines.push_str(&format!("{one} before {two}: {word}\n"));
            pairs.extend([one, two]);
        }
    }
    let found = of_row(program, &in_decimal(row), &pairs);
    assert_eq!(found, (0, lines, String::new()));
}

#[test]
#[cfg_attr(not(library), ignore = "needs the engine's library")]
fn the_example_in_c_says_what_came_before() {
    let program = compiled(&example("precedes.c"));
    for name in names() {
        let row = records(&list(&name));
        let mut names: Vec<Name> = row.iter().map(Processing::name).collect();
        names.extend([(0, 0), (1, 0), (12, 65535), (255, 1)]);
        check_pairs(&program, &row, &names);
    }
    // One processing after another of chare 1, each of the desk's message, then each of the one before.
    let chain = |count: u16, sender: u8| -> Vec<Processing> {
        let sender_tn = |tn| if sender == 0 { 0 } else { tn - 1 };
        let record = |tn| Processing {
            chare: 1,
            tn,
            sender: if tn == 1 { 0 } else { sender },
            sender_tn: sender_tn(tn),
        };
        (1..=count).map(record).collect()
    };
    let names = [(1, 1), (1, 2), (1, 512), (1, 513), (2, 1)];
    for count in [511, 512, 513, 600] {
        check_pairs(&program, &chain(count, 0), &names);
        check_pairs(&program, &chain(count, 1), &names);
    }
    // Each way in which a record is bad.
    for (chare, tn, sender, sender_tn) in [
        (0, 1, 0, 0),
        (13, 1, 0, 0),
        (2, 1, 13, 1),
        (2, 1, 1, 4),
        (2, 1, 1, 0),
        (2, 1, 2, 1),
        (2, 1, 0, 1),
        (2, 2, 0, 0),
        (1, 3, 0, 0),
        (1, 5, 0, 0),
    ] {
        let mut row = chain(3, 1);
        row.push(Processing {
            chare,
            tn,
            sender,
            sender_tn,
        });
        assert_eq!(Chains::of(&row).answer((1, 1), (1, 2)), Answer::Bad(4));
        check_pairs(&program, &row, &names);
    }
    notices_what_is_no_row(&program);
    notices_a_row_that_cannot_be_read_or_answered(&program);
}

fn notices_what_is_no_row(program: &Path) {
    let said = |row: &str, pairs: &[&str], error: &str| {
        let pairs: Vec<String> = pairs.iter().map(|word| word.to_string()).collect();
        let (status, _, found) = of_row(program, row, &pairs);
        assert_eq!(
            (status, found),
            (2, format!("precedes: {error}\n")),
            "{row}"
        );
    };
    for line in [
        "",
        "x",
        "1 1 0",
        "1 1 0 0 0",
        "256 1 0 0",
        "1 65536 0 0",
        "1 1 256 0",
        "1 1 0 65536",
        "-1 1 0 0",
    ] {
        said(
            &format!("1 1 0 0\n{line}\n"),
            &["1:1", "1:1"],
            "line 2 is no record",
        );
    }
    for pair in [
        &["1:1"][..],
        &["1:1", "1"],
        &["x", "1:1"],
        &["1:1", "1:1x"],
        &["256:1", "1:1"],
    ] {
        said("1 1 0 0\n", pair, &format!("no pair at {}", pair[0]));
    }
}

fn notices_a_row_that_cannot_be_read_or_answered(program: &Path) {
    let directory = File::open(folder()).expect("a folder");
    let full = File::options()
        .write(true)
        .open("/dev/full")
        .expect("a full disk");
    let row = program.with_extension("row");
    fs::write(&row, "1 1 0 0\n").expect("a row");
    let row = File::open(row).expect("a row");
    let run = |input: File, out: Stdio| {
        let mut run = Command::new(program);
        let run = run.args(["1:1", "1:1"]).stdin(input).stdout(out).output();
        let (status, _, error) = result(run.expect("a run"));
        (status, error)
    };
    let unread = "precedes: standard input: Is a directory\n".to_string();
    assert_eq!(run(directory, Stdio::piped()), (2, unread));
    let unwritten = "precedes: standard output: No space left on device\n".to_string();
    assert_eq!(run(row, full.into()), (2, unwritten));
}

/// A record has the same bytes in C and in Rust.
#[test]
#[cfg_attr(not(library), ignore = "needs the engine's library")]
fn the_layout_of_a_record() {
    let source = fresh("c-layout").join("record.c");
    fs::write(&source, RECORD).expect("a source");
    let output = Command::new(compiled(&source)).output().expect("a run");
    let want = [
        size_of::<Processing>(),
        offset_of!(Processing, chare),
        offset_of!(Processing, tn),
        offset_of!(Processing, sender),
        offset_of!(Processing, sender_tn),
    ];
    let want: Vec<String> = want.iter().map(usize::to_string).collect();
    assert_eq!(String::from_utf8_lossy(&output.stdout), want.join(" "));
}

const RECORD: &str = r#"
#include "satuphir.h"
#include <stdio.h>

int main(void) {
  printf("%zu %zu %zu %zu %zu", sizeof(satuphir_processing), offsetof(satuphir_processing, chare), offsetof(satuphir_processing, tn),
         offsetof(satuphir_processing, sender), offsetof(satuphir_processing, sender_tn));
  return 0;
}
"#;
