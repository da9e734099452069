//! The proved programs: what no contract can say of a program, a run must show. On inputs that come in pieces; the gate names the folder
//! that they were built to, and without it this is left out. And what the gate runs them on is what it should be.

use reference::frame::LONGEST_LINE;
use reference::generator::list;
use reference::reader::answer_all;
use reference::survivors;
use std::fs;
use std::io::{Read, Write};
use std::path::PathBuf;
use std::process::{Command, Stdio};
use std::thread;
use std::time::Duration;

fn program(name: &str) -> Option<PathBuf> {
    let folder = std::env::var_os("SATUPHIR_PROGRAMS");
    if folder.is_none() {
        eprintln!("left out: SATUPHIR_PROGRAMS does not name the folder of the proved programs");
    }
    Some(PathBuf::from(folder?).join(name))
}

/// What a program writes that gets its input through a pipe, cut into pieces of these sizes, again and again. A piece comes some time
/// after the one before, so that the program reads it alone.
fn written(program: &PathBuf, input: &[u8], sizes: &[usize]) -> Vec<u8> {
    let mut child = Command::new(program)
        .stdin(Stdio::piped())
        .stdout(Stdio::piped())
        .spawn()
        .expect("the proved program");
    let mut to = child.stdin.take().expect("a pipe");
    let mut from = child.stdout.take().expect("a pipe");
    let reader = thread::spawn(move || {
        let mut out = Vec::new();
        from.read_to_end(&mut out).map(|_| out)
    });
    let mut rest = input;
    for size in sizes.iter().cycle() {
        let (piece, later) = rest.split_at(rest.len().min(*size));
        // A program that has what it needs may close its input.
        if piece.is_empty() || to.write_all(piece).is_err() {
            break;
        }
        thread::sleep(Duration::from_millis(2));
        rest = later;
    }
    drop(to);
    assert!(child.wait().expect("an end").success());
    reader.join().expect("a reader").expect("an output")
}

#[test]
fn sitting_reads_in_pieces() {
    let Some(sitting) = program("sitting") else {
        return;
    };
    // A long garbled line among the frames, and no newline at the end.
    let input = [
        &list(3, 40)[..],
        &[b'1'; 3000],
        b"\n",
        &list(4, 40),
        b"1601",
    ]
    .concat();
    for sizes in [&[1, 2, 3, 5, 8, 400, 13][..], &[22, 21, 2047, 1], &[700]] {
        assert!(
            written(&sitting, &input, sizes) == answer_all(&input),
            "pieces of {sizes:?}"
        );
    }
}

#[test]
fn survivors_reads_in_pieces() {
    let Some(program) = program("survivors") else {
        return;
    };
    let job = b"01040100010403010000\n1401\n";
    for input in [
        &job[..],
        &job[..20],
        b"0102020201010200020000\n",
        b"\n1",
        b"12",
        b"",
    ] {
        for sizes in [&[1][..], &[3, 1, 7], &[19, 2], &[20, 1]] {
            assert_eq!(
                written(&program, input, sizes),
                survivors::answer(input),
                "pieces of {sizes:?}"
            );
        }
    }
}

// ---- what the gate runs the programs on

fn of_crate(path: &str) -> Vec<u8> {
    let crates = PathBuf::from(env!("CARGO_MANIFEST_DIR")).join("../crates");
    fs::read(crates.join(path)).expect("a file of a program")
}

/// The bytes of one read, and of the buffer for answers.
const PIECE: usize = 65536;

#[test]
fn the_input_of_sitting() {
    let input = of_crate("sitting/stdin");
    let lines = answer_all(&input);
    assert!(of_crate("sitting/stdout") == lines);
    assert!(input.len() > 2 * PIECE && !input.ends_with(b"\n"));
    // How long the line is that lies across the end of a read.
    let across = |end: usize| {
        let before = input[..end].iter().rev().take_while(|&&b| b != b'\n');
        let after = input[end..].iter().take_while(|&&b| b != b'\n').count();
        assert!(before.clone().count() > 0 && after > 0);
        before.count() + after
    };
    assert!(across(PIECE) <= LONGEST_LINE && across(2 * PIECE) > LONGEST_LINE);
    // The answers to one read need the buffer twice.
    let until = |end: usize| answer_all(&input[..end]).len();
    assert!(until(2 * PIECE) - until(PIECE) > PIECE);
}

#[test]
fn the_inputs_of_the_other_programs() {
    assert!(of_crate("survivors/stdout") == survivors::answer(&of_crate("survivors/stdin")));
    let mut lines = Vec::new();
    for name in of_crate("sittings/args").split(|&b| b == b'\n') {
        let Ok(name) = std::str::from_utf8(name) else {
            panic!("a name of a list");
        };
        if !name.is_empty() {
            let list = of_crate(&format!("sittings/data/{name}"));
            lines.extend_from_slice(name.as_bytes());
            lines.push(b'\n');
            lines.extend_from_slice(&answer_all(&list));
        }
    }
    assert!(of_crate("sittings/stdout") == lines);
}
