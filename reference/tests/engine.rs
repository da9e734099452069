//! The proved engine, linked as a library, gives the second implementation's bytes.

use reference::engine::{transcript, write_transcript, Written, LINE_SPACE};
use reference::generator::{list, whole, Generator};
use reference::long::{limit_list, Limit};
use reference::reader::answer_all;
use std::fs;
use std::path::Path;

fn same(name: &str, input: &[u8]) {
    let (want, got) = (answer_all(input), transcript(input));
    if got != want {
        let line = want
            .iter()
            .zip(&got)
            .take_while(|(w, g)| w == g)
            .filter(|(&w, _)| w == b'\n');
        panic!("{name}: the answers differ at line {}", line.count() + 1);
    }
}

#[test]
fn vectors() {
    let folder = Path::new(env!("CARGO_MANIFEST_DIR")).join("tests/vectors");
    for number in 1..=76 {
        let input = fs::read(folder.join(format!("{number:02}.in"))).unwrap();
        same(&format!("list {number:02}"), &input);
    }
}

#[test]
fn random_lists() {
    for seed in 1..=300 {
        same(&format!("seed {seed}"), &list(seed, 400));
        let crashing = whole(Generator::crashing(seed, 400));
        same(&format!("seed {seed}, crashing"), &crashing);
    }
}

/// Long enough to hold an ASK back until 08.
#[test]
fn long_random_lists() {
    let mut refused = 0;
    for seed in 1..=40 {
        let input = list(seed, 3000);
        same(&format!("seed {seed}, long"), &input);
        let lines = answer_all(&input);
        refused += lines
            .split(|&b| b == b'\n')
            .filter(|line| line == b"08")
            .count();
    }
    assert!(refused > 0);
}

#[test]
fn limits() {
    for limit in Limit::ALL {
        same(limit.name(), &limit_list(limit));
    }
}

#[test]
fn bytes_of_any_kind() {
    same("nothing", b"");
    same("one empty line", b"\n");
    same("no last newline", b"1601");
    same("carriage returns", b"1601\r\n12\r\n");
    same("zeros", &[0; 5000]);
    same("a long line", &[b'1'; 100_000]);
    let mut x = 1u32;
    let noise = std::iter::repeat_with(|| {
        x = x.wrapping_mul(1_664_525).wrapping_add(1_013_904_223);
        (x >> 24) as u8
    });
    same("noise", &noise.take(200_000).collect::<Vec<u8>>());
}

/// Does a buffer hold the answers to all lines for which it surely had room, and after them what was there?
fn holds_what_fits(out: &[u8], whole: &[u8]) -> bool {
    let written = out.iter().zip(whole).take_while(|(o, w)| o == w).count();
    let whole_lines = written == 0 || out[written - 1] == b'\n';
    whole_lines && written + LINE_SPACE > out.len() && out[written..].iter().all(|&b| b == b'.')
}

#[test]
fn a_buffer_that_is_too_small() {
    let input = list(1, 50);
    let whole = answer_all(&input);
    for len in [whole.len() / 2, whole.len() - 1, LINE_SPACE, 1, 0] {
        let mut out = vec![b'.'; len];
        let written = write_transcript(&input, &mut out);
        assert!(!written.all, "{len}");
        assert!(out[..written.bytes] == whole[..written.bytes], "{len}");
        assert!(holds_what_fits(&out, &whole), "{len}");
    }
}

/// Room runs out as soon as the longest line would not fit, whatever the line to come.
#[test]
fn room_for_the_longest_line() {
    for len in 0..LINE_SPACE {
        let mut out = vec![b'.'; len];
        let (bytes, all) = (0, false);
        assert_eq!(write_transcript(b"12\n", &mut out), Written { bytes, all });
    }
    let (bytes, all) = (3, true);
    let mut out = [b'.'; LINE_SPACE];
    assert_eq!(write_transcript(b"12\n", &mut out), Written { bytes, all });
}

/// That test can fail: on nothing written, on half of it, and on a line that is cut.
#[test]
fn a_short_buffer_is_looked_at() {
    let whole = b"00J\n00J\n00J\n00J\n00J\n00J\n00J\n00J\n";
    let buffer = |written: usize| [&whole[..written], &vec![b'.'; 30 - written]].concat();
    assert!(!holds_what_fits(&buffer(0), whole));
    assert!(!holds_what_fits(&buffer(12), whole));
    assert!(!holds_what_fits(&buffer(27), whole));
    assert!(holds_what_fits(&buffer(16), whole));
}
