//! Variants of a list: other values, and nothing else.

mod common;

use common::run::{fed, fresh, result, run, satuphir};
use common::{list, names};
use explained::notation::{self, decode};
use reference::exam::{wished, Wish};
use reference::frame::{parse, Frame};
use reference::generator;
use reference::promise::Promise;
use reference::reader::answer_all;
use reference::values::values;
use std::fs::{self, File};
use std::path::Path;

const HINT: &str = "satuphir: `tools/satuphir --help` says how it is called\n";

/// What a run with the second implementation's lines prints; it says nothing but that.
fn printed(args: &[&str], input: &[u8]) -> String {
    let (status, out, error) = quick(args, input);
    assert_eq!((status, error.as_str()), (0, ""), "{args:?}");
    out
}

fn quick(args: &[&str], input: &[u8]) -> (i32, String, String) {
    let (status, out, error) = fed(&[&["variants", "--quick", "-"], args].concat(), input);
    let whose =
        "satuphir: --quick: the lines are the second implementation's, not the proved engine's\n";
    (status, out, error.replace(whose, ""))
}

/// The lists of a run, parted at the lines between them.
fn parted(text: &str) -> Vec<String> {
    let count = text.matches("# variant ").count();
    let mut rest = text;
    let mut lists = Vec::new();
    for number in 1..=count {
        let head = format!("# variant {number} of {count}\n");
        rest = rest.strip_prefix(&head).expect("its head");
        let end = rest.find("# variant ").unwrap_or(rest.len());
        lists.push(rest[..end].to_string());
        rest = &rest[end..];
    }
    assert_eq!(rest, "");
    lists
}

/// A list for an exam, with a show of each chare at its end.
fn exam(seed: u64, small_values: bool) -> Vec<u8> {
    let wish = Wish {
        frames: 50,
        with: vec![Promise::Crash, Promise::Restart],
        clean: true,
        shows: true,
        small_values,
        ..Wish::default()
    };
    wished(&wish, seed).expect("a list")
}

/// A line without what a value may change: the state that a show gives.
fn fixed(frame: &str, line: &str) -> String {
    match frame.starts_with("16") && line.len() == 15 {
        true => format!("{}{}", &line[..6], &line[14..]),
        false => line.to_string(),
    }
}

/// The frames of a variant are the list's but for other values of as many digits, and so are its lines but for states.
fn is_variant(own: &str, other: &str) {
    assert_eq!(own.lines().count(), other.lines().count());
    for (one, two) in own.lines().zip(other.lines()) {
        let (Some(Frame::Inject { value, .. }), Some(Frame::Inject { value: new, .. })) =
            (parse(one.as_bytes()), parse(two.as_bytes()))
        else {
            assert_eq!(one, two);
            continue;
        };
        assert_eq!((&one[..4], &one[8..]), (&two[..4], &two[8..]));
        assert!(value != new && value.to_string().len() == new.to_string().len());
    }
    let lines = |list: &str| String::from_utf8(answer_all(list.as_bytes())).expect("digits");
    let (one, two) = (lines(own), lines(other));
    assert_ne!(one, two, "no show differs");
    assert_eq!(one.lines().count(), two.lines().count());
    for ((frame, one), two) in own.lines().zip(one.lines()).zip(two.lines()) {
        assert_eq!(fixed(frame, one), fixed(frame, two), "{frame}");
    }
}

#[test]
fn other_values_alone() {
    for seed in 0..20 {
        let list = exam(seed, seed % 2 == 0);
        let own = String::from_utf8(list.clone()).expect("digits");
        let lists = parted(&printed(&["4", "--seed", &seed.to_string()], &list));
        assert_eq!(lists.len(), 4);
        let lines = |list: &String| answer_all(list.as_bytes());
        for (at, other) in lists.iter().enumerate() {
            is_variant(&own, other);
            assert!(lists[..at].iter().all(|one| lines(one) != lines(other)));
        }
    }
}

/// The engine checks the lines, and the lists are the same.
#[test]
#[cfg_attr(not(library), ignore = "needs the engine's library")]
fn with_the_engine() {
    let list = exam(3, false);
    let (status, out, error) = fed(&["variants", "-", "5"], &list);
    assert_eq!((status, error.as_str()), (0, ""));
    assert_eq!(out, printed(&["5"], &list));
}

/// Every example that injects has variants, in digits from digits and in words from words.
#[test]
fn the_form_of_the_list() {
    for name in names() {
        let digits = list(&name);
        let (status, out, error) = quick(&["1", "--seed", "9"], &digits);
        let (in_words, text, said) = quick(&["1", "--seed", "9"], decode(&digits).as_bytes());
        // Garbled lines have a note of their own in digits.
        let error = error
            .lines()
            .filter(|line| !line.contains("neither digits nor words"));
        let error: String = error.map(|line| line.to_string() + "\n").collect();
        assert_eq!((status, error), (in_words, said), "{name}");
        assert_eq!(decode(out.as_bytes()), text, "{name}");
        let injects = values(&digits).len();
        assert_eq!(status, if injects > 0 { 0 } else { 2 }, "{name}");
    }
    // Comments, which may speak of a value, are left out.
    let list =
        "job 2 machines\nchare 1 on 1 # the only one\n\ninject 1 value 0x07 hops 0 # seven\n";
    let (status, text, _) = quick(&["1"], list.as_bytes());
    let digits = quick(&["1"], &notation::digits(list.as_bytes()).expect("a list")).1;
    assert_eq!((status, text), (0, decode(digits.as_bytes())));
}

#[test]
fn seeds() {
    let list = exam(1, true);
    let of = |seed: &str, count: &str| parted(&printed(&[count, "--seed", seed], &list));
    assert_eq!(of("5", "3"), of("5", "3"));
    assert_ne!(of("5", "3"), of("6", "3"));
    assert_eq!(of("5", "3"), of("5", "7")[..3]);
    assert_eq!(of("1", "2"), parted(&printed(&["2"], &list)));
}

/// One alone is a list that can be played; more have a line over each.
#[test]
fn one_alone() {
    let list = exam(2, true);
    let one = printed(&["1"], &list);
    is_variant(&String::from_utf8_lossy(&list), &one);
    assert_eq!(parted(&printed(&["2"], &list))[0], one);
}

/// Garbled frames, a missing newline at the end and bytes that are no text stay.
#[test]
fn all_else_stays() {
    let garbled = b"0102020201010200020000\n10G1000301\n\xFF\n\n1001abcd01\r\n1001abcd01";
    let folder = fresh("variants-garbled");
    let (list, out) = (folder.join("list.in"), folder.join("out.in"));
    fs::write(&list, garbled).expect("a list");
    let (list, out) = (
        list.to_str().expect("a name"),
        out.to_str().expect("a name"),
    );
    let (status, _, _) = run(&["variants", "--quick", list, "1", "--out", out]);
    assert_eq!(status, 0);
    let other = fs::read(folder.join("out-1.in")).expect("a variant");
    let value = garbled.len() - 6..garbled.len() - 2;
    assert_eq!(other[..value.start], garbled[..value.start]);
    assert_eq!(other[value.end..], garbled[value.end..]);
    assert_ne!(other[value.clone()], garbled[value]);
    for seed in 0..10 {
        let list = generator::list(seed, 200);
        assert!(quick(&["2"], &list).0 == 0, "{seed}");
    }
}

/// The files that are in a folder.
fn files(folder: &Path) -> Vec<String> {
    let files = fs::read_dir(folder).expect("a folder");
    let name = |file: fs::DirEntry| file.file_name().to_string_lossy().into_owned();
    let mut names: Vec<String> = files.map(|file| name(file.expect("a file"))).collect();
    names.sort();
    names
}

#[test]
fn written_to_files() {
    let folder = fresh("variants-files");
    fs::create_dir(folder.join("all")).expect("a folder");
    let words = decode(&exam(4, true));
    fs::write(folder.join("exam.txt"), &words).expect("a list");
    let there = |args: &[&str]| {
        let args = [&["variants", "--quick"], args].concat();
        let output = satuphir().args(args).current_dir(&folder).output();
        result(output.expect("a run"))
    };
    let want = parted(&printed(&["2"], words.as_bytes()));
    for (args, names) in [
        (
            &["exam.txt", "2", "--out", "exam.txt"][..],
            ["exam-1.txt", "exam-2.txt"],
        ),
        (&["exam.txt", "2", "--out", "all/b"], ["all/b-1", "all/b-2"]),
        (
            &["exam.txt", "2", "--out", "all"],
            ["all/exam-1.txt", "all/exam-2.txt"],
        ),
    ] {
        let (status, out, _) = there(args);
        assert_eq!((status, out.as_str()), (0, ""), "{args:?}");
        for (name, want) in names.iter().zip(&want) {
            let text = fs::read_to_string(folder.join(name)).expect("a variant");
            assert_eq!(&text, want, "{name}");
        }
    }
    assert_eq!(files(&folder.join("all")).len(), 4);
    assert_eq!(
        fs::read_to_string(folder.join("exam.txt")).expect("a list"),
        words
    );
    // Standard input has no name.
    let all = fresh("variants-unnamed");
    let all = all.to_str().expect("a name");
    for (input, name) in [
        (words.as_bytes(), "variant-1.txt"),
        (&exam(4, true), "variant-1.in"),
    ] {
        assert_eq!(printed(&["1", "--out", all], input), "");
        assert!(Path::new(all).join(name).is_file(), "{name}");
    }
}

/// The list may be called like one of its variants: then nothing is written.
#[test]
fn onto_its_own_list() {
    let folder = fresh("variants-onto");
    let list = folder.join("exam-2.txt");
    fs::write(&list, exam(4, true)).expect("a list");
    let before = fs::read(&list).expect("a list");
    let out = folder.join("exam.txt");
    let (list, out) = (
        list.to_str().expect("a name"),
        out.to_str().expect("a name"),
    );
    let (status, _, error) = run(&["variants", "--quick", list, "3", "--out", out]);
    assert_eq!(status, 2);
    let message = format!("satuphir: {list} is the list itself, and would be written over\n{HINT}");
    assert!(error.ends_with(&message), "{error}");
    assert_eq!(files(&folder), ["exam-2.txt"]);
    assert_eq!(fs::read(list).expect("a list"), before);
}

/// Lists without shows, or with shows before any work, are told apart by no line.
#[test]
fn nothing_tells_them_apart() {
    let note = "satuphir: note: not every list has lines of its own: shows after the works tell them apart\n";
    let unworked = "job 2 machines\nchare 1 on 1\ninject 1 value 3 hops 0\nshow 1\n";
    let (status, text, error) = quick(&["2"], unworked.as_bytes());
    assert_eq!((status, parted(&text).len(), error.as_str()), (0, 2, note));
}

#[test]
fn too_few() {
    let one = "job 2 machines\nchare 1 on 1\ninject 1 value 3 hops 0\n";
    let (status, text, _) = quick(&["8"], one.as_bytes());
    let mut lists = parted(&text);
    lists.sort();
    lists.dedup();
    assert_eq!((status, lists.len()), (0, 8));
    for (list, count, why) in [
        (one, "9", "it injects too little: it has 8 variants, not 9"),
        (
            "work 1\n",
            "1",
            "it injects nothing, so there are no values to change",
        ),
    ] {
        let (status, out, error) = quick(&[count], list.as_bytes());
        assert_eq!((status, out.as_str()), (2, ""));
        assert_eq!(error, format!("satuphir: standard input: {why}\n"));
    }
}

#[test]
fn bad_calls() {
    for (args, message) in [
        (
            &["variants"][..],
            "variants needs a list (a file, or - for standard input)",
        ),
        (
            &["variants", "-"],
            "variants needs a number of lists, such as 3",
        ),
        (
            &["variants", "-", "0"],
            "\"0\" is no number of lists: variants LIST N, N from 1 to 1000",
        ),
        (
            &["variants", "-", "1001"],
            "\"1001\" is no number of lists: variants LIST N, N from 1 to 1000",
        ),
        (
            &["variants", "-", "three"],
            "\"three\" is no number of lists: variants LIST N, N from 1 to 1000",
        ),
        (&["variants", "-", "3", "4"], "\"4\" is too much"),
        (&["variants", "-", "3", "--seed"], "--seed needs a number"),
        (
            &["variants", "-", "3", "--seed", "x"],
            "\"x\" is no seed: a number is one, from 0 to 18446744073709551615",
        ),
        (
            &["variants", "-", "3", "--out"],
            "--out needs a file or folder to write",
        ),
        (
            &["variants", "-", "3", "--pages"],
            "--pages goes with picture alone",
        ),
        (
            &["play", "-", "--seed", "3"],
            "--seed and --out go with variants alone",
        ),
        (
            &["play", "-", "--out", "x"],
            "--seed and --out go with variants alone",
        ),
    ] {
        let (status, out, error) = fed(args, b"");
        assert_eq!((status, out.as_str()), (2, ""), "{args:?}");
        assert_eq!(error, format!("satuphir: {message}\n{HINT}"), "{args:?}");
    }
    let list = exam(1, true);
    let (status, out, error) = quick(&["3", "--out", "/nowhere/out"], &list);
    assert_eq!((status, out.as_str()), (2, ""));
    assert_eq!(
        error,
        "satuphir: /nowhere/out: No such file or directory (os error 2)\n"
    );
}

#[test]
fn a_full_disk() {
    let folder = fresh("variants-full");
    fs::write(folder.join("list.in"), exam(1, true)).expect("a list");
    let disk = File::options().write(true).open("/dev/full");
    let output = satuphir()
        .args(["variants", "--quick", "list.in", "3"])
        .current_dir(&folder)
        .stdout(disk.expect("a full disk"))
        .output();
    let (status, _, error) = result(output.expect("a run"));
    assert_eq!(status, 2);
    let message = "satuphir: standard output: No space left on device (os error 28)\n";
    assert!(error.ends_with(message), "{error}");
}
