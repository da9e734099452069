//! Lists that are read, but can hardly be meant so: a note, and the lines.

mod common;

use common::run::{fed, fresh, run, with_list};
use std::fs;

/// `play` gives these lines, `explain` their words, `encode` the digits, and all say this besides.
fn gives(list: &[u8], lines: &str, note: &str) {
    let said = match note {
        "" => String::new(),
        note => format!("satuphir: note: {note}\n"),
    };
    let (status, text, error) = fed(&["explain", "-"], list);
    assert_eq!((status, error), (0, said.clone()));
    assert_eq!(text.matches("  ->  ").count(), lines.lines().count());
    assert_eq!(
        fed(&["play", "-"], list),
        (0, lines.to_string(), said.clone())
    );
    let (status, digits, error) = fed(&["encode", "-"], list);
    assert_eq!((status, error), (0, said));
    assert_eq!(digits.lines().count(), lines.lines().count());
}

#[test]
#[cfg_attr(not(library), ignore = "needs the engine's library")]
fn an_empty_list() {
    gives(b"", "", "the list is empty: no frame, no line");
}

/// A whole file of digits with CR LF has a note; one such line has none, nor has a list in words.
#[test]
#[cfg_attr(not(library), ignore = "needs the engine's library")]
fn line_ends_of_another_system() {
    gives(
        b"1201\r\n1601\r\n",
        "01\n01\n",
        "2 of 2 lines end in CR LF; in digits a line ends in LF alone, and the CR makes it 01 (`tr -d '\\r'` takes it away)",
    );
    gives(
        b"1201\n1601\r\n1601\n",
        "02\n01\n02\n",
        "1 line is neither digits nor words, and gets 01: line 2",
    );
    gives(b"work 1\r\nshow 1\r\n", "02\n02\n", "");
}

/// Comments in a list of digits, on lines of their own or after a frame.
#[test]
#[cfg_attr(not(library), ignore = "needs the engine's library")]
fn comments() {
    let but =
        "a list in digits has no comments, and such a line gets 01 (a list in words may have them)";
    gives(
        b"# a list\n1201\n",
        "01\n02\n",
        &format!("1 line with #; {but}"),
    );
    gives(
        b"1201 # a work\n1601 # a show\n",
        "01\n01\n",
        &format!("2 lines with #; {but}"),
    );
    gives(b"# a list\nwork 1 # too early\n", "02\n", "");
}

#[test]
#[cfg_attr(not(library), ignore = "needs the engine's library")]
fn a_binary_file() {
    gives(
        b"\x7FELF\x02\x01\x01\n\0\0\n",
        "01\n01\n",
        "no line of this is a frame, and it holds bytes that are no text: is it a binary file?",
    );
    gives(
        b"\x89PNG\r\n# no comment\0\n",
        "01\n01\n",
        "no line of this is a frame, and it holds bytes that are no text: is it a binary file?",
    );
    gives(
        b"\xE9tudiant\n",
        "01\n",
        "no line of this is a frame, and it holds bytes that are no text: is it a binary file?",
    );
    gives(
        "Dear Sir,\n\nthe étude ...\n".as_bytes(),
        "01\n01\n01\n",
        "no line of this is a frame, in digits or in words: is it a list?",
    );
}

/// A job in words and the rest in digits, and the other way round: the lines of the frames.
#[test]
#[cfg_attr(not(library), ignore = "needs the engine's library")]
fn words_and_digits_in_one_list() {
    let words = "job 2 machines\nchare 1 on 1\n";
    let digits = "1001000301\n110100010001\n110200010001\n110300010001\n1201\n";
    let lines = "00J\n00J\n00C\n00G\n00H\n00J\n";
    gives(format!("{words}{digits}").as_bytes(), lines, "");
    let job = "0102010000010000\n";
    let words = "# in words\n\ninject 1 value 3 hops 1\n";
    let digits = &digits[digits.find('\n').expect("a line") + 1..];
    gives(format!("{job}{words}{digits}").as_bytes(), lines, "");
}

/// In a list of digits a line that is neither is a frame that is refused, and a note says so.
#[test]
#[cfg_attr(not(library), ignore = "needs the engine's library")]
fn neither_words_nor_digits() {
    let are = "neither digits nor words, and";
    gives(
        b"jop 2 machines\n1201\n",
        "01\n02\n",
        &format!("1 line is {are} gets 01: line 1; line 1: did you mean \"job\"?"),
    );
    gives(
        b"1201\n\n12 01\n1601\n",
        "02\n01\n01\n02\n",
        &format!("2 lines are {are} get 01: lines 2 and 3; in digits an empty line is a frame too"),
    );
    let many = format!("1201\n{}", "12G1\n".repeat(7));
    gives(
        many.as_bytes(),
        &format!("02\n{}", "01\n".repeat(7)),
        &format!("7 lines are {are} get 01: lines 2, 3, 4, 5, 6 and 2 more"),
    );
    // Digits that are no frame are digits.
    gives(b"1201\n120\n1801\n", "02\n01\n01\n", "");
}

/// Beside words it is a mistake, in every subcommand.
#[test]
fn neither_beside_words() {
    let folder = fresh("neither");
    let list = folder.join("list");
    fs::write(&list, "job 2 machines\nchare 1 on 1\n12G1\n1201\nwrok 1\n").expect("a list");
    for args in with_list(list.as_os_str()) {
        let (status, out, error) = run(&args);
        assert_eq!((status, out.as_str()), (2, ""), "{args:?}");
        let lines: Vec<&str> = error.lines().collect();
        let [one, two] = lines[..] else {
            panic!("{error}");
        };
        let at = |line| format!("satuphir: {}, line {line}, column 1: ", list.display());
        assert!(
            one.starts_with(&at(3)) && one.ends_with("found \"12G1\""),
            "{one}"
        );
        assert!(two.starts_with(&at(5)), "{two}");
        assert!(
            two.ends_with("found \"wrok\"; did you mean \"work\"?"),
            "{two}"
        );
    }
}

/// Very many mistakes are counted.
#[test]
fn a_hundred_mistakes() {
    let list = format!("work 1\n{}", "work x\n".repeat(103));
    let (status, out, error) = fed(&["play", "-"], list.as_bytes());
    assert_eq!((status, out.as_str()), (2, ""));
    assert_eq!(error.lines().count(), 101);
    assert!(
        error.ends_with("\nsatuphir: standard input: 3 more mistakes\n"),
        "{error}"
    );
}

/// What an editor may put in front of a file, or make of it.
#[test]
#[cfg_attr(not(library), ignore = "needs the engine's library")]
fn byte_order_mark_and_utf_16() {
    gives(
        b"\xEF\xBB\xBF1201\n1601\n",
        "01\n02\n",
        "the list begins with a byte-order mark, EF BB BF; in digits that makes its first line 01 (`tail -c +4` takes it away)",
    );
    gives(b"\xEF\xBB\xBFwork 1\n1601\n", "02\n02\n", "");
    let utf_16 = |mark: &[u8], text: &str, low_first: bool| -> Vec<u8> {
        let units = text.encode_utf16().flat_map(|unit| match low_first {
            true => unit.to_le_bytes(),
            false => unit.to_be_bytes(),
        });
        mark.iter().copied().chain(units).collect()
    };
    for (mark, low_first, how) in [
        (&b"\xFF\xFE"[..], true, "it begins with FF FE"),
        (b"\xFE\xFF", false, "it begins with FE FF"),
        (b"", true, "every other byte is 00"),
        (b"", false, "every other byte is 00"),
    ] {
        for text in ["1201\r\n1601", "work 1\nshow 1"] {
            let list = utf_16(mark, text, low_first);
            let note = format!(
                "the list is UTF-16 ({how}), which makes its lines 01; save it as UTF-8, or `iconv -f UTF-16 -t UTF-8` turns it into that"
            );
            gives(&list, "01\n01\n", &note);
        }
    }
}

/// No subcommand stumbles over an empty list, a binary file, CR LF or comments: each says its word and goes on.
#[test]
#[cfg_attr(not(library), ignore = "needs the engine's library")]
fn odd_lists_in_every_subcommand() {
    let folder = fresh("odd");
    for (name, bytes, word) in [
        ("empty", &b""[..], "the list is empty"),
        (
            "binary",
            b"\x7FELF\x02\0\n\0\xFF\n",
            "no line of this is a frame, and it holds bytes that are no text",
        ),
        ("returns", b"1201\r\n1601\r\n", "2 of 2 lines end in CR LF"),
        ("comments", b"# a list\n1201\n", "1 line with #"),
    ] {
        let list = folder.join(name);
        fs::write(&list, bytes).expect("a list");
        for args in with_list(list.as_os_str()) {
            let (status, out, error) = run(&args);
            let task = args[0].to_string_lossy();
            // An empty list has no frame 1.
            if task == "state" && name == "empty" {
                assert_eq!((status, out.as_str()), (2, ""));
                assert!(
                    error.contains("there is no frame 1: the list has 0 frames"),
                    "{error}"
                );
                continue;
            }
            // None of these injects a value.
            let none = "it injects nothing, so there are no values to change\n";
            assert_eq!(task == "variants", error.ends_with(none), "{error}");
            let want = if task == "variants" { 2 } else { 0 };
            assert_eq!(status, want, "{args:?}: {error}");
            assert!(
                error.starts_with(&format!("satuphir: note: {word}")),
                "{args:?}: {error}"
            );
        }
    }
}
