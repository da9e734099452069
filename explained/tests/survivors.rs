//! How many crash sets a layout survives. The counts were made by hand.

mod common;

use common::run::{fed, fresh, run};
use explained::survivors::{compare, Difference};
use std::fs;

/// Machine 6 of a ring of six has machine 1 as its buddy.
const RING: &str = "1 6 6\n2 15 9\n3 20 2\n4 15 0\n5 6 0\n6 1 0\n";
const JOB_OF_TWO: &str = "0102020201010200020000\n";

/// Standard output for a list, with nothing said besides.
fn counted(list: &str) -> String {
    let (status, out, error) = fed(&["survivors", "-"], list.as_bytes());
    assert_eq!((status, error.as_str()), (0, ""), "{list}");
    out
}

/// A first line that is no acceptable job: its line alone, and why on standard error.
fn refused(list: &str, line: &str, why: &str) {
    let want = (
        0,
        format!("{line}\n"),
        format!("satuphir: note: no counts, for the list begins with no acceptable job: {line}, {why}\n"),
    );
    assert_eq!(fed(&["survivors", "-"], list.as_bytes()), want, "{list}");
}

#[test]
#[cfg_attr(not(library), ignore = "needs the engine's library")]
fn jobs_in_words_and_in_digits() {
    assert_eq!(counted(JOB_OF_TWO), "1 2 2\n2 1 0\n");
    // The last line needs no newline.
    assert_eq!(counted(JOB_OF_TWO.trim_end()), "1 2 2\n2 1 0\n");
    for (buddies, counts) in [
        (", buddies 2 3 4 5 6 1", RING),
        ("", RING),
        (", buddies 0 0 0 0 0 0", RING),
        (
            ", buddies 2 1 4 3 6 5",
            "1 6 6\n2 15 12\n3 20 8\n4 15 0\n5 6 0\n6 1 0\n",
        ),
        (
            ", buddies 2 1 1 1 1 1",
            "1 6 6\n2 15 10\n3 20 10\n4 15 5\n5 6 1\n6 1 0\n",
        ),
    ] {
        let words = format!("# a layout\njob 6 machines{buddies}\nchare 1 on 1\n");
        assert_eq!(counted(&words), counts, "{words}");
        let (_, digits, _) = fed(&["encode", "-"], words.as_bytes());
        assert!(digits.starts_with("010601"), "{digits}");
        assert_eq!(counted(&digits), counts, "{digits}");
    }
}

#[test]
#[cfg_attr(not(library), ignore = "needs the engine's library")]
fn a_file() {
    let list = fresh("survivors").join("list.txt");
    fs::write(&list, "job 3 machines\nchare 1 on 1\n").expect("a list");
    let (status, out, error) = run(&["survivors".as_ref(), list.as_os_str()]);
    assert_eq!(
        (status, out.as_str(), error.as_str()),
        (0, "1 3 3\n2 3 0\n3 1 0\n", "")
    );
}

/// The frames after the job change nothing, whatever they are, and nothing is said of them.
#[test]
#[cfg_attr(not(library), ignore = "needs the engine's library")]
fn a_list_that_goes_on() {
    for more in [
        "1001000301\n1401\n1402\n1601\n",
        "0103010000000100000\n# no comment\n\r\n",
        "\n",
        "\u{1}",
    ] {
        let list = format!("{JOB_OF_TWO}{more}");
        assert_eq!(counted(&list), "1 2 2\n2 1 0\n", "{more}");
    }
    let words = "job 2 machines\nchare 1 on 1\nchare 2 on 2\ncrash 1\ncrash 2\n";
    assert_eq!(counted(words), "1 2 2\n2 1 0\n");
}

#[test]
#[cfg_attr(not(library), ignore = "needs the engine's library")]
fn lists_that_begin_with_no_acceptable_job() {
    let job = |words: &str| format!("job {words}\nchare 1 on 1\n");
    refused(
        &job("2 machines, buddies 1 1"),
        "03",
        "machine 1 is its own buddy",
    );
    refused(
        &job("3 machines, buddies 2 4 1"),
        "03",
        "machine 2: buddy 4 is not from 0 to 3",
    );
    refused(
        "01070100000000000000010000\n",
        "03",
        "M 7 is not from 2 to 6",
    );
    refused("work 1\n", "02", "work 1 is no job");
    // An accepted job further down is not looked for.
    refused(
        &format!("110100010001\n{JOB_OF_TWO}"),
        "02",
        "deliver ASK 0>1 #1 is no job",
    );
    refused(
        &format!("01020202\n{JOB_OF_TWO}"),
        "01",
        "a job with M = 2 and C = 2 has 11 bytes, this one 4",
    );
    refused(&format!("\n{JOB_OF_TWO}"), "01", "the line is empty");
    refused(
        "raw 01G2\njob 2 machines\nchare 1 on 1\n",
        "01",
        "character 3, 'G', is no hexadecimal digit",
    );
}

/// What is odd about the whole list is said first, if its first line has no counts.
#[test]
#[cfg_attr(not(library), ignore = "needs the engine's library")]
fn odd_lists() {
    let none = "satuphir: note: the list is empty: no frame, no line\n";
    assert_eq!(
        fed(&["survivors", "-"], b""),
        (0, String::new(), none.to_string())
    );
    let returns = JOB_OF_TWO.replace('\n', "\r\n");
    let (status, out, error) = fed(&["survivors", "-"], returns.as_bytes());
    assert_eq!((status, out.as_str()), (0, "01\n"));
    let said: Vec<&str> = error.lines().collect();
    let [hint, why] = said[..] else {
        panic!("{error}");
    };
    assert!(hint.starts_with("satuphir: note: 1 of 1 line end in CR LF; "));
    assert!(why.ends_with(": 01, the line ends in a carriage return"));
}

/// Whose counts a quick run gives stands on standard error, the counts alone on standard output.
#[test]
fn quick_counts() {
    let whose =
        "satuphir: --quick: the lines are the second implementation's, not the proved engine's\n";
    let want = (0, "1 2 2\n2 1 0\n".to_string(), whose.to_string());
    let args = ["survivors", "-", "--quick"];
    assert_eq!(fed(&args, JOB_OF_TWO.as_bytes()), want);
}

/// The script that builds the engine asks first whether it is needed, and whether the call is good.
#[test]
fn the_engine_is_needed() {
    let list = fresh("survivors-check").join("list.in");
    fs::write(&list, JOB_OF_TWO).expect("a list");
    let list = list.display().to_string();
    for (args, status) in [
        (&["survivors", &list][..], 10),
        (&["survivors", "-"], 10),
        (&["survivors", &list, "--quick"], 0),
        (&["survivors", "missing"], 2),
        (&["survivors"], 2),
        (&["survivors", &list, "--pages"], 2),
    ] {
        let args: Vec<&str> = ["--check"].iter().chain(args).copied().collect();
        let (found, out, _) = run(&args);
        assert_eq!((found, out.as_str()), (status, ""), "{args:?}");
    }
}

#[test]
fn counts_that_differ() {
    let list = format!("{JOB_OF_TWO}1201\n");
    let with = |lines: &str| compare(list.as_bytes(), lines.as_bytes());
    assert_eq!(with("1 2 2\n2 1 0\n"), Ok(()));
    for (lines, engine) in [
        ("1 2 2\n2 1 1\n", "1 2 2, 2 1 1"),
        ("1 2 2\n", "1 2 2"),
        ("1 2 2\n2 1 0", "1 2 2, 2 1 0 (without a newline)"),
        ("1 2 2\n2 1 0\n\n", "1 2 2, 2 1 0, "),
        ("03\n", "03"),
        ("", "(no line)"),
    ] {
        let want = Difference {
            frame: "0102020201010200020000".to_string(),
            engine: engine.to_string(),
            second: "1 2 2, 2 1 0".to_string(),
        };
        assert_eq!(with(lines), Err(want));
    }
    let text = with("03\n").expect_err("a difference").to_string();
    for want in [
        "!!! THE COUNTS OF CRASH SETS DIFFER\n",
        "!!! frame:                 0102020201010200020000\n",
        "!!! proved engine:         03\n",
        "!!! second implementation: 1 2 2, 2 1 0\n",
    ] {
        assert!(text.contains(want), "{text}");
    }
}
