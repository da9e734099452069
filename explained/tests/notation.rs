//! Lists in words: to digits and back, and what is wrong with them.

use explained::notation::{decode, digits, form, read, Error, Form, Mistakes};
use reference::frame::parse;
use reference::generator;

const WORDS: &str = "\
job 2 machines, buddies 2 1
chare 1 on 1 to 2
chare 2 on 2
inject 1 value 3 hops 1
deliver ASK 0>1 #1
work 1
checkpoint 1
crash 1
restart 1
show 1
withdraw 1
";

const DIGITS: &str = "\
0102020201010200020000
1001000301
110100010001
1201
1301
1401
1501
1601
1701
";

#[test]
fn words_to_digits_and_back() {
    assert_eq!(digits(WORDS.as_bytes()), Ok(DIGITS.as_bytes().to_vec()));
    assert_eq!(decode(DIGITS.as_bytes()), WORDS);
}

#[test]
fn either_form_gives_digits() {
    assert_eq!(digits(DIGITS.as_bytes()), Ok(DIGITS.as_bytes().to_vec()));
    // In digits alone every line stays as it is.
    let odd = b"\xEF\xBB\xBF1201\n\n# a work\r\n12 01\nwrok 1";
    assert_eq!(digits(odd), Ok(odd.to_vec()));
}

/// Each line decides by itself, wherever the words stand.
#[test]
fn words_and_digits_in_one_list() {
    let digit_lines: Vec<&str> = DIGITS.lines().collect();
    // The first three lines in words are the job.
    let word_lines: Vec<String> = WORDS.lines().map(str::to_string).collect();
    let frames: Vec<String> = [word_lines[..3].join("\n")]
        .into_iter()
        .chain(word_lines[3..].to_vec())
        .collect();
    for choice in 1..1 << frames.len() {
        let list: Vec<&str> = (0..frames.len())
            .map(|at| match choice >> at & 1 {
                1 => frames[at].as_str(),
                _ => digit_lines[at],
            })
            .collect();
        let list = list.join("\n") + "\n";
        assert_eq!(
            digits(list.as_bytes()),
            Ok(DIGITS.as_bytes().to_vec()),
            "{list}"
        );
    }
}

/// Beside words, lines in digits have blanks, comments and line ends as those in words do, and stay as they are.
#[test]
fn digits_beside_words() {
    let list = "\u{FEFF}1001000301\r\n\n  12aB # no frame, but digits\r\n120\nwork 1\n,1401#x\n";
    let want = "1001000301\n12aB\n120\n1201\n1401\n";
    let list = read(list.as_bytes()).expect("a list");
    assert_eq!(String::from_utf8_lossy(&list.digits), want);
    let lines: Vec<usize> = (1..=6)
        .filter_map(|frame| list.places.line(frame))
        .collect();
    assert_eq!(lines, [1, 3, 4, 5, 6]);
}

/// The line on which a frame stands is told where it is not the frame's number.
#[test]
fn places_of_frames() {
    let list = read(format!("# a list\n{WORDS}").as_bytes()).expect("a list");
    // The job's line is the one with its word.
    let lines: Vec<usize> = (0..=10)
        .filter_map(|frame| list.places.line(frame))
        .collect();
    assert_eq!(lines, [2, 5, 6, 7, 8, 9, 10, 11, 12]);
    assert_eq!(list.places.beside(1), " (line  2)");
    assert_eq!(list.places.beside(9), " (line 12)");
    for list in [DIGITS, "work 1\nshow 1 # both\n", ""] {
        let list = read(list.as_bytes()).expect("a list");
        assert_eq!(
            (list.places.line(1), list.places.beside(1)),
            (None, String::new())
        );
    }
}

#[test]
fn blanks_comments_capitals_and_line_ends_do_not_matter() {
    let list = "\u{FEFF}# a list\r\n\r\n  JOB 2 Machines buddies 2,1 # two\r\n\tchare 1 on 1, to 2\r\nchare 2 on 2\r\n\
                Inject 1, value 0x3, hops 1# one\r\ndeliver ask 0 → 1 #1 # it asks\r\n";
    let want: String = DIGITS.split_inclusive('\n').take(3).collect();
    assert_eq!(digits(list.as_bytes()), Ok(want.into_bytes()));
}

#[test]
fn a_job_has_every_chare_and_no_buddy_needs_a_name() {
    let encoded =
        |list: &str| String::from_utf8(digits(list.as_bytes()).expect("a list")).expect("digits");
    assert_eq!(
        encoded("job 3 machines\nchare 1 on 3 to 0 1\n"),
        "010301000000030001\n"
    );
    assert_eq!(encoded("job 2 machines\n"), "0102000000\n");
    assert_eq!(
        encoded("job 2 machines\nchare 1 on 2 to 1 1\nwork 1\n"),
        "0102010000020101\n1201\n"
    );
}

#[test]
fn lines_that_are_no_frames() {
    let input = b"12G1\n\n120\n \\\n\xFF\x00\r\n";
    let words = decode(input);
    assert_eq!(
        words,
        "raw 12G1\nraw\nraw 120\nraw \\x20\\\\\nraw \\xFF\\x00\\x0D\n"
    );
    assert_eq!(form(words.as_bytes()), Form::Words);
    assert_eq!(digits(words.as_bytes()), Ok(input.to_vec()));
}

/// Frames come back the same; what is no frame comes back byte by byte.
#[test]
fn random_lists_come_back() {
    for seed in 0..400 {
        let list = generator::list(seed, 200);
        let words = decode(&list);
        let back = digits(words.as_bytes()).unwrap_or_else(|e| panic!("seed {seed}: {e}"));
        let mut want = list.clone();
        if !want.ends_with(b"\n") {
            want.push(b'\n');
        }
        let lines = |bytes: &[u8]| -> Vec<Vec<u8>> {
            bytes.split(|&b| b == b'\n').map(<[u8]>::to_vec).collect()
        };
        let (want, back) = (lines(&want), lines(&back));
        assert_eq!(want.len(), back.len(), "seed {seed}");
        for (want, back) in want.iter().zip(&back) {
            match parse(want) {
                Some(frame) => assert_eq!(parse(back), Some(frame), "seed {seed}"),
                None => assert_eq!(back, want, "seed {seed}"),
            }
        }
        // The words of the words are the same words.
        assert_eq!(decode(&back.join(&b'\n')), words, "seed {seed}");
    }
}

#[test]
fn a_mistake_is_named_with_line_and_column() {
    let job = "job 2 machines\nchare 1 on 1\n";
    for (list, line, column, message) in [
        ("work x", 3, 6, "expected a chare, from 0 to 255, found \"x\""),
        ("work", 3, 5, "expected a chare, from 0 to 255, the line ends"),
        ("work 256", 3, 6, "expected a chare, from 0 to 255, found \"256\""),
        ("work 1 2", 3, 8, "expected the end of the line or a comment, found \"2\""),
        ("\nwrok 1\nwork 1", 4, 1, "expected one of job, chare, inject, deliver, work, checkpoint, crash, restart, show, withdraw, raw, or a frame in digits, found \"wrok\"; did you mean \"work\"?"),
        ("withdraw x", 3, 10, "expected a chare, from 0 to 255, found \"x\""),
        ("withdraw 1 value 3", 3, 12, "expected the end of the line or a comment, found \"value\""),
        ("inject 1 3 hops 1", 3, 10, "expected \"value\", found \"3\""),
        ("inject 1 value 70000 hops 1", 3, 16, "expected a value, from 0 to 65535, found \"70000\""),
        ("inject 1 value 3", 3, 17, "expected \"hops\", the line ends"),
        ("deliver TICKET 0>1 #1", 3, 9, "expected ASK, GRANT, DATA, NOTE or ACK, or a kind's number, from 0 to 255, found \"TICKET\""),
        ("deliver ASK 0-1 #1", 3, 13, "expected a sender, from 0 to 255, found \"0-1\""),
        ("deliver ASK 0 1 #1", 3, 15, "expected \">\", found \"1\""),
        ("deliver ASK 0>1 1", 3, 17, "expected # and an SN without a blank, from 0 to 65535, found \"1\""),
        ("deliver ASK 0>1 # 1", 3, 17, "expected # and an SN without a blank, from 0 to 65535, found \"#\""),
        ("chare 3 on 1", 3, 7, "expected chare 2: the chares of a job stand in order"),
        ("chare 2 at 1", 3, 9, "expected \"on\", found \"at\""),
        ("chare 2 on 1 to 1 1 1", 3, 21, "expected the end of the line or a comment, found \"1\""),
        ("work 1\nchare 2 on 1", 4, 1, "a line \"chare\" stands under a line \"job\", nowhere else"),
        ("job 7 machines", 3, 5, "a job in words has at most 6 machines"),
        ("job 2 machines, buddies 2", 3, 26, "expected the buddy of machine 2 (0: the machine before), from 0 to 255, the line ends"),
        ("raw \\q", 3, 5, "expected \\\\ or \\x and two hexadecimal digits, not those of a newline"),
        ("raw#x", 3, 4, "expected a blank after \"raw\""),
        ("recover 1", 3, 1, "expected one of job, chare, inject, deliver, work, checkpoint, crash, restart, show, withdraw, raw, or a frame in digits, found \"recover\""),
        ("12G1", 3, 1, "expected one of job, chare, inject, deliver, work, checkpoint, crash, restart, show, withdraw, raw, or a frame in digits, found \"12G1\""),
        ("> 1", 3, 1, "expected one of job, chare, inject, deliver, work, checkpoint, crash, restart, show, withdraw, raw, or a frame in digits, found \">\""),
        ("work \u{1B}[2J", 3, 6, "expected a chare, from 0 to 255, found \"\\u{1b}[2J\""),
        ("work 1234567890123456789012345678901234567890123", 3, 6, "expected a chare, from 0 to 255, found \"12345678901234567890…5678901234567890123\""),
        ("12 01", 3, 4, "expected the end of the line or a comment, found \"01\""),
        ("deliver GRNAT 0>1 #1", 3, 9, "expected ASK, GRANT, DATA, NOTE or ACK, or a kind's number, found \"GRNAT\"; did you mean \"GRANT\"?"),
        ("job 2 machines, budies 2 1", 3, 17, "expected the end of the line or a comment, found \"budies\"; did you mean \"buddies\"?"),
    ] {
        let got = digits(format!("{job}{list}\n").as_bytes());
        let want = Error {
            line,
            column,
            message: message.to_string(),
        };
        assert_eq!(got, Err(Mistakes(vec![want])), "{list}");
    }
}

#[test]
fn a_thirteenth_chare_is_too_many() {
    let chares: String = (1..=13).map(|n| format!("chare {n} on 1\n")).collect();
    let error = digits(format!("job 2 machines\n{chares}").as_bytes()).expect_err("too many");
    assert_eq!(
        error.to_string(),
        "line 14, column 1: a job has at most 12 chares"
    );
}

/// Every mistake is told once: what follows from another is none.
#[test]
fn all_mistakes() {
    let lines = |list: &str| -> Vec<usize> {
        let Mistakes(mistakes) = digits(list.as_bytes()).expect_err("mistakes");
        mistakes.iter().map(|mistake| mistake.line).collect()
    };
    for (list, wrong) in [
        (
            "job 2 machines\nchare 1 on 1\nwrok 1\nshow 1\nshow x\n\n12G1\n",
            vec![3, 5, 7],
        ),
        // The chares under a job with a mistake are looked at too.
        (
            "job x machines\nchare 1 on 1\nchare 2 at 2\nchare 3 on 3\n",
            vec![1, 3],
        ),
        ("jop 2 machines\nchare 1 on 1\nchare 2 on 2\n", vec![1]),
        ("job 2 machines\nchrae 1 on 1\nchare 2 on 2\n", vec![2]),
        (
            "job 2 machines\nchare 1 on 1\nhello\nchare 2 on 2\n",
            vec![3],
        ),
        ("job 2 machines\nchare 1 on x\nchare 2 on 2\n", vec![2]),
        ("job 2 machines\nchare 2 on 1\nchare 3 on 2\n", vec![2]),
        (
            "job 2 machines\nchare 1 on 1\nchare 1 on 2\nchare 2 on 2\n",
            vec![3],
        ),
        ("work 1\nchare 1 on 1\nchare 2 on 1\n", vec![2, 3]),
    ] {
        assert_eq!(lines(list), wrong, "{list}");
    }
    // However many there are.
    let many = format!("job 2 machines\n{}", "chrae 1 on 1\n".repeat(300));
    assert_eq!(lines(&many).len(), 300);
    let many = format!("job 2 machines\n{}", "chare 255 on 1\n".repeat(300));
    assert_eq!(lines(&many).len(), 300);
}
