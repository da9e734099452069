//! What can come next, after the list and after an earlier frame.

mod common;

use common::run::{fed, run};
use common::{folder, list};
use reference::reader::answer_all;

/// The rule book's sitting in words.
const WORDS: &str = "\
# my sitting
job 2 machines, buddies 2 1
chare 1 on 1 to 2
chare 2 on 2

inject 1 value 3 hops 1
deliver ASK 0>1 #1
deliver GRANT 0>1 #1
deliver DATA 0>1 #1      # it has TN 1
work 1
crash 1
show 1
";

/// The same with words, digits and comments: its frames stand on lines 2, 6, 7 and 8.
const MIXED: &str = "\
# a sitting
job 2 machines
chare 1 on 1 to 2
chare 2 on 2

inject 1 value 3 hops 1   # the desk
110100010001
work 1
";

fn file(name: &str) -> String {
    folder().join(format!("{name}.in")).display().to_string()
}

fn lines(list: &[u8]) -> String {
    String::from_utf8(answer_all(list)).expect("digits")
}

/// What a run gives that says nothing on standard error.
fn out(args: &[&str], list: &[u8]) -> String {
    let (status, out, error) = fed(args, list);
    assert_eq!((status, error.as_str()), (0, ""), "{args:?}");
    out
}

#[test]
#[cfg_attr(not(library), ignore = "needs the engine's library")]
fn next_says_what_is_accepted_and_what_is_blocked() {
    let (status, out, error) = fed(&["next", "-"], WORDS.as_bytes());
    assert_eq!(status, 0);
    assert_eq!(error, "");
    for want in [
        "Packets that can be delivered\n  deliver ASK 1>2 #1       110101020001  Rule C, new ticket: chare 2 gives it TN 1 ",
        "Works that are blocked\n  work 1                   1201  05: Machine 1 is down.\n",
        "  work 2                   1202  06: Chare 2 has given no TN 1; ASK 1→2 #1 is still on the wire.\n",
        "  restart 1                1501  Restart: ",
        "FF: The run would be lost, for machine 1 is down, and machine 1, the buddy, does not hold its copy.\n",
    ] {
        assert!(out.contains(want), "nowhere: {want}\n{out}");
    }
    let (_, out, _) = fed(&["next", "-"], b"1201\n");
    assert!(out.contains("No job is set"), "{out}");
    // Of two injections to a chare the last one is told, of a chare without any nothing.
    let words = "job 2 machines\nchare 1 on 1\nchare 2 on 2\nchare 3 on 2\ninject 1 value 3 hops 0\ninject 1 value 4 hops 0\n\
                 inject 2 value 5 hops 0\ndeliver ASK 0>2 #1\n";
    let (_, out, _) = fed(&["next", "-"], words.as_bytes());
    let want = "\nInjections that can be withdrawn\n  withdraw 1               1701  Withdraw: the desk takes 0→1 #2 \
                (value 4 (hex 0004), hops 0), its last message to chare 1, out of its log.\n\
                \nInjections that cannot be withdrawn\n  withdraw 2               1702  12: ASK 0→2 #1 is no longer on the wire; \
                it was delivered, and the table of chare 2 has its ticket, TN 1.\n\nThe desk, for instance\n";
    assert!(out.contains(want), "{out}");
    let full = list("11-full-window");
    let full: Vec<&[u8]> = full.split_inclusive(|&b| b == b'\n').take(676).collect();
    let (_, out, _) = fed(&["next", "-"], &full.concat());
    let want = "Packets that are blocked\n  deliver ASK 0>1 #129     110100010081  08: SN 129 is 1 beyond mark 0 + 128.\n";
    assert!(out.contains(want), "{out}");
    let (_, out, _) = run(&["next", &file("00-the-rule-books-sitting")]);
    assert!(out.contains("The run was lost at frame 13"), "{out}");
}

/// What `next` says of a frame is what the frame then gets: a number or FF, the letter of its rule, or J where it names none.
#[test]
#[cfg_attr(not(library), ignore = "needs the engine's library")]
fn next_is_true() {
    use reference::generator;
    let mut told = 0;
    for seed in 0..40 {
        let mut list = generator::list(seed, 120);
        if !list.ends_with(b"\n") {
            list.push(b'\n');
        }
        let (_, out, _) = fed(&["next", "-"], &list);
        for line in out.lines().filter(|line| line.starts_with("  ")) {
            let words: Vec<&str> = line[26..].split_whitespace().collect();
            // Short words leave two blanks before the digits, long ones one.
            let digits = words
                .iter()
                .find(|word| word.bytes().all(|b| b.is_ascii_hexdigit()));
            let digits = digits.expect("a frame");
            let at = words.iter().position(|word| word == digits).expect("there");
            let whole = [&list[..], digits.as_bytes(), b"\n"].concat();
            let answers = lines(&whole);
            let answer = answers.lines().last().expect("a line");
            let said = match words[at + 1..] {
                ["Rule", letter, ..] => format!("00{}", letter.trim_end_matches(',')),
                [word, ..] if word.len() == 3 && word.ends_with(':') => word[..2].to_string(),
                _ => "00J".to_string(),
            };
            assert_eq!(answer, said, "seed {seed}: {line}");
            told += 1;
        }
    }
    assert!(told > 500, "{told}");
}

/// After an earlier frame: what the list up to there gives, under another head.
#[test]
#[cfg_attr(not(library), ignore = "needs the engine's library")]
fn next_after_an_earlier_frame() {
    let list = list("09-catching-up");
    let frames: Vec<&[u8]> = list.split_inclusive(|&b| b == b'\n').collect();
    for number in 1..=frames.len() {
        let whole = out(&["next", &number.to_string(), "-"], &list);
        let cut = out(&["next", "-"], &frames[..number].concat());
        let (head, rest) = whole.split_once('\n').expect("a head");
        let start = format!("After frame {number} of {}:  ", frames.len());
        assert!(head.starts_with(&start), "{head}");
        let (_, want) = cut.split_once('\n').expect("a head");
        assert_eq!(rest, want, "{number}");
    }
    let text = out(&["next", "0", "-"], &list);
    assert!(
        text.starts_with("Before the first frame.\nNo job is set: "),
        "{text}"
    );
    let text = out(&["next", "3", "-"], MIXED.as_bytes());
    let head = "After frame 3 of 4 (line 7):  110100010001  deliver ASK 0>1 #1  ->  00C\n";
    assert!(text.starts_with(head), "{text}");
    // A run that is lost later is not lost yet.
    let rule_book = file("00-the-rule-books-sitting");
    let (_, text, _) = run(&["next", "12", &rule_book]);
    assert!(text.contains("FF: The run would be lost"), "{text}");
    let (_, text, _) = run(&["next", "14", &rule_book]);
    assert!(text.contains("The run was lost at frame 13"), "{text}");
}
