//! What docs/BEFORE.md shows is what the command gives, and what it says of its example is true.

mod common;

use common::documents::{blocks, document, flowing, root};
use common::list;
use common::run::{result, satuphir};
use common::told::{records, told};
use reference::precedes::{precedes, Answer, Processing};
use reference::reader::answer_all;

const DOCUMENT: &str = "docs/BEFORE.md";
const EXAMPLE: &str = "09-catching-up";

/// Each call, as typed, gives what is shown below it.
#[test]
#[cfg_attr(not(library), ignore = "needs the engine's library")]
fn the_calls() {
    let text = document(DOCUMENT);
    let (calls, shown) = (blocks(&text, "sh"), blocks(&text, "text"));
    assert_eq!((calls.len(), shown.len()), (2, 2));
    for (call, shown) in calls.into_iter().zip(shown) {
        let words = call.trim_end().strip_prefix("tools/satuphir ");
        let words = words.expect("a call").split(' ');
        let run = satuphir().args(words).current_dir(root()).output();
        let (status, out, error) = result(run.expect("a run"));
        assert_eq!((status, out.as_str(), error.as_str()), (0, shown, ""));
    }
}

/// The drawing has the two arrows on chares and the two of messages.
#[test]
fn the_drawing() {
    let text = document(DOCUMENT);
    let (_, rows) = text.split_once("\n\n    chare 1 ").expect("a drawing");
    let rows = format!("    chare 1 {rows}");
    let rows: Vec<&str> = rows.lines().take(4).collect();
    let [one, from, to, two] = rows[..] else {
        panic!("{} rows", rows.len());
    };
    assert_eq!(one, "    chare 1    1:1 -----> 1:2");
    assert_eq!(two, "    chare 2    2:1 -----> 2:2");
    let middles: Vec<usize> = ["1:1", "1:2"]
        .iter()
        .filter_map(|name| Some(one.find(name)? + 1))
        .collect();
    let below = |row: &str, mark| {
        row.match_indices(mark)
            .map(|(at, _)| at)
            .collect::<Vec<_>>()
    };
    assert_eq!(
        [below(from, "|"), below(to, "v")],
        [middles.clone(), middles]
    );
    let arrows: Vec<_> = records(&list(EXAMPLE))
        .iter()
        .map(|p| (p.sender, p.sender_tn))
        .collect();
    assert_eq!(arrows, [(0, 0), (0, 0), (1, 1), (1, 2)]);
}

fn says(words: &str) {
    assert!(flowing(DOCUMENT).contains(words), "not said: {words}");
}

/// The frames that it names do what it says.
#[test]
fn the_frames() {
    says(
        "machine 1 crashes at frame 20, and chare 1 works TN 1 and TN 2 again, at frames 23 and 25",
    );
    let frames: Vec<Vec<usize>> = told(&list(EXAMPLE))
        .into_iter()
        .map(|(_, frames)| frames)
        .collect();
    assert_eq!(frames, [vec![10, 23], vec![11, 25], vec![15], vec![30]]);
    let list = list(EXAMPLE);
    assert_eq!(list.split(|&b| b == b'\n').nth(19), Some(&b"1401"[..]));
}

/// The example with one frame moved behind another.
fn moved(from: usize, behind: usize) -> Vec<u8> {
    let list = list(EXAMPLE);
    let mut frames: Vec<&[u8]> = list.split_inclusive(|&b| b == b'\n').collect();
    let frame = frames.remove(from - 1);
    frames.insert(behind - 1, frame);
    frames.concat()
}

/// Neither of two came before the other: they may be exchanged, and nothing changes but their places.
#[test]
fn two_that_are_not_ordered() {
    says("with frame 11 moved behind frame 15 every processing is the same, and only the places 2 and 3 change");
    let (row, list) = (records(&list(EXAMPLE)), moved(11, 15));
    let other = records(&list);
    let mut want = row.clone();
    want.swap(1, 2);
    assert_eq!(other, want);
    let lines = answer_all(&list);
    assert!(lines
        .split_inclusive(|&b| b == b'\n')
        .all(|line| line.starts_with(b"00")));
    // Heights and states at the end are the same.
    let shows = |lines: &[u8]| {
        String::from_utf8_lossy(lines)
            .lines()
            .rev()
            .take(2)
            .map(str::to_string)
            .collect::<Vec<_>>()
    };
    assert_eq!(shows(&lines), shows(&answer_all(&common::list(EXAMPLE))));
    for (first, later) in [((1, 2), (2, 1)), ((2, 1), (1, 2))] {
        for row in [&row, &other] {
            assert_eq!(precedes(row, first, later), Answer::No);
        }
    }
}

/// What makes a row bad is said in the order and with the numbers of the request.
#[test]
fn bad_rows() {
    says("at most 512 records of chare, TN, sender, and the sender's TN at which the message was sent, both 0 for the desk");
    let first = Processing {
        chare: 1,
        tn: 1,
        sender: 0,
        sender_tn: 0,
    };
    for (words, record) in [
        ("a chare outside 1 to 12", Processing { chare: 13, ..first }),
        (
            "a sender outside 0 to 12",
            Processing {
                tn: 2,
                sender: 13,
                sender_tn: 1,
                ..first
            },
        ),
        (
            "whose sending record does not stand earlier in the row",
            Processing {
                chare: 2,
                sender: 2,
                sender_tn: 1,
                ..first
            },
        ),
        (
            "that gives the desk a TN other than 0",
            Processing {
                tn: 2,
                sender_tn: 1,
                ..first
            },
        ),
        (
            "whose TN is not the next one of its chare",
            Processing { tn: 3, ..first },
        ),
    ] {
        says(words);
        assert_eq!(
            precedes(&[first, record], (1, 1), (9, 9)),
            Answer::Bad(2),
            "{words}"
        );
    }
    says("or that is the 513th");
    let long: Vec<Processing> = (1..=600).map(|tn| Processing { tn, ..first }).collect();
    assert_eq!(precedes(&long, (1, 1), (9, 9)), Answer::Bad(513));
}
