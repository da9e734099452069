//! What a refusal by question 6 waits for.

mod common;

use common::steps::{played, said};
use explained::words::headline::headline;
use reference::answer::{Answer, Question};

/// Chare 1 on machine 1 writes to chare 2 on machine 2.
const APART: &str = "0102020201010200020000";
/// Both on machine 1.
const TOGETHER: &str = "0102020201010200010000";
const REFUSED: Answer = Answer::Refused(Question::Present);

/// The reason and the hint, without the question.
fn waits(job: &str, frames: &[&str], given: &str) -> String {
    let text = said(&played(job, frames), given, REFUSED);
    let (_, why) = text.split_once("?\": ").expect("a question");
    why.to_string()
}

#[test]
fn packets_that_are_still_on_the_wire() {
    let worked = [
        "1001000301",
        "110100010001",
        "110200010001",
        "110300010001",
        "1201",
    ];
    for (job, frames, given, want) in [
        (APART, &worked[..1], "1201", "chare 1 has given no TN 1; ASK 0→1 #1 is still on the wire."),
        (APART, &worked[..2], "1201", "TN 1, 0→1 #1, is not received; GRANT 0→1 #1 is still on the wire."),
        (APART, &worked[..3], "1201", "TN 1, 0→1 #1, is not received; DATA 0→1 #1 is still on the wire."),
        (APART, &worked[..1], "110300010001", "no DATA 0→1 #1 is on the wire; ASK 0→1 #1 is still on the wire."),
        (APART, &worked[..2], "110300010001", "no DATA 0→1 #1 is on the wire; GRANT 0→1 #1 is still on the wire."),
        (TOGETHER, &worked[..], "1202", "TN 1, 1→2 #1, is not noted; NOTE 1→2 #1 is still on the wire."),
        // Nothing is waited for.
        (APART, &worked[..], "110300010001", "no DATA 0→1 #1 is on the wire."),
        (APART, &worked[..], "1201", "chare 1 has given no TN 2."),
        // Of another message, or of none that was sent.
        (APART, &worked[..1], "110100010002", "no ASK 0→1 #2 is on the wire; 0→1 #2 is not sent yet."),
        (APART, &worked[..4], "110101020001", "no ASK 1→2 #1 is on the wire; 1→2 #1 is not sent yet."),
        // Nobody knows what a machine that is down has sent.
        (APART, &["1401"], "110101020001", "no ASK 1→2 #1 is on the wire."),
        (
            APART,
            &["1001000301"; 5],
            "1201",
            "chare 1 has given no TN 1; ASK 0→1 #1, ASK 0→1 #2, ASK 0→1 #3 and 2 more are still on the wire.",
        ),
    ] {
        assert_eq!(waits(job, frames, given), want, "{frames:?} {given}");
    }
}

/// An ASK that is there twice is named once.
#[test]
fn each_name_once() {
    let frames = ["1001000301", "110100010001", "110200010001", "1401", "1501"];
    let twice = waits(APART, &[&frames[..], &["1001000301"]].concat(), "1201");
    let want = "TN 1, 0→1 #1, is not received; DATA 0→1 #1 is still on the wire.";
    assert_eq!(twice, want);
}

/// The margin of a picture has no room for it.
#[test]
fn not_in_the_margin() {
    use explained::play::play;
    use reference::reader::answer_all;
    let list = format!("{APART}\n1001000301\n1201\n");
    let mut last = String::new();
    let played = play(list.as_bytes(), &answer_all(list.as_bytes()), |step| {
        last = headline(step);
    });
    assert_eq!(played, Ok(()));
    assert_eq!(last, "chare 1 has given no TN 1");
}
