//! Words for what no short list reaches.

mod common;

use common::steps::{played, said};
use reference::answer::{Answer, Question, Rule};
use reference::state::State;
use reference::world::{Note, Phase};

/// Chare 1 on machine 1 writes to chare 2 on machine 2.
const APART: &str = "0102020201010200020000";
/// Chare 1 writes to chare 2 on the same machine.
const TOGETHER: &str = "0102020201010200010000";
/// A message to chare 1, up to its work.
const WORKED: [&str; 5] = [
    "1001000301",
    "110100010001",
    "110200010001",
    "110300010001",
    "1201",
];

/// A restarted sender sends its DATA a second time.
const DATA_TWICE: [&str; 9] = [
    "110101020001",
    "110201020001",
    "1401",
    "1501",
    "110300010001",
    "1201",
    "110101020001",
    "110201020001",
    "110301020001",
];

#[test]
fn data_that_was_received_before() {
    let state = played(APART, &[&WORKED[..], &DATA_TWICE].concat());
    let text = said(&state, "110301020001", Answer::Accepted(Rule::DataDropped));
    assert!(
        text.contains("Rule I, dropped: chare 2 has received 1→2 #1, TN 1, before."),
        "{text}"
    );
}

#[test]
fn data_without_an_entry() {
    let done = ["1202", "1302"];
    let state = played(APART, &[&WORKED[..], &DATA_TWICE, &done].concat());
    let text = said(&state, "110301020001", Answer::Accepted(Rule::DataDropped));
    assert!(
        text.contains("Rule I, dropped: chare 2 has no ticket for 1→2 #1 in its table."),
        "{text}"
    );
}

#[test]
fn a_note_that_is_there_already() {
    let mut state = played(TOGETHER, &WORKED);
    let note = Note {
        sender: 1,
        receiver: 2,
        sn: 1,
        tn: 1,
    };
    assert!(state.world.backups[0].notes.push(note));
    let text = said(&state, "110401020001", Answer::Accepted(Rule::Other));
    assert!(
        text.contains("stored already, and not stored twice."),
        "{text}"
    );
}

/// The refusal says which number it is: an SN of the desk or of a chare, a TN that is asked for or taken at once.
#[test]
fn a_number_that_passes_sixty_thousand() {
    let mut sending = played(APART, &[]);
    sending.world.desk.sent[0] = 60_000;
    let mut asked = played(APART, &WORKED[..1]);
    asked.world.chares[0].height = 60_000;
    let mut working = played(APART, &WORKED[..4]);
    working.world.chares[0].sent[1] = 60_000;
    let mut taking = played(TOGETHER, &WORKED[..4]);
    taking.world.chares[1].height = 60_000;
    for (state, frame, want) in [
        (&sending, "1001000300", "the SN of 0→1 would be 60001"),
        (
            &asked,
            "110100010001",
            "the next TN of chare 1 would be 60001",
        ),
        (&working, "1201", "the SN of 1→2 would be 60001"),
        (&taking, "1201", "the next TN of chare 2 would be 60001"),
    ] {
        let text = said(state, frame, Answer::Refused(Question::Number));
        assert!(text.contains("question 7"), "{text}");
        assert!(text.contains(want), "{text}");
    }
}

/// An ASK that is refused for the window says by how many its SN is beyond it.
#[test]
fn an_ask_outside_the_window() {
    let mut state = played(APART, &[]);
    state.world.desk.sent[0] = 202;
    state.world.chares[0].seen[0].mark = 70;
    let frames = ["1001000300", "1001000300"];
    assert!(frames.map(|inject| state.line(inject.as_bytes()).is_accepted()) == [true; 2]);
    for (ask, by) in [("1101000100CB", 5), ("1101000100CC", 6)] {
        let text = said(&state, ask, Answer::Refused(Question::Window));
        let want = format!(
            "question 8, \"new ticket: SN at most mark + 128?\": SN {} is {by} beyond mark 70 + 128.",
            198 + by
        );
        assert!(text.contains(&want), "{text}");
    }
}

/// A work that is refused for the window names the first message that is beyond it.
#[test]
fn a_work_outside_the_window() {
    let mut once = played(TOGETHER, &WORKED[..4]);
    once.world.chares[0].sent[1] = 131;
    once.world.chares[1].seen[1].mark = 2;
    // Both ports are chare 2, and the first of the two messages is open still.
    let mut twice = played("0102020201010202010000", &WORKED[..4]);
    twice.world.chares[0].sent[1] = 129;
    twice.world.chares[1].seen[1].mark = 2;
    // The first message, to another machine, is further beyond, but has yet to ask.
    let mut other = played("0102030201010203020000010000", &WORKED[..4]);
    other.world.chares[0].sent[1] = 200;
    other.world.chares[0].sent[2] = 130;
    other.world.chares[2].seen[1].mark = 2;
    for (state, want) in [
        (
            &once,
            "it sends 1→2 #132, and SN 132 is 2 beyond mark 2 + 128.",
        ),
        (
            &twice,
            "it sends 1→2 #131, and SN 131 is 1 beyond mark 2 + 128.",
        ),
        (
            &other,
            "it sends 1→3 #131, and SN 131 is 1 beyond mark 2 + 128.",
        ),
    ] {
        let text = said(state, "1201", Answer::Refused(Question::Window));
        assert!(text.contains(want), "{text}");
    }
}

/// The sends of a work are judged with the message worked, so the mark named is the one after it.
#[test]
fn a_work_that_raises_the_mark() {
    // Chare 1 writes to itself.
    let noted = ["110401010001", "110501010001"];
    let first = [&["1001000302"], &WORKED[1..]].concat();
    let mut state = played("0102010201010100", &[&first[..], &noted].concat());
    state.world.chares[0].sent[0] = 129;
    let text = said(&state, "1201", Answer::Refused(Question::Window));
    let want = "it sends 1→1 #130, and SN 130 is 1 beyond mark 1 + 128.";
    assert!(text.contains(want), "{text}");
    state.world.chares[0].sent[0] = 128;
    said(&state, "1201", Answer::Accepted(Rule::Other));
}

/// A number that stands in two bases says so.
#[test]
fn a_value_in_both_bases() {
    let state = played(
        APART,
        &[
            &WORKED[..],
            &["110101020001", "110201020001", "110301020001"],
        ]
        .concat(),
    );
    let text = said(&state, "1202", Answer::Accepted(Rule::Other));
    assert!(text.contains("value 35 (hex 0023), hops 0"), "{text}");
    assert!(
        text.contains("plus 35 (hex 0023), gives 00000063"),
        "{text}"
    );
    let mut high = state.clone();
    high.world.chares[0].height = 12;
    let shown = Answer::Shown {
        height: 12,
        state: 0x23,
    };
    let text = said(&high, "1601", shown);
    assert!(text.contains("up to TN 12 (hex 000C)"), "{text}");
}

#[test]
fn several_numbers_out_of_range() {
    let state = played(APART, &[]);
    let text = said(&state, "110003000000", Answer::Refused(Question::Range));
    for want in [
        "packet kind 0 is not from 1 to 5",
        "sender 3 is not from 0 to 2",
        "receiver 0 is not from 1 to 2",
        "SN 0 is not from 1 to 60000",
    ] {
        assert!(text.contains(want), "{text}");
    }
}

#[test]
fn a_job_out_of_range() {
    let job = "01020203010305000200FF";
    let text = said(&State::new(), job, Answer::Refused(Question::Range));
    for want in [
        "machine 1: buddy 3 is not from 0 to 2",
        "chare 1: machine 3 is not from 1 to 2",
        "chare 1: port 5 is not from 0 to 2",
        "chare 2: port 255 is not from 0 to 2",
    ] {
        assert!(text.contains(want), "{text}");
    }
}

/// Buddy 00 is the machine before, the last one before the first; a buddy that is named needs no word.
#[test]
fn buddies_of_a_job() {
    let job = "010301000300010000";
    let text = said(&State::new(), job, Answer::Accepted(Rule::Other));
    for want in [
        "Machine 1 (buddy: machine 3, 00 being the machine before): chare 1",
        "Machine 2 (buddy: machine 3): no chare.",
        "Machine 3 (buddy: machine 2, 00 being the machine before): no chare.",
    ] {
        assert!(text.contains(want), "{text}");
    }
}

#[test]
fn every_reason_for_a_crash_without_cover() {
    let state = played("010303020301010000020000030000", &[]);
    let mut down = state.clone();
    down.world.phases[1] = Phase::Down;
    let mut catching = state.clone();
    catching.world.phases[1] = Phase::CatchingUp;
    let mut bare = state.clone();
    bare.world.backups[0].has_copy = false;
    for (state, crash, want) in [
        (&down, "1401", "machine 2 is down"),
        (&catching, "1401", "machine 2 is catching up"),
        (&catching, "1402", "it is catching up itself"),
        (
            &bare,
            "1401",
            "machine 2, the buddy, does not hold its copy",
        ),
    ] {
        let text = said(state, crash, Answer::Lost);
        assert!(text.contains(&format!("without cover: {want}.")), "{text}");
    }
}

/// In the rule book's own sitting machine 1 is catching up and has lost machine 2's copy.
#[test]
fn all_reasons_for_a_crash_without_cover_at_once() {
    let again = ["1401", "1501", "110300010001", "1201"];
    let state = played(APART, &[&WORKED[..], &again].concat());
    let text = said(&state, "1402", Answer::Lost);
    let want =
        "without cover: machine 1 is catching up; machine 1, the buddy, does not hold its copy.";
    assert!(text.contains(want), "{text}");
}

/// A machine that holds notes but no copy, having crashed before, loses the notes.
#[test]
fn notes_without_a_copy_that_a_crash_takes() {
    let job = "010302020301010200010000";
    let frames = [&["1402", "1502"][..], &WORKED, &["110401020001"]].concat();
    let state = played(job, &frames);
    let text = said(&state, "1402", Answer::Accepted(Rule::Other));
    let want = "Gone too: 1 note that it kept for machine 1, of which it held no copy.";
    assert!(text.contains(want), "{text}");
}
