//! Point 1: the letter that ends an accepted line. Every line here is worked out from the papers.

use reference::answer::{Answer, Question, Rule};
use reference::frame::{parse, Frame};
use reference::generator::{list, whole, Generator};
use reference::seen::Reply;
use reference::state::State;
use reference::wire::Content;

type Pair = (&'static str, &'static str);

/// Plays frame and line pairs in one list, begun before any job.
fn play(parts: &[&[Pair]]) {
    let mut state = State::new();
    for (at, (frame, line)) in parts.concat().into_iter().enumerate() {
        let mut out = Vec::new();
        state.line(frame.as_bytes()).print(&mut out);
        let got = String::from_utf8(out).unwrap();
        assert_eq!(got, format!("{line}\n"), "frame {at}, {frame}");
    }
}

/// Chare 1 on machine 1 has written to chare 2 on machine 2: the ASK is on the wire.
const WRITTEN: [Pair; 6] = [
    ("0102020000010200020000", "00J"),
    ("1001000701", "00J"),
    ("110100010001", "00C"),
    ("110200010001", "00G"),
    ("110300010001", "00H"),
    ("1201", "00J"),
];

/// Chare 1 loses that work and does it again: an ASK more. Packets to machine 2 outlive the crash, GRANTs to chare 1 do not.
const AGAIN: [Pair; 4] = [
    ("1401", "00J"),
    ("1501", "00J"),
    ("110300010001", "00H"),
    ("1201", "00J"),
];

const ASK_FOUND: Pair = ("110101020001", "00A");
const ASK_WORKED: Pair = ("110101020001", "00B");
const ASK_NEW: Pair = ("110101020001", "00C");
const GRANT_DROPPED: Pair = ("110201020001", "00D");
const GRANT_OLD: Pair = ("110201020001", "00E");
const GRANT_RECEIVED: Pair = ("110201020001", "00F");
const GRANT_NEW: Pair = ("110201020001", "00G");
const DATA_FILLED: Pair = ("110301020001", "00H");
const DATA_DROPPED: Pair = ("110301020001", "00I");
const WORK: Pair = ("1202", "00J");
const CHECKPOINT: Pair = ("1302", "00J");
/// Chare 2 has worked the message: state 2, value 39.
const SHOWN: Pair = ("1602", "00000100000067J");

#[test]
fn letters_in_order() {
    let letters: String = Rule::ALL.iter().map(|rule| rule.letter()).collect();
    assert_eq!(letters, "ABCDEFGHIJ");
}

/// C, G and H: a message that is lost nowhere.
#[test]
fn new_tickets() {
    play(&[
        &WRITTEN,
        &[ASK_NEW, GRANT_NEW, DATA_FILLED, WORK, SHOWN],
        &[("1601", "00000100000027J")],
    ]);
}

/// A: the sender lost the GRANT and asks again.
#[test]
fn found_not_received() {
    play(&[
        &WRITTEN,
        &[ASK_NEW],
        &AGAIN,
        &[ASK_FOUND, GRANT_NEW, DATA_FILLED, WORK, SHOWN],
    ]);
}

/// A: the receiver restarts from a copy with the ticket; its GRANT to the desk is lost.
#[test]
fn found_in_the_copy() {
    play(&[&[
        ("0102010000010000", "00J"),
        ("1001000700", "00J"),
        ("110100010001", "00C"),
        ("1301", "00J"),
        ("1401", "00J"),
        ("1501", "00J"),
        ("110100010001", "00A"),
        ("110200010001", "00G"),
        ("110300010001", "00H"),
        ("1201", "00J"),
        ("1601", "00000100000027J"),
    ]]);
}

/// A and F, of a message that waits and of one that is worked while its entry stands.
#[test]
fn found_received() {
    play(&[
        &WRITTEN,
        &[ASK_NEW, GRANT_NEW, DATA_FILLED],
        &AGAIN,
        &[ASK_FOUND, GRANT_RECEIVED, WORK, SHOWN],
    ]);
    play(&[
        &WRITTEN,
        &[ASK_NEW, GRANT_NEW, DATA_FILLED, WORK],
        &AGAIN,
        &[ASK_FOUND, GRANT_RECEIVED, SHOWN],
    ]);
}

/// B and E: worked, and the checkpoint took the entry. A checkpoint before the work takes nothing.
#[test]
fn worked() {
    play(&[
        &WRITTEN,
        &[ASK_NEW, GRANT_NEW, DATA_FILLED, WORK, CHECKPOINT],
        &AGAIN,
        &[ASK_WORKED, GRANT_OLD, SHOWN],
    ]);
    play(&[
        &WRITTEN,
        &[ASK_NEW, GRANT_NEW, DATA_FILLED, CHECKPOINT, WORK],
        &AGAIN,
        &[ASK_FOUND, GRANT_RECEIVED, SHOWN],
    ]);
}

/// B above the mark, by the window's bit: SN 1 is held back while SN 2 is worked.
#[test]
fn worked_above_the_mark() {
    play(&[
        &[("0102020000010202020000", "00J")],
        &WRITTEN[1..],
        &[
            ("110101020002", "00C"),
            ("110201020002", "00G"),
            ("110301020002", "00H"),
            WORK,
            CHECKPOINT,
        ],
        &AGAIN,
        &[("110101020002", "00B"), ("110201020002", "00E")],
        &[ASK_NEW, GRANT_NEW, DATA_FILLED, WORK],
    ]);
}

/// D of a GRANT new. The ASK outlives its sender's crash: once the log has no such message yet, once it has it with a TN.
#[test]
fn dropped_new() {
    play(&[
        &WRITTEN,
        &AGAIN[..2],
        &[ASK_NEW, GRANT_DROPPED],
        &AGAIN[2..],
        &[ASK_FOUND, GRANT_NEW, DATA_FILLED, WORK, SHOWN],
    ]);
    play(&[
        &WRITTEN,
        &AGAIN,
        &[ASK_NEW, ASK_FOUND, GRANT_NEW, GRANT_DROPPED],
        &[DATA_FILLED, WORK, SHOWN],
    ]);
}

/// D of a GRANT received: with a TN; and with a second crash, no such message.
#[test]
fn dropped_received() {
    play(&[
        &WRITTEN,
        &AGAIN,
        &[ASK_NEW, GRANT_NEW, DATA_FILLED],
        &[ASK_FOUND, GRANT_DROPPED, WORK, SHOWN],
    ]);
    play(&[
        &WRITTEN,
        &AGAIN,
        &[ASK_NEW, GRANT_NEW, DATA_FILLED],
        &AGAIN[..2],
        &[ASK_FOUND, GRANT_DROPPED],
        &AGAIN[2..],
        &[ASK_FOUND, GRANT_RECEIVED, WORK, SHOWN],
    ]);
}

/// D of a GRANT old: with a TN; and after another GRANT old took the message.
#[test]
fn dropped_old() {
    play(&[
        &WRITTEN,
        &AGAIN,
        &[ASK_NEW, GRANT_NEW, DATA_FILLED, WORK, CHECKPOINT],
        &[ASK_WORKED, GRANT_DROPPED, SHOWN],
    ]);
    play(&[
        &WRITTEN,
        &AGAIN,
        &[ASK_NEW, GRANT_NEW, DATA_FILLED, WORK, CHECKPOINT],
        &AGAIN,
        &[ASK_WORKED, ASK_WORKED, GRANT_OLD, GRANT_DROPPED, SHOWN],
    ]);
}

/// I: DATA that comes twice finds its entry received, or gone with a checkpoint.
#[test]
fn data_dropped() {
    let twice: [&[Pair]; 4] = [
        &WRITTEN,
        &[ASK_NEW, GRANT_NEW],
        &AGAIN,
        &[ASK_FOUND, GRANT_NEW, DATA_FILLED],
    ];
    play(&[&twice.concat(), &[DATA_DROPPED, WORK, SHOWN]]);
    play(&[&twice.concat(), &[WORK, DATA_DROPPED, SHOWN]]);
    play(&[&twice.concat(), &[WORK, CHECKPOINT, DATA_DROPPED, SHOWN]]);
}

/// J: NOTE and ACK too, where they change something and where they do not.
#[test]
fn notes_and_acks() {
    let written: [&[Pair]; 2] = [&[("0102020000010200010000", "00J")], &WRITTEN[1..]];
    let (note, ack) = (("110401020001", "00J"), ("110501020001", "00J"));
    play(&[&written.concat(), &[("1202", "06"), note, ack, WORK, SHOWN]]);
    // A checkpoint notes the entry before its ACK comes; after the work, another takes it away.
    let checkpoint = ("1301", "00J");
    play(&[
        &written.concat(),
        &[note, checkpoint, WORK, checkpoint, ack, SHOWN],
    ]);
}

/// Refusals and FF have no letter.
#[test]
fn no_letter() {
    play(&[
        &[("12", "01"), ("1201", "02"), ("0101010000", "01")],
        &WRITTEN,
        &[("0102010000010000", "02"), ("1203", "03"), ("1201", "06")],
        &[("1701", "12"), ("1702", "12"), ("1703", "03")],
        &[("1402", "00J"), ("1602", "05"), ("1401", "FF")],
        &[("1601", "04"), ("1401", "04")],
    ]);
    for question in [Question::Form, Question::LogSpace, Question::WireSpace] {
        assert_eq!(Answer::Refused(question).rule(), None);
    }
    assert_eq!(Answer::Lost.rule(), None);
}

/// The letter by the papers' words, from the frame and the state before it alone.
fn letter(before: &State, frame: &Frame) -> char {
    let Frame::Deliver(delivery) = frame else {
        return 'J';
    };
    let name = delivery.name().unwrap();
    let (world, sender, sn) = (&before.world, name.sender(), name.sn());
    let receiver = world.chare(name.receiver());
    let entry = receiver.table.find(sender, sn);
    let is_filled = entry.map(|at| receiver.table.0[at].received.is_some());
    let mut log = world.log(sender).0.iter();
    let logged = log.find(|m| m.receiver == name.receiver() && m.sn == sn);
    let waits = logged.is_some_and(|m| m.tn.is_none());
    match world.wire.content(world.wire.find(name).unwrap()) {
        Content::Ask if entry.is_some() => 'A',
        Content::Ask if receiver.seen[sender as usize].look(sn) == Reply::Worked => 'B',
        Content::Ask => 'C',
        Content::GrantOld if waits => 'E',
        Content::GrantReceived(_) if waits => 'F',
        Content::GrantNew(_) if waits => 'G',
        Content::GrantOld | Content::GrantReceived(_) | Content::GrantNew(_) => 'D',
        Content::Data { .. } if is_filled == Some(false) => 'H',
        Content::Data { .. } => 'I',
        Content::Note(_) | Content::Ack => 'J',
    }
}

/// Plays a list; every letter is the one that the state before the frame gives, and stands in the line.
fn check_letters(name: &str, list: &[u8]) {
    let mut state = State::new();
    for line in list.split(|&b| b == b'\n') {
        let before = state.clone();
        let answer = state.line(line);
        let accepted = answer.is_accepted();
        let want = accepted.then(|| letter(&before, &parse(line).unwrap()));
        let text = String::from_utf8_lossy(line);
        assert_eq!(answer.rule().map(Rule::letter), want, "{name}, {text}");
        let mut printed = Vec::new();
        answer.print(&mut printed);
        match want {
            Some(letter) => assert!(
                printed.starts_with(b"00") && printed.ends_with(&[letter as u8, b'\n']),
                "{name}, {text}"
            ),
            None => assert!(
                !printed.starts_with(b"00") && printed.len() == 3,
                "{name}, {text}"
            ),
        }
    }
}

#[test]
fn random_lists() {
    for seed in 0..100 {
        check_letters(&format!("seed {seed}"), &list(seed, 1000));
        let crashing = whole(Generator::crashing(seed, 1000));
        check_letters(&format!("seed {seed}, crashing"), &crashing);
    }
}
