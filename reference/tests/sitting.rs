//! The whole sitting of the rule book, and the cases proved with it, as frames.

use reference::answer::{Answer, Question};
use reference::chare::worked_state;
use reference::encode::put_line;
use reference::frame::{parse, Delivery, Frame};
use reference::reader::answer_all;
use reference::state::State;
use std::fs;
use std::io::Write;
use std::path::Path;
use std::process::{Command, Stdio};

/// Plays frame and line pairs in one list.
fn play(state: &mut State, pairs: &[(&str, &str)]) {
    for (at, (frame, line)) in pairs.iter().enumerate() {
        let mut out = Vec::new();
        state.line(frame.as_bytes()).print(&mut out);
        let got = String::from_utf8(out).unwrap();
        assert_eq!(got, format!("{line}\n"), "frame {at}, {frame}");
    }
}

fn accept(state: &mut State, frames: &[&str]) {
    for frame in frames {
        let answer = state.line(frame.as_bytes());
        assert!(matches!(answer, Answer::Accepted(_)), "{frame}: {answer:?}");
    }
}

/// One chare without ports on the first of two machines.
fn one_chare() -> State {
    let mut state = State::new();
    accept(&mut state, &["0102010000010000"]);
    state
}

/// The way of a message of the desk to chare 1, from ASK to work.
fn carry(state: &mut State, sn: u16) {
    for kind in 1..=3 {
        accept(state, &[&format!("110{kind}0001{sn:04X}")]);
    }
    accept(state, &["1201"]);
}

fn inject(state: &mut State, value: u16) {
    accept(state, &[&format!("1001{value:04X}00")]);
}

fn shown(state: &mut State) -> (u16, u32) {
    match state.line(b"1601") {
        Answer::Shown { height, state } => (height, state),
        answer => panic!("{answer:?}"),
    }
}

const SITTING: [(&str, &str); 14] = [
    ("0102020201010200020000", "00J"),
    ("1001000301", "00J"),
    ("110100010001", "00C"),
    ("110200010001", "00G"),
    ("110300010001", "00H"),
    ("1201", "00J"),
    ("1401", "00J"),
    ("1601", "05"),
    ("1501", "00J"),
    ("110300010001", "00H"),
    ("1201", "00J"),
    ("1601", "00000100000023J"),
    ("1402", "FF"),
    ("1601", "04"),
];

#[test]
fn the_whole_sitting() {
    play(&mut State::new(), &SITTING);
}

/// What a marker that needs document 01's lines does: FF must not lose a character.
fn without_letter(line: &str) -> &str {
    match line.starts_with("00") {
        true => &line[..line.len() - 1],
        false => line,
    }
}

#[test]
fn without_letters_the_lines_are_document_01s() {
    let document_01 = "00 00 00 00 00 00 00 05 00 00 00 00000100000023 FF 04";
    let frames: String = SITTING.iter().map(|pair| format!("{}\n", pair.0)).collect();
    let lines = String::from_utf8(answer_all(frames.as_bytes())).unwrap();
    let old: Vec<&str> = lines.lines().map(without_letter).collect();
    assert_eq!(old.join(" "), document_01);
}

/// The first of the examples is this sitting.
#[test]
fn the_sitting_as_an_example() {
    let examples = Path::new(env!("CARGO_MANIFEST_DIR")).join("../examples");
    let column = |of: fn(&(&str, &str)) -> String| SITTING.iter().map(of).collect::<String>();
    for (end, want) in [
        ("in", column(|pair| format!("{}\n", pair.0))),
        ("out", column(|pair| format!("{}\n", pair.1))),
    ] {
        let file = examples.join(format!("00-the-rule-books-sitting.{end}"));
        assert_eq!(fs::read_to_string(file).unwrap(), want);
    }
}

/// The program itself, with a last line that has no newline.
#[test]
fn the_sitting_through_the_program() {
    let frames: Vec<&str> = SITTING.iter().map(|pair| pair.0).collect();
    let lines: Vec<&str> = SITTING.iter().map(|pair| pair.1).collect();
    let mut program = Command::new(env!("CARGO_BIN_EXE_sitting"))
        .stdin(Stdio::piped())
        .stdout(Stdio::piped())
        .spawn()
        .unwrap();
    let mut input = program.stdin.take().unwrap();
    input.write_all(frames.join("\n").as_bytes()).unwrap();
    drop(input);
    let output = program.wait_with_output().unwrap();
    assert!(output.status.success());
    let want = lines.join("\n") + "\n";
    assert_eq!(String::from_utf8(output.stdout).unwrap(), want);
}

#[test]
fn states() {
    // Each row: the values worked in turn, from state 1, and the state after the last.
    let rows: [(&[u16], u32); 6] = [
        (&[3], 35),
        (&[3, 4], 1124),
        (&[2015, 32, 0, 0, 0], 0x8000_0000),
        (&[2015, 32, 0, 0, 0, 1], 17),
        (&[3968, 3070, 0, 0, 65_535], 0xFFFF_FFFF),
        (&[3968, 3070, 0, 0, 65_535, 65_535], 65_534),
    ];
    for (values, want) in rows {
        let mut state = one_chare();
        for (sn, &value) in (1..).zip(values) {
            inject(&mut state, value);
            carry(&mut state, sn);
        }
        assert_eq!(shown(&mut state), (values.len() as u16, want));
    }
    assert_eq!(worked_state(0x8000_0000, 1), 17);
    assert_eq!(worked_state(0xFFFF_FFFF, 65_535), 65_534);
}

/// The desk's messages of these SNs, each injected and carried; a checkpoint makes space for the
/// next.
fn work_through(state: &mut State, sns: std::ops::RangeInclusive<u16>) {
    for sn in sns {
        inject(state, sn);
        carry(state, sn);
        accept(state, &["1301"]);
    }
}

/// SN 1 is held back while 2 to 128 are worked.
#[test]
fn window() {
    let mut state = one_chare();
    inject(&mut state, 1);
    work_through(&mut state, 2..=127);
    inject(&mut state, 128);
    inject(&mut state, 129);
    assert_eq!(state.world.chare(1).seen[0].mark, 0);
    play(
        &mut state,
        &[("110100010081", "08"), ("110100010080", "00C")],
    );
    accept(&mut state, &["110200010080", "110300010080", "1201"]);
    play(&mut state, &[("110100010081", "08")]);
    // SN 1 closes the run of 128, and the window is empty.
    carry(&mut state, 1);
    let seen = state.world.chare(1).seen[0];
    assert_eq!((seen.mark, seen.window), (128, 0));
    play(&mut state, &[("110100010081", "00C")]);
}

/// SN 1 and 71 are held back: the mark rises by 70, over the joint of two words, and what stood
/// above comes down.
#[test]
fn mark_rises_by_more_than_a_word() {
    let mut state = one_chare();
    inject(&mut state, 1);
    work_through(&mut state, 2..=70);
    inject(&mut state, 71);
    work_through(&mut state, 72..=80);
    carry(&mut state, 1);
    let seen = state.world.chare(1).seen[0];
    assert_eq!((seen.mark, seen.window), (70, 0b11_1111_1110));
    carry(&mut state, 71);
    let seen = state.world.chare(1).seen[0];
    assert_eq!((seen.mark, seen.window), (80, 0));
}

#[test]
fn mark_rises_over_a_gap() {
    let mut state = one_chare();
    for value in 1..=3 {
        inject(&mut state, value);
    }
    carry(&mut state, 2);
    carry(&mut state, 3);
    let seen = state.world.chare(1).seen[0];
    assert_eq!((seen.mark, seen.window), (0, 0b110));
    carry(&mut state, 1);
    let seen = state.world.chare(1).seen[0];
    assert_eq!((seen.mark, seen.window), (3, 0));
}

/// The GRANT of TN 3 is lost with its giver; TN 4 is known to the desk.
#[test]
fn hole() {
    let mut state = one_chare();
    inject(&mut state, 1);
    carry(&mut state, 1);
    accept(&mut state, &["1301"]);
    for value in 2..=4 {
        inject(&mut state, value);
    }
    accept(
        &mut state,
        &["110100010002", "110100010003", "110100010004"],
    );
    accept(&mut state, &["110200010002", "110200010004"]);
    accept(&mut state, &["1401", "1501"]);
    let me = state.world.chare(1);
    assert_eq!(me.height, 1);
    assert_eq!(me.holes().collect::<Vec<_>>(), [3]);
    assert_eq!(state.world.targets[0], 2);
    inject(&mut state, 5);
    accept(&mut state, &["110100010003", "110100010005"]);
    let tn = |state: &State, sn| {
        let table = &state.world.chare(1).table;
        table.0[table.find(0, sn).unwrap()].tn
    };
    assert_eq!((tn(&state, 3), tn(&state, 5)), (3, 5));
}

#[test]
fn checkpoint_drops_below_the_height() {
    let mut state = one_chare();
    for sn in 1..=5 {
        inject(&mut state, sn);
        carry(&mut state, sn);
    }
    accept(&mut state, &["1301"]);
    let kept: Vec<_> = state.world.desk.log.0.iter().map(|m| m.tn).collect();
    assert_eq!(kept, [Some(5)]);
}

#[test]
fn seventeenth_log_message() {
    let mut state = one_chare();
    for value in 1..=16 {
        inject(&mut state, value);
    }
    play(&mut state, &[("1001001100", "09")]);
}

#[test]
fn short_and_out_of_range() {
    let mut state = one_chare();
    play(&mut state, &[("12", "01"), ("1200", "03")]);
}

/// Two sends of one work: the first is short of table space, the second of a number further down
/// the list, and the lower number wins; nothing has changed.
#[test]
fn two_sends_are_judged_question_by_question() {
    // Chare 1 writes to itself and to chare 2 on the other machine.
    let mut state = State::new();
    accept(&mut state, &["0102020000010102020000"]);
    accept(&mut state, &["1001000701"]);
    for sn in 2..=16 {
        inject(&mut state, sn);
    }
    for sn in 1..=16 {
        accept(&mut state, &[&format!("11010001{sn:04X}")]);
    }
    accept(&mut state, &["110200010001", "110300010001"]);
    let before = state.clone();
    play(&mut state, &[("1201", "10")]);
    assert_eq!(state, before);
    // With a full log besides, 9 comes first.
    let logged = state.world.desk.log.clone();
    state.world.chare_mut(1).log = logged;
    let before = state.clone();
    assert_eq!(
        state.line(b"1201"),
        Answer::Refused(Question::LogSpace),
        "9 is put to both sends before 10"
    );
    assert_eq!(state, before);
}

#[test]
fn input_without_newline_and_empty_lines() {
    assert_eq!(answer_all(b""), b"");
    assert_eq!(answer_all(b"\n"), b"01\n");
    assert_eq!(answer_all(b"\n\n1201"), b"01\n01\n02\n");
    assert_eq!(answer_all(b"1201\r\n1201\n"), b"01\n02\n");
}

#[test]
fn jobs() {
    let rows = [
        ("010000", "03"),
        ("0107", "01"),
        ("0102010200010000", "00J"),
        ("0102010100010000", "03"),
        ("0102010003010000", "03"),
        ("0102010300010000", "03"),
        ("0102010000000000", "03"),
        ("0102010000030000", "03"),
        ("0102010000010200", "03"),
        ("0102010000010001", "00J"),
        ("0101010000010000", "01"),
        ("01010100010000", "03"),
        ("0107010000000000000001000000", "01"),
        ("01070100000000000000010000", "03"),
    ];
    for (frame, line) in rows {
        play(&mut State::new(), &[(frame, line)]);
    }
    let mut state = State::new();
    play(
        &mut state,
        &[
            ("1201", "02"),
            ("0102010100010000", "03"),
            ("1201", "02"),
            ("0102010000010000", "00J"),
            ("0102010100010000", "02"),
            ("0107", "01"),
            ("1402", "00J"),
            ("1402", "05"),
            ("1401", "FF"),
            ("0102010000010000", "02"),
            ("1402", "04"),
            ("1403", "03"),
        ],
    );
}

#[test]
fn frames_are_read_as_they_are_written() {
    let frames = [
        "0102030200010203020100010301",
        "100AFFFF07",
        "1105000CEA60",
        "1201",
        "1306",
        "1401",
        "1502",
        "160C",
        "170C",
    ];
    for text in frames {
        let frame = parse(text.as_bytes()).unwrap();
        let mut line = Vec::new();
        put_line(&mut line, &frame);
        assert_eq!(String::from_utf8(line).unwrap(), format!("{text}\n"));
        assert_eq!(parse(text.to_lowercase().as_bytes()), Some(frame));
    }
    assert_eq!(
        parse(b"1102030401F4"),
        Some(Frame::Deliver(Delivery {
            kind: 2,
            sender: 3,
            receiver: 4,
            sn: 500
        }))
    );
}
