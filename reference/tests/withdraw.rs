//! Point 4: frame 17 takes the desk's last message to a chare back.

use reference::answer::{Answer, Question, Rule};
use reference::census::{Census, Event};
use reference::frame::parse;
use reference::generator::{list, whole, Generator};
use reference::limits::{LOG_SIZE, MAX_NUMBER, WIRE_SIZE};
use reference::message::Lookup;
use reference::reader::answer_all;
use reference::state::State;
use reference::wire::{Kind, Name};
use reference::world::Phase;

/// Chares 1 and 2 on machine 1, chare 3 on machine 2; chare 3 writes to chare 1.
const JOB: &str = "0102030000010000010000020100";

fn start(frames: &[&str]) -> State {
    let mut state = State::new();
    accept(&mut state, &[JOB]);
    accept(&mut state, frames);
    state
}

fn accept(state: &mut State, frames: &[&str]) {
    for frame in frames {
        let answer = state.line(frame.as_bytes());
        assert!(matches!(answer, Answer::Accepted(_)), "{frame}: {answer:?}");
    }
}

fn withdraw(state: &mut State, frame: &str) {
    let answer = state.line(frame.as_bytes());
    assert_eq!(answer, Answer::Accepted(Rule::Other), "{frame}");
}

fn refuse(state: &mut State, frame: &str, question: Question) {
    let before = state.clone();
    let answer = state.line(frame.as_bytes());
    assert_eq!(answer, Answer::Refused(question), "{frame}");
    assert_eq!(*state, before, "{frame} changed something");
}

fn ask(sender: u8, receiver: u8, sn: u16) -> Name {
    Name::new(Kind::Ask, sender, receiver, sn)
}

#[test]
fn the_last_message_is_taken_back() {
    let mut state = start(&["1001000300", "1001000400"]);
    withdraw(&mut state, "1701");
    assert_eq!(state, start(&["1001000300"]));
    withdraw(&mut state, "1701");
    assert_eq!(state, start(&[]));
    // A count of 0: there is no last message.
    refuse(&mut state, "1701", Question::Withdrawable);
}

/// The last to that chare, not the last of all; counts of others stay.
#[test]
fn other_messages_stay() {
    let mut state = start(&["1001000300", "1002000400", "1002000500", "1003000600"]);
    withdraw(&mut state, "1702");
    assert_eq!(state.world.desk.sent[..3], [1, 1, 1]);
    assert_eq!(state, start(&["1001000300", "1002000400", "1003000600"]));
    withdraw(&mut state, "1701");
    assert_eq!(state.world.desk.sent[..3], [0, 1, 1]);
    let logged = state.world.desk.log.0.iter();
    let logged: Vec<_> = logged.map(|m| (m.receiver, m.sn, m.body.value)).collect();
    assert_eq!(logged, [(2, 1, 4), (3, 1, 6)]);
}

/// Nothing leaves the wire but that ASK: not the ASK of another sender to the same chare with the
/// same SN, nor the desk's with another SN, nor one to another chare; the rest stays in order.
#[test]
fn the_rest_of_the_wire_keeps_its_order() {
    let mut state = start(&["1003000901", "110100030001", "110200030001"]);
    accept(&mut state, &["110300030001", "1001000300", "1203"]);
    accept(&mut state, &["1001000400", "1002000500", "110100010001"]);
    let grant = Name::new(Kind::Grant, 0, 1, 1);
    let all = [ask(3, 1, 1), ask(0, 1, 2), ask(0, 2, 1), grant];
    assert_eq!(state.world.wire.names(), all);
    withdraw(&mut state, "1701");
    assert_eq!(state.world.wire.names(), [all[0], all[2], all[3]]);
    // SN 1, the last message now, has its ticket.
    refuse(&mut state, "1701", Question::Withdrawable);
    withdraw(&mut state, "1702");
    assert_eq!(state.world.wire.names(), [all[0], all[3]]);
    accept(&mut state, &["110200010001", "110300010001", "1201"]);
}

/// No list has more than one ASK of a name; from a state that has, all go.
#[test]
fn every_ask_of_that_name_goes() {
    let mut state = start(&["1001000300", "1002000300"]);
    let content = state.world.wire.content(0);
    state.world.wire.push(ask(0, 1, 1), content);
    withdraw(&mut state, "1701");
    assert_eq!(state.world.wire.names(), [ask(0, 2, 1)]);
}

/// Injected and withdrawn with nothing between: wherever random lists lead, the state is as before.
#[test]
fn an_injection_and_its_withdrawal_leave_the_state() {
    let (mut withdrawn, mut catching_up, mut down) = (0, 0, 0);
    for seed in 0..12 {
        for input in [list(seed, 400), whole(Generator::crashing(seed, 400))] {
            let mut state = State::new();
            for line in input.split(|&b| b == b'\n') {
                state.line(line);
                let Some(job) = state.job.clone() else {
                    continue;
                };
                for chare in job.chares() {
                    let mut after = state.clone();
                    let inject = format!("10{chare:02X}ABCD01");
                    if !after.line(inject.as_bytes()).is_accepted() {
                        continue;
                    }
                    let frame = format!("17{chare:02X}");
                    if state.world.is_up(job.machine_of(chare)) {
                        withdraw(&mut after, &frame);
                        assert_eq!(after, state, "seed {seed}");
                        withdrawn += 1;
                        catching_up += usize::from(!state.world.all_well());
                    } else {
                        refuse(&mut after, &frame, Question::Up);
                        down += 1;
                    }
                }
            }
        }
    }
    assert!(withdrawn > 10_000, "{withdrawn}");
    assert!(catching_up > 1000 && down > 100, "{catching_up} {down}");
}

/// What question 12 sees: waits in the desk's log, has its ASK on the wire, has a ticket.
fn seen(state: &State, chare: u8) -> (bool, bool, bool) {
    let last = state.world.last_injected(chare);
    let waits = matches!(last.logged, Lookup::Waiting(_));
    (waits, last.asks, last.ticket.is_some())
}

/// The log alone is wrong: the message has a TN, or is not there. In a list the ASK is gone by then,
/// so the state is made by hand.
#[test]
fn not_waiting_alone() {
    let good = start(&["1001000300"]);
    let mut state = good.clone();
    state.world.desk.log.0[0].tn = Some(1);
    assert_eq!(seen(&state, 1), (false, true, false));
    refuse(&mut state, "1701", Question::Withdrawable);
    let mut state = good.clone();
    state.world.desk.log.0.remove(0);
    assert_eq!(seen(&state, 1), (false, true, false));
    refuse(&mut state, "1701", Question::Withdrawable);
    // Another SN to that chare, or that SN to another chare, is another message.
    for (receiver, sn) in [(1, 2), (2, 1)] {
        let mut state = good.clone();
        (
            state.world.desk.log.0[0].receiver,
            state.world.desk.log.0[0].sn,
        ) = (receiver, sn);
        refuse(&mut state, "1701", Question::Withdrawable);
    }
    withdraw(&mut good.clone(), "1701");
}

/// The ASK alone is missing. In a list a message that waits has its ASK on the wire or a ticket, so
/// this state too is made by hand.
#[test]
fn no_ask_alone() {
    let mut state = start(&["1001000300"]);
    let content = state.world.wire.content(0);
    state.world.wire.remove(0);
    assert_eq!(seen(&state, 1), (true, false, false));
    refuse(&mut state, "1701", Question::Withdrawable);
    // Packets of another kind, sender, receiver or SN are not that ASK.
    let others = [
        Name::new(Kind::Grant, 0, 1, 1),
        ask(3, 1, 1),
        ask(0, 2, 1),
        ask(0, 1, 2),
    ];
    for name in others {
        state.world.wire.push(name, content);
        refuse(&mut state, "1701", Question::Withdrawable);
    }
    state.world.wire.push(ask(0, 1, 1), content);
    withdraw(&mut state, "1701");
    assert_eq!(state.world.wire.names(), others);
}

/// The ticket alone is in the way: it was in the copy, and the restart has the ASK sent again.
#[test]
fn a_ticket_alone() {
    let mut state = start(&["1001000300", "110100010001", "1301", "1401", "1501"]);
    assert_eq!(seen(&state, 1), (true, true, true));
    refuse(&mut state, "1701", Question::Withdrawable);
    // Tickets of another sender or SN are not that one.
    for (sender, sn) in [(3, 1), (0, 2)] {
        let mut other = state.clone();
        let entry = &mut other.world.chare_mut(1).table.0[0];
        (entry.sender, entry.sn) = (sender, sn);
        withdraw(&mut other, "1701");
        assert_eq!(other.world.chare(1).table.0.len(), 1);
    }
    state.world.chare_mut(1).table.0.clear();
    withdraw(&mut state, "1701");
}

/// The same without the checkpoint: the ticket died with the machine, and the message can go.
#[test]
fn a_ticket_that_is_lost() {
    let mut state = start(&["1001000300", "110100010001", "1401", "1501"]);
    assert_eq!(seen(&state, 1), (true, true, false));
    withdraw(&mut state, "1701");
    let names = state.world.wire.names();
    assert!(names.is_empty() && state.world.desk.log.0.is_empty());
}

/// From the ASK's delivery on, through the message's whole life.
#[test]
fn once_asked_it_stays() {
    let mut state = start(&["1001000300"]);
    for (frames, (waits, asks, ticket)) in [
        (&["110100010001"][..], (true, false, true)),
        (&["110200010001"], (false, false, true)),
        (&["110300010001"], (false, false, true)),
        (&["1201"], (false, false, true)),
        // Worked, and out of the table; a TN that equals the height stays in the log.
        (&["1301"], (false, false, false)),
    ] {
        accept(&mut state, frames);
        assert_eq!(seen(&state, 1), (waits, asks, ticket), "{frames:?}");
        refuse(&mut state, "1701", Question::Withdrawable);
    }
    assert!(matches!(
        state.world.last_injected(1).logged,
        Lookup::Ticketed(0)
    ));
    // Another work, and it has left the log.
    accept(&mut state, &["1003000901", "110100030001", "110200030001"]);
    accept(&mut state, &["110300030001", "1203", "110103010001"]);
    accept(&mut state, &["110203010001", "110303010001", "1201"]);
    accept(&mut state, &["1301"]);
    assert_eq!(state.world.last_injected(1).logged, Lookup::Missing);
    assert_eq!(state.world.last_injected(1).sn, 1);
    refuse(&mut state, "1701", Question::Withdrawable);
}

/// Every question in its turn: each row is refused by its number although later ones say no too.
#[test]
fn questions_in_order() {
    let mut state = State::new();
    for line in ["17", "1", "170", "170101", "1701\r", "17 01", "17G1"] {
        refuse(&mut state, line, Question::Form);
    }
    refuse(&mut state, "1701", Question::Job);
    accept(&mut state, &[JOB]);
    for frame in ["1700", "1704", "17FF"] {
        refuse(&mut state, frame, Question::Range);
    }
    refuse(&mut state, "170", Question::Form);
    // Chare 3 is on machine 2; chares 1 and 2, whose machine is up, are asked question 12.
    accept(&mut state, &["1003000300", "1001000300", "1402"]);
    refuse(&mut state, "1703", Question::Up);
    refuse(&mut state, "1702", Question::Withdrawable);
    withdraw(&mut state, "1701");
    assert_eq!(state.line(b"1401"), Answer::Lost);
    for frame in ["1701", "1702", "1703"] {
        refuse(&mut state, frame, Question::NotLost);
    }
    refuse(&mut state, "1704", Question::Range);
}

/// 05 whether or not there is a message; after the restart the ASK is sent again and can be taken
/// off the wire.
#[test]
fn a_machine_that_is_down() {
    let mut state = start(&["1401"]);
    refuse(&mut state, "1701", Question::Up);
    let mut state = start(&["1001000300", "1401"]);
    assert!(state.world.wire.is_empty());
    refuse(&mut state, "1701", Question::Up);
    // Injected while it is down: this ASK is on the wire, and still the answer is 05.
    accept(&mut state, &["1001000400"]);
    assert_eq!(state.world.wire.names(), [ask(0, 1, 2)]);
    refuse(&mut state, "1701", Question::Up);
    accept(&mut state, &["1501"]);
    assert_eq!(state.world.wire.names(), [ask(0, 1, 1), ask(0, 1, 2)]);
    withdraw(&mut state, "1701");
    assert_eq!(state.world.wire.names(), [ask(0, 1, 1)]);
    withdraw(&mut state, "1701");
    refuse(&mut state, "1701", Question::Withdrawable);
    // Its buddy may be down.
    let mut state = start(&["1001000300", "1402"]);
    withdraw(&mut state, "1701");
}

/// A machine that is catching up stays so: what the desk takes back is not what it waits for.
#[test]
fn while_catching_up() {
    let mut state = start(&["1001000300", "110100010001", "110200010001"]);
    accept(&mut state, &["1001000400", "1401", "1501"]);
    assert_eq!(state.world.phases[0], Phase::CatchingUp);
    let targets = state.world.targets;
    withdraw(&mut state, "1701");
    assert_eq!(state.world.phases[0], Phase::CatchingUp);
    assert_eq!((state.world.targets, targets[0]), (targets, 1));
    accept(&mut state, &["110300010001", "1201"]);
    assert_eq!(state.world.phases[0], Phase::Up);
}

/// The SN is given a second time, to a message with another value, which is worked and survives a
/// crash.
#[test]
fn the_number_is_used_again() {
    let input = [
        (JOB, "00J"),
        ("1001000300", "00J"),
        ("1701", "00J"),
        ("1701", "12"),
        ("110100010001", "06"),
        ("1001000401", "00J"),
        ("110100010001", "00C"),
        ("110200010001", "00G"),
        ("110300010001", "00H"),
        ("1201", "00J"),
        // 1 times 32, plus 4.
        ("1601", "00000100000024J"),
        ("1001000500", "00J"),
        ("1701", "00J"),
        ("1001000600", "00J"),
        ("110100010002", "00C"),
        ("1701", "12"),
        ("1401", "00J"),
        ("1701", "05"),
        ("1501", "00J"),
        ("110300010001", "00H"),
        ("1201", "00J"),
        ("110100010002", "00C"),
        ("110200010002", "00G"),
        ("110300010002", "00H"),
        ("1201", "00J"),
        // 36 times 32, plus 6.
        ("1601", "00000200000486J"),
    ];
    let frames: Vec<&str> = input.iter().map(|(frame, _)| *frame).collect();
    let lines: String = input.iter().map(|(_, line)| format!("{line}\n")).collect();
    let got = answer_all(frames.join("\n").as_bytes());
    assert_eq!(String::from_utf8(got).unwrap(), lines);
}

/// Places in the log and on the wire and the last SN of all can be used again.
#[test]
fn space_is_given_back() {
    let mut state = start(&[]);
    for _ in 0..LOG_SIZE {
        accept(&mut state, &["1001000300"]);
    }
    refuse(&mut state, "1001000300", Question::LogSpace);
    withdraw(&mut state, "1701");
    accept(&mut state, &["1002000300"]);
    refuse(&mut state, "1001000300", Question::LogSpace);

    let mut state = start(&["1001000300"]);
    let content = state.world.wire.content(0);
    for sn in 2..=WIRE_SIZE as u16 {
        state.world.wire.push(ask(3, 1, sn), content);
    }
    refuse(&mut state, "1001000300", Question::WireSpace);
    withdraw(&mut state, "1701");
    accept(&mut state, &["1002000300"]);
    refuse(&mut state, "1001000300", Question::WireSpace);

    let mut state = start(&[]);
    state.world.desk.sent[0] = MAX_NUMBER - 1;
    accept(&mut state, &["1001000300"]);
    refuse(&mut state, "1001000300", Question::Number);
    withdraw(&mut state, "1701");
    assert_eq!(state.world.desk.sent[0], MAX_NUMBER - 1);
    accept(&mut state, &["1001000400"]);
    assert_eq!(state.world.wire.names(), [ask(0, 1, MAX_NUMBER)]);
}

/// What a census counts of a list.
fn counted(parts: &[&[&str]], event: Event) -> u64 {
    let mut state = State::new();
    let mut census = Census::new();
    for line in [&[JOB][..], &parts.concat()].concat() {
        let frame = parse(line.as_bytes()).unwrap();
        let before = Census::before(&state, &frame);
        let answer = state.step(&frame);
        census.after(&before, &frame, answer, &state);
    }
    census.count(event)
}

/// Each way in which frame 17 can go is counted as what it is, once.
#[test]
fn ways_are_counted() {
    const ASKED: &[&str] = &["1001000300", "110100010001"];
    const TICKETED: &[&str] = &["110200010001"];
    const WORKED: &[&str] = &["110300010001", "1201"];
    // One more work of chare 1, from chare 3.
    const ANOTHER: [&[&str]; 2] = [
        &["1003000901", "110100030001", "110200030001", "110300030001"],
        &[
            "1203",
            "110103010001",
            "110203010001",
            "110303010001",
            "1201",
        ],
    ];
    let ways: [(&[&[&str]], Event); 10] = [
        (&[], Event::WithdrawNothing),
        (&[ASKED], Event::WithdrawAsked),
        (&[ASKED, TICKETED], Event::WithdrawTicketed),
        (&[ASKED, TICKETED, WORKED, &["1301"]], Event::WithdrawWorked),
        (
            &[ASKED, TICKETED, WORKED, ANOTHER[0], ANOTHER[1], &["1301"]],
            Event::WithdrawDropped,
        ),
        (
            &[ASKED, &["1301", "1401", "1501"]],
            Event::WithdrawTicketAlone,
        ),
        (&[&["1001000300", "1401"]], Event::WithdrawDown),
        (&[&["1001000300"]], Event::Withdrawn),
        (&[&["1001000300", "1402"]], Event::WithdrawnWhileDown),
        (
            &[ASKED, TICKETED, &["1001000400", "1401", "1501"]],
            Event::WithdrawnWhileCatchingUp,
        ),
    ];
    for (parts, event) in ways {
        let with = [parts, &[&["1701"][..]]].concat();
        for (_, other) in ways {
            // Whatever stands around, it was withdrawn.
            let same = other == event
                || other == Event::Withdrawn && format!("{event:?}").starts_with("Withdrawn");
            let count = counted(&with, other);
            assert_eq!(count, u64::from(same), "{event:?} as {other:?}");
        }
        assert_eq!(counted(parts, event), 0, "{event:?} without the frame");
    }
}

/// An SN counts as used again if the message is another one, and as worked with its first work.
#[test]
fn used_numbers_are_counted() {
    let counts = |parts: &[&[&str]]| {
        let events = [Event::NumberReused, Event::ReusedWorked];
        events.map(|event| counted(parts, event))
    };
    const BACK: &[&str] = &["1001000300", "1701"];
    const WORK: &[&str] = &["110100010001", "110200010001", "110300010001", "1201"];
    const AGAIN: &[&str] = &["1401", "1501", "110300010001", "1201"];
    assert_eq!(counts(&[BACK, &["1001000300"], WORK]), [0, 0]);
    assert_eq!(counts(&[BACK, &["1002000400"]]), [0, 0]);
    for other in ["1001000400", "1001000301"] {
        assert_eq!(counts(&[BACK, &[other]]), [1, 0]);
        assert_eq!(counts(&[BACK, &[other], WORK]), [1, 1]);
        assert_eq!(counts(&[BACK, &[other], WORK, AGAIN]), [1, 1]);
        assert_eq!(counts(&[BACK, &[other, "1701", other], WORK]), [2, 1]);
    }
}
