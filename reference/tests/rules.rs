//! Single rules, played as frames and looked at in the state.

use reference::answer::{Answer, Question};
use reference::message::Body;
use reference::state::State;
use reference::table::Entry;
use reference::wire::Content;
use reference::world::{Note, Phase};

fn start(job: &str) -> State {
    let mut state = State::new();
    accept(&mut state, &[job]);
    state
}

fn accept(state: &mut State, frames: &[&str]) {
    for frame in frames {
        let answer = state.line(frame.as_bytes());
        assert!(matches!(answer, Answer::Accepted(_)), "{frame}: {answer:?}");
    }
}

fn refuse(state: &mut State, frame: &str, question: Question) {
    let before = state.clone();
    let answer = state.line(frame.as_bytes());
    assert_eq!(answer, Answer::Refused(question), "{frame}");
    assert_eq!(*state, before, "{frame} changed something");
}

/// Sender, receiver, SN and content of every packet, oldest first.
fn wire(state: &State) -> Vec<(u8, u8, u16, Content)> {
    let packets = state.world.wire.packets();
    packets
        .map(|(name, content)| (name.sender(), name.receiver(), name.sn(), content))
        .collect()
}

fn data(value: u16, hops: u8) -> Content {
    Content::data(Body { value, hops })
}

/// Chare 1 on machine 1, chare 2 on machine 2, no ports.
const PLAIN: &str = "0102020000010000020000";
/// Chares 1 and 2 on machine 1; chare 1 writes to 2.
const LOCAL: &str = "0102020000010200010000";

#[test]
fn grants() {
    let mut state = start(PLAIN);
    accept(&mut state, &["1001000700", "110100010001"]);
    assert_eq!(wire(&state), [(0, 1, 1, Content::GrantNew(1))]);
    let entry = state.world.chare(1).table.0[0];
    assert!(entry.noted && entry.received.is_none());
    accept(&mut state, &["110200010001"]);
    assert_eq!(wire(&state), [(0, 1, 1, data(7, 0))]);
    assert_eq!(state.world.desk.log.0[0].tn, Some(1));
    accept(&mut state, &["110300010001"]);
    assert!(wire(&state).is_empty());
    refuse(&mut state, "110300010001", Question::Present);
}

/// Chare 1 on machine 1 writes to chare 2 on machine 2, which gets the message.
fn written_to_another_machine() -> State {
    let mut state = start("0102020000010200020000");
    accept(&mut state, &["1001000701", "110100010001", "110200010001"]);
    accept(&mut state, &["110300010001", "1201"]);
    accept(
        &mut state,
        &["110101020001", "110201020001", "110301020001"],
    );
    state
}

/// A restarted sender asks again: its receiver has the message, so no DATA follows.
#[test]
fn grant_received() {
    let mut state = written_to_another_machine();
    accept(&mut state, &["1401", "1501", "110300010001", "1201"]);
    assert_eq!(state.world.chare(1).log.0[0].tn, None);
    accept(&mut state, &["110101020001"]);
    assert_eq!(wire(&state), [(1, 2, 1, Content::GrantReceived(1))]);
    accept(&mut state, &["110201020001"]);
    assert_eq!(state.world.chare(1).log.0[0].tn, Some(1));
    assert!(wire(&state).is_empty());
}

/// A worked message is not old as long as its entry stands; after the checkpoint it is, and then
/// leaves the log.
#[test]
fn grant_old() {
    let mut state = written_to_another_machine();
    accept(&mut state, &["1202", "1401", "1501"]);
    accept(&mut state, &["110300010001", "1201"]);
    let mut before_checkpoint = state.clone();
    accept(&mut before_checkpoint, &["110101020001"]);
    assert_eq!(
        wire(&before_checkpoint),
        [(1, 2, 1, Content::GrantReceived(1))]
    );
    accept(&mut state, &["1302", "110101020001"]);
    assert_eq!(wire(&state), [(1, 2, 1, Content::GrantOld)]);
    assert_eq!(state.world.chare(1).log.0.len(), 1);
    accept(&mut state, &["110201020001"]);
    assert!(state.world.chare(1).log.0.is_empty());
    assert_eq!(state.world.chare(2).height, 1);
}

/// A message above the mark is old too, by its bit in the window.
#[test]
fn grant_old_above_the_mark() {
    // Chare 1 on machine 1 writes twice to chare 2 on machine 2; the first is held back.
    let mut state = start("0102020000010202020000");
    accept(&mut state, &["1001000701", "110100010001", "110200010001"]);
    accept(&mut state, &["110300010001", "1201"]);
    accept(
        &mut state,
        &["110101020002", "110201020002", "110301020002"],
    );
    accept(&mut state, &["1202", "1302", "1401", "1501"]);
    accept(&mut state, &["110300010001", "1201", "110101020002"]);
    assert_eq!(state.world.chare(2).seen[1].mark, 0);
    let last = wire(&state).pop();
    assert_eq!(last, Some((1, 2, 2, Content::GrantOld)));
}

#[test]
fn local_send_notes_and_acks() {
    let mut state = start(LOCAL);
    accept(&mut state, &["1001000701", "110100010001", "110200010001"]);
    accept(&mut state, &["110300010001", "1201"]);
    assert_eq!(wire(&state), [(1, 2, 1, Content::Note(1))]);
    assert_eq!(state.world.chare(1).log.0[0].tn, Some(1));
    refuse(&mut state, "1202", Question::Present);
    accept(&mut state, &["110401020001"]);
    let note = Note {
        sender: 1,
        receiver: 2,
        sn: 1,
        tn: 1,
    };
    assert_eq!(state.world.backups[0].notes[..], [note]);
    assert_eq!(wire(&state), [(1, 2, 1, Content::Ack)]);
    refuse(&mut state, "1202", Question::Present);
    accept(&mut state, &["110501020001", "1202"]);
}

/// A replayed local send finds the entry that the note gave back: no second ticket, no NOTE.
#[test]
fn local_send_fills_a_restored_entry() {
    let mut state = start(LOCAL);
    accept(&mut state, &["1001000701", "110100010001", "110200010001"]);
    accept(&mut state, &["110300010001", "1201", "110401020001"]);
    accept(&mut state, &["1401", "1501"]);
    let entry = state.world.chare(2).table.0[0];
    assert_eq!((entry.sender, entry.sn, entry.tn), (1, 1, 1));
    assert!(entry.noted && entry.received.is_none());
    assert_eq!(state.world.phases[0], Phase::CatchingUp);
    accept(&mut state, &["110300010001", "1201"]);
    assert!(wire(&state).is_empty());
    assert_eq!(state.world.chare(2).table.0.len(), 1);
    accept(&mut state, &["1202"]);
    assert_eq!(state.world.phases[0], Phase::Up);
}

/// Chare 1 has a message to work and will write to its port; its last SN to chare 2 is set by hand.
fn about_to_send(job: &str, last: u16) -> State {
    let mut state = start(job);
    accept(&mut state, &["1001000701", "110100010001", "110200010001"]);
    accept(&mut state, &["110300010001"]);
    state.world.chare_mut(1).sent[1] = last;
    state
}

/// Question 8 of a local send. No list gets there: what is sent and not worked stands in a table of
/// 16.
#[test]
fn local_send_beyond_the_window() {
    refuse(&mut about_to_send(LOCAL, 128), "1201", Question::Window);
    let mut state = about_to_send(LOCAL, 127);
    accept(&mut state, &["1201"]);
    assert_eq!(wire(&state), [(1, 2, 128, Content::Note(1))]);
}

/// Question 8 is put to new tickets, and asks for no more than mark + 128.
#[test]
fn sends_that_pass_question_8() {
    // To another machine: its ASK will be asked.
    let mut state = about_to_send("0102020000010200020000", 128);
    accept(&mut state, &["1201"]);
    assert_eq!(wire(&state), [(1, 2, 129, Content::Ask)]);
    // An entry is there.
    let mut state = about_to_send(LOCAL, 128);
    let entry = Entry {
        sender: 1,
        sn: 129,
        tn: 1,
        received: None,
        noted: true,
    };
    state.world.chare_mut(2).table.0.push(entry);
    accept(&mut state, &["1201"]);
    assert_eq!(wire(&state), []);
    // The SN is worked; no list gets there.
    let mut state = about_to_send(LOCAL, 0);
    state.world.chare_mut(2).seen[1].mark = 5;
    accept(&mut state, &["1201"]);
    assert_eq!(wire(&state), [(1, 2, 1, Content::Note(1))]);
}

/// The send is judged with the mark that the worked message has raised.
#[test]
fn local_send_after_the_mark_has_risen() {
    // Chare 1 writes to itself: it works its own SN 1 and sends the next.
    let mut state = start("0102010000010100");
    accept(&mut state, &["1001000702", "110100010001", "110200010001"]);
    accept(&mut state, &["110300010001", "1201"]);
    accept(&mut state, &["110401010001", "110501010001"]);
    state.world.chare_mut(1).sent[0] = 129;
    refuse(&mut state, "1201", Question::Window);
    state.world.chare_mut(1).sent[0] = 128;
    accept(&mut state, &["1201"]);
    assert_eq!(state.world.chare(1).seen[1].mark, 1);
    assert_eq!(wire(&state), [(1, 1, 129, Content::Note(3))]);
}

/// Question 7 comes before question 8.
#[test]
fn ask_without_a_number_and_beyond_the_window() {
    let mut state = start(PLAIN);
    state.world.desk.sent[0] = 128;
    accept(&mut state, &["1001000700"]);
    refuse(&mut state, "110100010081", Question::Window);
    state.world.chare_mut(1).height = 60_000;
    refuse(&mut state, "110100010081", Question::Number);
}

#[test]
fn checkpoint_in_its_order() {
    let mut state = start(LOCAL);
    accept(&mut state, &["1001000701", "1001000800"]);
    for sn in 1..=2 {
        for kind in 1..=3 {
            accept(&mut state, &[&format!("110{kind}0001000{sn}")]);
        }
        accept(&mut state, &["1201"]);
    }
    accept(&mut state, &["110401020001", "1301"]);
    // Worked entries go, the others are noted, the notes are gone.
    assert!(state.world.chare(1).table.0.is_empty());
    assert!(state.world.chare(2).table.0[0].noted);
    assert!(state.world.backups[0].notes.is_empty());
    assert_eq!(state.world.desk.log.0.len(), 1);
    accept(&mut state, &["1202", "1001000901", "110100010003"]);
    accept(
        &mut state,
        &["110200010003", "110300010003", "1201", "1301"],
    );
    accept(&mut state, &["1202", "1301"]);
    // The live log drops TN 1 to chare 2; the copy, fixed before, still has it.
    let tns = |log: &reference::message::Log| log.0.iter().map(|m| m.tn).collect::<Vec<_>>();
    assert_eq!(tns(&state.world.chare(1).log), [Some(2)]);
    assert_eq!(tns(&state.world.copies[0].log), [Some(1), Some(2)]);
}

/// The copy had the message; after the restart it must come again.
#[test]
fn restart_receives_nothing() {
    let mut state = start(PLAIN);
    accept(&mut state, &["1001000700", "110100010001", "110200010001"]);
    accept(&mut state, &["110300010001", "1301", "1401", "1501"]);
    assert_eq!(state.world.chare(1).table.0[0].received, None);
    refuse(&mut state, "1201", Question::Present);
    assert_eq!(wire(&state), [(0, 1, 1, data(7, 0))]);
    accept(&mut state, &["110300010001", "1201"]);
}

/// Restored local messages are there again without a packet.
#[test]
fn restart_fills_local_messages() {
    let mut state = start(LOCAL);
    accept(&mut state, &["1001000701", "110100010001", "110200010001"]);
    accept(
        &mut state,
        &["110300010001", "1201", "1301", "1401", "1501"],
    );
    let value = (1_u32.rotate_left(5) + 7) as u16;
    let entry = state.world.chare(2).table.0[0];
    assert_eq!(entry.received, Some(Body { value, hops: 0 }));
    assert_eq!(state.world.targets[..2], [1, 1]);
    accept(&mut state, &["1202"]);
    assert_eq!(state.world.phases[0], Phase::Up);
}

/// Point 7: 00 is the machine before, the last one before the first; a number is what it says.
#[test]
fn buddies() {
    let buddies = |job: &str| {
        let state = start(job);
        let job = state.job.as_ref().unwrap();
        job.machines().map(|m| job.buddy_of(m)).collect::<Vec<u8>>()
    };
    assert_eq!(buddies("0102010000010000"), [2, 1]);
    assert_eq!(buddies("010301000000010000"), [3, 1, 2]);
    assert_eq!(buddies("01040100030002010000"), [4, 3, 2, 2]);
    assert_eq!(buddies("010601000000000000010000"), [6, 1, 2, 3, 4, 5]);
}

#[test]
fn crash_takes_packets() {
    // Three machines in a ring of buddies; chares 1, 2 on machine 1, 3 on 2, 4 on 3.
    // Chare 1 writes to 2 and 3, chare 3 to 1 and itself.
    let mut state = start("010304020301010203010000020103030000");
    accept(&mut state, &["1001000102", "1003000201", "1001000300"]);
    for kind in 1..=3 {
        accept(&mut state, &[&format!("110{kind}00010001")]);
        accept(&mut state, &[&format!("110{kind}00030001")]);
    }
    accept(&mut state, &["1201", "1203", "110100010002"]);
    accept(&mut state, &["110101030001", "110403030001"]);
    accept(&mut state, &["1004000500", "110100040001"]);
    let before = wire(&state);
    let expected = [
        (1, 2, 1, Content::Note(1)),
        (3, 1, 1, Content::Ask),
        (0, 1, 2, Content::GrantNew(2)),
        (1, 3, 1, Content::GrantNew(3)),
        (3, 3, 1, Content::Ack),
        (0, 4, 1, Content::GrantNew(1)),
    ];
    assert_eq!(before, expected);
    // Machine 1: its NOTE and GRANT, the ASK to it and the GRANT to its chare 1 go.
    let mut one = state.clone();
    accept(&mut one, &["1401"]);
    assert_eq!(wire(&one), [expected[4], expected[5]]);
    // Machine 2: the GRANT that chare 3 gave, the NOTE to it as a buddy and the ACK to it go.
    let mut two = state.clone();
    accept(&mut two, &["1402"]);
    assert_eq!(wire(&two), [expected[1], expected[2], expected[5]]);
    // Machine 3: only its GRANT goes; the ACK that it sent as a buddy stays.
    let mut three = state.clone();
    accept(&mut three, &["1403"]);
    assert_eq!(wire(&three), expected[..5]);
    // Its memory for others is gone: the copy and the note of machine 2.
    assert!(!three.world.backups[1].has_copy);
    assert!(three.world.backups[1].notes.is_empty());
    assert!(!state.world.backups[1].notes.is_empty());
    assert!(three.world.backups[2].has_copy);
}

#[test]
fn cover() {
    let mut state = start(PLAIN);
    accept(&mut state, &["1402"]);
    // Nobody may crash while a machine is down; nothing changes but the run is lost.
    let mut lost = state.clone();
    assert_eq!(lost.line(b"1401"), Answer::Lost);
    assert_eq!(lost.world, state.world);
    assert!(lost.lost);
    refuse(&mut lost, "1001000000", Question::NotLost);
    refuse(&mut lost, "1003000000", Question::Range);
    // After the restart the copy of machine 1 is gone until its checkpoint.
    accept(&mut state, &["1502"]);
    assert_eq!(state.world.phases[1], Phase::Up);
    let mut lost = state.clone();
    assert_eq!(lost.line(b"1401"), Answer::Lost);
    accept(&mut state, &["1301", "1401"]);
}

#[test]
fn questions_about_machines() {
    let mut state = start(PLAIN);
    refuse(&mut state, "1501", Question::Up);
    accept(&mut state, &["1001000700", "1402"]);
    for frame in ["1202", "1302", "1301", "1402", "1602", "110100020001"] {
        refuse(&mut state, frame, Question::Up);
    }
    // The buddy of machine 1 is down, the desk is up, and inject puts no such question.
    refuse(&mut state, "110400010001", Question::Up);
    refuse(&mut state, "110200020001", Question::Present);
    accept(&mut state, &["1002000700", "110100010001"]);
}

/// By sender, receiver and SN, DATA and ASK mixed; packets to the machine go first.
#[test]
fn restart_sends_in_order() {
    // Chares 1, 2 on machine 1; chare 3 on machine 2 writes to 2 and 1; chare 1 writes to 3.
    let mut state = start("0102030000010300010000020201");
    accept(&mut state, &["1002000900", "1001000801", "1003000701"]);
    for kind in 1..=3 {
        accept(&mut state, &[&format!("110{kind}00010001")]);
        accept(&mut state, &[&format!("110{kind}00030001")]);
    }
    accept(&mut state, &["1201", "1203", "1301"]);
    accept(&mut state, &["110103020001", "110203020001", "1001000600"]);
    accept(&mut state, &["1401"]);
    let stays = (1, 3, 1, Content::Ask);
    assert_eq!(wire(&state), [stays]);
    accept(&mut state, &["1002000500"]);
    assert_eq!(wire(&state).len(), 2);
    accept(&mut state, &["1501"]);
    let value = (3_u32.rotate_left(5) + 7) as u16;
    let sent = [
        stays,
        (0, 1, 2, Content::Ask),
        (0, 2, 1, Content::Ask),
        (0, 2, 2, Content::Ask),
        (1, 3, 1, Content::Ask),
        (3, 1, 1, Content::Ask),
        (3, 2, 1, data(value, 0)),
    ];
    assert_eq!(wire(&state), sent);
    // Waiting messages keep it catching up until they have their tickets.
    assert_eq!(state.world.phases[0], Phase::CatchingUp);
    accept(&mut state, &["110101030001", "110201030001"]);
    assert_eq!(state.world.phases[0], Phase::CatchingUp);
    accept(&mut state, &["110303020001", "1202"]);
    assert_eq!(state.world.phases[0], Phase::Up);
}

/// Equal ports: two messages, two SNs, two tickets; packets in port order.
#[test]
fn equal_ports() {
    let mut state = start("0102010000010101");
    accept(&mut state, &["1001000701", "110100010001", "110200010001"]);
    accept(&mut state, &["110300010001", "1201"]);
    let notes = [(1, 1, 1, Content::Note(2)), (1, 1, 2, Content::Note(3))];
    assert_eq!(wire(&state), notes);
    let logged = &state.world.chare(1).log.0;
    assert_eq!(
        logged.iter().map(|m| (m.sn, m.tn)).collect::<Vec<_>>(),
        [(1, Some(2)), (2, Some(3))]
    );
    assert_eq!(logged[0].body, logged[1].body);
}

/// A port after none is the only port; hops 0 sends nothing.
#[test]
fn second_port_only() {
    let mut state = start("0102020000010002020000");
    accept(&mut state, &["1001000701", "1001000700"]);
    for sn in 1..=2 {
        for kind in 1..=3 {
            accept(&mut state, &[&format!("110{kind}0001000{sn}")]);
        }
        accept(&mut state, &["1201"]);
    }
    assert_eq!(wire(&state), [(1, 2, 1, Content::Ask)]);
}
