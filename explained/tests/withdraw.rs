//! The words of a withdrawal: what left, and why one is refused.

mod common;

use common::steps::{played, said};
use explained::lines::cut;
use reference::answer::{Answer, Question, Rule};
use reference::frame::{parse, Frame};
use reference::generator;
use reference::job::ix;
use reference::limits::{DESK, MAX_CHARES};
use reference::message::Lookup;
use reference::seen::Reply;
use reference::state::State;

/// Chare 1 on machine 1 writes to itself, chare 2 is on machine 2.
const JOB: &str = "0102020201010100020000";
const INJECT: &str = "1001000301";
/// The first message to chare 1, from ASK to work.
const WORKED: [&str; 4] = ["110100010001", "110200010001", "110300010001", "1201"];

fn after(frames: &[&str]) -> State {
    played(JOB, frames)
}

fn refused(state: &State) -> String {
    said(state, "1701", Answer::Refused(Question::Withdrawable))
}

/// Refused by question 12 for this reason and no other.
fn refused_for(state: &State, reason: &str) {
    let asked =
        "last message in the desk's log without a TN, its ASK on the wire, no ticket in the table?";
    let want = format!("Refused by question 12, \"{asked}\": {reason}.");
    assert_eq!(refused(state), want);
}

#[test]
fn what_is_taken_back() {
    let state = after(&[INJECT, "1001002802", "1002000500"]);
    assert_eq!(
        said(&state, "1701", Answer::Accepted(Rule::Other)),
        "Withdraw: the desk takes 0→1 #2 (value 40 (hex 0028), hops 2), its last message to chare 1, out of its log.\n\
         ASK 0→1 #2 leaves the wire.\n\
         SN 2 is free again: the next injection to chare 1 takes it."
    );
    // The next one takes it indeed.
    let state = after(&[INJECT, "1001002802", "1002000500", "1701"]);
    let text = said(&state, "1001000400", Answer::Accepted(Rule::Other));
    assert!(
        text.starts_with("Inject: the desk sends 0→1 #2 (value 4 (hex 0004), hops 0)"),
        "{text}"
    );
}

#[test]
fn no_message_to_the_chare() {
    let reason = "the desk has sent no message to chare 1, or has withdrawn each";
    refused_for(&after(&[]), reason);
    refused_for(&after(&["1002000500"]), reason);
    refused_for(&after(&[INJECT, "1701"]), reason);
}

#[test]
fn out_of_the_desks_log() {
    let to_itself = ["110401010001", "110501010001", "1201", "1301"];
    let state = after(&[&[INJECT][..], &WORKED, &to_itself].concat());
    let reason = "0→1 #1, the last to chare 1, is no longer in the desk's log; \
                  it is worked, and a checkpoint dropped it";
    refused_for(&state, reason);
}

#[test]
fn a_ticket_in_the_desks_log() {
    let reason = "0→1 #1, the last to chare 1, has its ticket, TN 1, in the desk's log";
    for frames in 2..=4 {
        refused_for(&after(&[&[INJECT][..], &WORKED[..frames]].concat()), reason);
    }
    // Of two messages the last one counts.
    let asked = ["1001000400", "110100010002", "110200010002"];
    let state = after(&[&[INJECT][..], &asked].concat());
    let reason = "0→1 #2, the last to chare 1, has its ticket, TN 1, in the desk's log";
    refused_for(&state, reason);
}

#[test]
fn an_ask_that_was_delivered() {
    let reason = "ASK 0→1 #1 is no longer on the wire; \
                  it was delivered, and the table of chare 1 has its ticket, TN 1";
    refused_for(&after(&[INJECT, "110100010001"]), reason);
    // No list comes here: the ASK is gone and left no ticket.
    let mut state = after(&[INJECT]);
    state.world.wire.remove(0);
    refused_for(&state, "ASK 0→1 #1 is not on the wire");
}

/// The rarest reason: the copy has the ticket, and the restart asks again.
#[test]
fn a_ticket_in_the_table() {
    let frames = [INJECT, "110100010001", "1301", "1401", "1501"];
    let reason = "the table of chare 1 has a ticket for 0→1 #1, TN 1 from the copy, \
                  though its ASK is on the wire again";
    refused_for(&after(&frames), reason);
    // Without the checkpoint the ticket is lost, and the message can be taken back again.
    let lost = [INJECT, "110100010001", "1401", "1501"];
    said(&after(&lost), "1701", Answer::Accepted(Rule::Other));
}

/// Questions 3 and 5 come first.
#[test]
fn a_chare_that_is_not_there_or_down() {
    let state = after(&[INJECT]);
    for (frame, chare) in [("1700", 0), ("1703", 3)] {
        let text = said(&state, frame, Answer::Refused(Question::Range));
        let want = format!("chare {chare} is not from 1 to 2.");
        assert!(text.ends_with(&want), "{text}");
    }
    let want = "Refused by question 5, \"is the machine up?\": machine 1 is down.";
    for frames in [&["1401"][..], &[INJECT, "1401"]] {
        let text = said(&after(frames), "1701", Answer::Refused(Question::Up));
        assert_eq!(text, want);
    }
    let text = said(&State::new(), "1701", Answer::Refused(Question::Job));
    assert!(text.ends_with(": no job is set yet."), "{text}");
}

/// How often each reason was looked at, and how many withdrawals were accepted.
#[derive(Debug, Default)]
struct Counts {
    dropped: usize,
    delivered: usize,
    copied: usize,
    withdrawn: usize,
}

/// The words say how it came to a reason. In random lists it came so each time.
#[test]
fn how_it_came_to_a_reason() {
    let mut counts = Counts::default();
    for seed in 0..150 {
        let mut state = State::new();
        // The SNs of the desk's messages to each chare whose tickets came from the copy at its machine's last restart.
        let mut copied: [Vec<u16>; MAX_CHARES] = Default::default();
        for line in cut(&generator::list(seed, 600)) {
            let before = state.clone();
            let accepted = state.line(line).is_accepted();
            let Some(job) = &state.job else {
                continue;
            };
            match parse(line).filter(|_| accepted) {
                Some(Frame::Withdraw { .. }) => counts.withdrawn += 1,
                Some(Frame::Restart { machine }) => {
                    for chare in job.chares_on(machine) {
                        let entries = before.world.copies[ix(chare)].table.0.iter();
                        let entries = entries.filter(|entry| entry.sender == DESK);
                        copied[ix(chare)] = entries.map(|entry| entry.sn).collect();
                    }
                }
                _ => {}
            }
            for chare in job.chares() {
                if state.world.is_up(job.machine_of(chare)) {
                    look(&state, chare, &copied[ix(chare)], &mut counts);
                }
            }
        }
    }
    let Counts {
        dropped,
        delivered,
        copied,
        withdrawn,
    } = counts;
    let least = dropped.min(delivered).min(copied).min(withdrawn);
    assert!(least > 20, "{counts:?}");
}

fn look(state: &State, chare: u8, copied: &[u16], counts: &mut Counts) {
    let last = state.world.last_injected(chare);
    match (last.logged, last.asks, last.ticket) {
        (Lookup::Missing, ..) if last.sn > 0 => {
            counts.dropped += 1;
            let seen = state.world.chare(chare).seen[usize::from(DESK)];
            assert_eq!(seen.look(last.sn), Reply::Worked);
        }
        (Lookup::Waiting(_), false, ticket) => {
            counts.delivered += 1;
            assert!(ticket.is_some());
        }
        (Lookup::Waiting(_), true, Some(_)) => {
            counts.copied += 1;
            assert!(copied.contains(&last.sn));
        }
        _ => {}
    }
}
