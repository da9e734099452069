//! The words for injections and works, the frames that send messages.

use super::Done;
use crate::names::{self, message, place, sender, tickets};
use reference::job::ix;
use reference::limits::DESK;
use reference::message::{Body, Logged};

pub fn inject(done: &Done, chare: u8, body: Body) -> Vec<String> {
    let sn = done.after.desk.sent[ix(chare)];
    let mut lines = vec![format!(
        "Inject: the desk sends {} ({}) and logs it, without a TN yet.",
        message(DESK, chare, sn),
        names::body(body)
    )];
    lines.extend(done.sent());
    lines
}

pub fn work(done: &Done, chare: u8) -> Vec<String> {
    let (before, after) = (done.before.chare(chare), done.after.chare(chare));
    let tn = after.height;
    let Some(entry) = before.table.find_tn(tn) else {
        return Vec::new();
    };
    let body = entry.received.unwrap_or_default();
    let mut lines = vec![
        format!(
            "Work: chare {chare} on {} works TN {tn}, the message {} ({}).",
            place(done.job.machine_of(chare)),
            message(entry.sender, chare, entry.sn),
            names::body(body)
        ),
        format!(
            "State {:08X}, rotated left by 5, plus {}, gives {:08X}; the height is now {tn}.",
            before.state,
            names::value(body.value),
            after.state
        ),
    ];
    lines.push(worked_of(done, chare, entry.sender, entry.sn));
    let new = &after.log.0[before.log.0.len()..];
    if new.is_empty() {
        lines.push(match body.hops {
            0 => "Hops 0: it sends nothing.".to_string(),
            _ => "The chare has no ports: it sends nothing.".to_string(),
        });
    }
    lines.extend(new.iter().map(|m| send(done, chare, m)));
    lines.extend(done.sent());
    lines
}

/// What is now worked of a sender.
fn worked_of(done: &Done, chare: u8, from: u8, sn: u16) -> String {
    let old = done.before.chare(chare).seen[from as usize].mark;
    let new = done.after.chare(chare).seen[from as usize].mark;
    let whose = sender(from);
    if new == old {
        let missing = old + 1;
        format!(
            "Of {whose}, SN {sn} goes into the window: \
                    SN {missing} is not worked, so the mark stays {old}."
        )
    } else {
        format!("Of {whose}, every SN up to {new} is worked now: that is the mark.")
    }
}

/// One message that a work sent.
fn send(done: &Done, chare: u8, logged: &Logged) -> String {
    let Logged {
        receiver, sn, body, ..
    } = *logged;
    let what = format!(
        "It sends {} ({}) and logs it",
        message(chare, receiver, sn),
        names::body(body)
    );
    let Some(tn) = logged.tn else {
        return format!("{what}, without a TN yet.");
    };
    let table = &done.before.chare(receiver).table;
    if table.find(chare, sn).is_some() {
        return format!(
            "{what}. Chare {receiver} is on the same machine and knows its ticket: \
                    TN {tn} is filled."
        );
    }
    let whence = ticket_source(done, receiver, tn);
    format!(
        "{what}. Chare {receiver} is on the same machine: \
                    it takes the ticket TN {tn} ({whence}) at once, received but not noted."
    )
}

/// Where a new ticket comes from.
pub fn ticket_source(done: &Done, chare: u8, tn: u16) -> String {
    let before = done.before.chare(chare);
    let holes: Vec<u16> = before.holes().collect();
    if holes.contains(&tn) {
        match holes.len() {
            1 => "the hole".to_string(),
            _ => format!("the lowest hole of {}", tickets(holes)),
        }
    } else {
        format!("after the highest, {}", tn - 1)
    }
}
