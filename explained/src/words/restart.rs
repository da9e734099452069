//! The words for a restart.

use super::crash::gone;
use super::Done;
use crate::names::{joined, message, origin, packet, place, sender, tickets};
use reference::job::ix;
use reference::limits::DESK;
use reference::table::Entry;

pub fn words(done: &Done, machine: u8) -> Vec<String> {
    let buddy = done.job.buddy_of(machine);
    let mut lines = vec![format!(
        "Restart: machine {machine} takes back its copy from machine {buddy}."
    )];
    let off: Vec<String> = gone(done).iter().map(|&(n, c)| packet(n, c)).collect();
    if !off.is_empty() {
        lines.push(format!(
            "Off the wire, on their way to it: {}.",
            joined(&off)
        ));
    }
    for chare in done.job.chares_on(machine) {
        lines.extend(restored(done, chare));
    }
    let sent: Vec<String> = done
        .change
        .sent
        .iter()
        .map(|&(name, content)| {
            format!(
                "{} from {}",
                packet(name, content),
                place(origin(done.job, name))
            )
        })
        .collect();
    lines.push(match sent.len() {
        0 => "Nothing is sent again.".to_string(),
        _ => format!("Sent again: {}.", joined(&sent)),
    });
    lines
}

/// A chare as the restart made it.
fn restored(done: &Done, chare: u8) -> Vec<String> {
    let after = done.after.chare(chare);
    let mut lines = vec![format!(
        "Chare {chare} is back at height {}, state {:08X}.",
        after.height, after.state
    )];
    let mut entries: Vec<&Entry> = after.table.0.iter().collect();
    entries.sort_by_key(|entry| entry.tn);
    let entries: Vec<String> = entries
        .into_iter()
        .map(|e| ticket(done, chare, e))
        .collect();
    lines.push(match entries.len() {
        0 => format!("Chare {chare}: no tickets above the height are known."),
        _ => format!("Chare {chare}: tickets known are {}.", joined(&entries)),
    });
    let holes: Vec<u16> = after.holes().collect();
    if !holes.is_empty() {
        let (word, highest) = (
            if holes.len() == 1 { "hole" } else { "holes" },
            after.restart_high,
        );
        lines.push(format!(
            "Chare {chare}: {word} at {}, below the highest, {highest}: \
                    given once, but nobody knows to whom.",
            tickets(holes)
        ));
    }
    lines
}

/// A ticket of a restored table, with who knew it and whether its message is there.
fn ticket(done: &Done, chare: u8, entry: &Entry) -> String {
    let mut text = format!(
        "TN {} for {} ({}",
        entry.tn,
        message(entry.sender, chare, entry.sn),
        source(done, chare, entry)
    );
    if entry.received.is_some() {
        text.push_str(&format!("; filled from the log of chare {}", entry.sender));
    }
    text.push(')');
    text
}

fn source(done: &Done, chare: u8, entry: &Entry) -> String {
    let copy = &done.before.copies[ix(chare)];
    if copy.table.find(entry.sender, entry.sn).is_some() {
        return "from the copy".to_string();
    }
    let elsewhere = done.job.machine_of(entry.sender) != done.job.machine_of(chare);
    let log = done.before.log(entry.sender);
    let logged = |m: &reference::message::Logged| {
        m.receiver == chare && m.sn == entry.sn && m.tn == Some(entry.tn)
    };
    if elsewhere && log.0.iter().any(logged) {
        return match entry.sender {
            DESK => "from the desk's log".to_string(),
            other => format!("from the log of {}", sender(other)),
        };
    }
    "from the buddy's notes".to_string()
}
