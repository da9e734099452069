//! The words for a delivery.

use super::letter::under;
use super::send::ticket_source;
use super::Done;
use crate::names::{body, capital, message, packet, place, sender};
use crate::outcome::{outcome, taken, Outcome};
use reference::answer::Rule;
use reference::message::Body;
use reference::wire::{Content, Name};
use reference::world::destination;

pub fn words(done: &Done) -> Vec<String> {
    let Some((name, content)) = taken(done) else {
        return Vec::new();
    };
    let at = place(destination(done.job, name));
    let mut lines = vec![
        format!("{} arrives at {at}.", packet(name, content)),
        effect(done, name, content),
    ];
    lines.extend(done.sent());
    lines
}

/// What came of it, under the rule that the line's letter names.
fn effect(done: &Done, name: Name, content: Content) -> String {
    let outcome = outcome(done, name, content);
    let what = happened(done, name, content, outcome);
    match outcome.rule() {
        Rule::Other => capital(&what),
        rule => under(rule, &what),
    }
}

fn happened(done: &Done, name: Name, content: Content, outcome: Outcome) -> String {
    let what = message(name.sender(), name.receiver(), name.sn());
    let (who, chare) = (sender(name.sender()), name.receiver());
    let machine = done.job.machine_of(chare);
    match outcome {
        Outcome::Known { tn, received } => {
            let there = if received {
                "is there"
            } else {
                "is not there yet"
            };
            format!(
                "in the table of chare {chare}, {what} has TN {tn} and keeps it; the message {there}."
            )
        }
        Outcome::Worked => {
            let sn = name.sn();
            format!(
                "chare {chare} has no ticket for {what} in its table, \
                    but has worked SN {sn} of {who}, so it is old."
            )
        }
        Outcome::Given { tn, .. } => {
            let whence = ticket_source(done, chare, tn);
            format!(
                "chare {chare} gives it TN {tn} ({whence}), \
                    not received yet, noted from the start."
            )
        }
        Outcome::NotLogged => format!("the log of {who} has no message {what}."),
        Outcome::Ticketed { tn } => {
            format!("in the log of {who}, {what} has TN {tn} already.")
        }
        Outcome::Removed => format!("{what} has been worked, and {who} removes it from the log."),
        Outcome::Set { tn } => {
            format!(
                "{who} logs TN {tn} for {what}. \
                    Chare {chare} has the message, so no DATA goes out."
            )
        }
        Outcome::SetAndSent { tn } => {
            format!("{who} logs TN {tn} for {what} and sends the message itself.")
        }
        Outcome::Filled { tn } => {
            let height = done.before.chare(chare).height;
            let Content::Data { value, hops } = content else {
                return String::new();
            };
            format!(
                "TN {tn} of chare {chare} has its message ({}); the height is {height}.",
                body(Body { value, hops })
            )
        }
        Outcome::FilledBefore { tn } => {
            format!("chare {chare} has received {what}, TN {tn}, before.")
        }
        Outcome::NoEntry => {
            format!("chare {chare} has no ticket for {what} in its table.")
        }
        Outcome::NothingToNote => {
            format!("chare {chare} has no ticket for {what} any more: nothing to mark.")
        }
        Outcome::Stored { tn, notes } => {
            let buddy = done.job.buddy_of(machine);
            format!(
                "machine {buddy} notes TN {tn} for {what}; \
                    notes held for machine {machine}: {notes}."
            )
        }
        Outcome::StoredBefore => "this note is stored already, and not stored twice.".to_string(),
        Outcome::Noted { tn } => format!("TN {tn} of chare {chare} is now noted."),
        Outcome::NotedBefore { tn } => {
            format!("TN {tn} of chare {chare} is noted already: nothing changes.")
        }
    }
}
