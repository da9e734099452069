//! How machines, messages and packets are called.

use reference::job::Job;
use reference::limits::DESK;
use reference::message::Body;
use reference::precedes;
use reference::wire::{Content, Kind, Name};

/// A machine, or the desk for 0.
pub fn place(machine: u8) -> String {
    match machine {
        0 => "the desk".to_string(),
        machine => format!("machine {machine}"),
    }
}

/// A sender: a chare or the desk.
pub fn sender(number: u8) -> String {
    match number {
        DESK => "the desk".to_string(),
        chare => format!("chare {chare}"),
    }
}

/// A message by sender, receiver and SN.
pub fn message(sender: u8, receiver: u8, sn: u16) -> String {
    format!("{sender}→{receiver} #{sn}")
}

/// A processing by chare and TN.
pub fn processing((chare, tn): precedes::Name) -> String {
    format!("{chare}:{tn}")
}

/// Who sent the message of a processing: an earlier processing, or the desk.
pub fn sent_by(record: &precedes::Processing) -> String {
    match record.sender {
        DESK => sender(DESK),
        chare => processing((chare, record.sender_tn)),
    }
}

/// A value: decimal, as lists in words have it, and hexadecimal, as frames and states do.
pub fn value(value: u16) -> String {
    format!("{value} (hex {value:04X})")
}

/// What a message carries.
pub fn body(body: Body) -> String {
    format!("value {}, hops {}", value(body.value), body.hops)
}

pub fn kind(kind: Kind) -> &'static str {
    match kind {
        Kind::Ask => "ASK",
        Kind::Grant => "GRANT",
        Kind::Data => "DATA",
        Kind::Note => "NOTE",
        Kind::Ack => "ACK",
    }
}

/// A packet by its name alone.
pub fn short(name: Name) -> String {
    let message = message(name.sender(), name.receiver(), name.sn());
    format!("{} {message}", kind(name.kind()))
}

/// A packet with what matters of its content.
pub fn packet(name: Name, content: Content) -> String {
    let short = short(name);
    match content {
        Content::GrantOld => format!("{short} (old)"),
        Content::GrantReceived(tn) => format!("{short} (received, TN {tn})"),
        Content::GrantNew(tn) => format!("{short} (new, TN {tn})"),
        Content::Note(tn) => format!("{short} (TN {tn})"),
        Content::Ask | Content::Data { .. } | Content::Ack => short,
    }
}

/// What a packet says.
pub fn meaning(name: Name, content: Content) -> String {
    let what = message(name.sender(), name.receiver(), name.sn());
    let (from, to) = (sender(name.sender()), sender(name.receiver()));
    match content {
        Content::Ask => format!("{from} asks {to} for a ticket for {what}"),
        Content::GrantOld => format!("{to} answers that {what} is worked: old"),
        Content::GrantReceived(tn) => {
            format!("{to} answers that {what} has TN {tn} and is received")
        }
        Content::GrantNew(tn) => format!("{to} gives {what} TN {tn}, and waits for the message"),
        Content::Data { value, hops } => {
            format!("the message {what} itself ({})", body(Body { value, hops }))
        }
        Content::Note(tn) => format!("for the buddy to note: {what} has TN {tn}"),
        Content::Ack => format!("the buddy has noted the ticket of {what}"),
    }
}

/// The machine a packet comes from; 0 is the desk.
pub fn origin(job: &Job, name: Name) -> u8 {
    match name.kind() {
        Kind::Ask | Kind::Data => job.machine_of(name.sender()),
        Kind::Grant | Kind::Note => job.machine_of(name.receiver()),
        Kind::Ack => job.buddy_of(job.machine_of(name.receiver())),
    }
}

/// "a", "a and b", "a, b and c".
pub fn joined(parts: &[String]) -> String {
    match parts {
        [] => String::new(),
        [one] => one.clone(),
        [init @ .., last] => format!("{} and {last}", init.join(", ")),
    }
}

/// "TN 2", "TN 2 and 4".
pub fn tickets(tns: impl IntoIterator<Item = u16>) -> String {
    let tns: Vec<String> = tns.into_iter().map(|tn| tn.to_string()).collect();
    format!("TN {}", joined(&tns))
}

/// Ascending numbers, three or more in a row as a stretch: "2, 3 and 5 to 128".
pub fn stretches(numbers: &[u16]) -> String {
    let mut parts = Vec::new();
    for stretch in numbers.chunk_by(|one, two| one + 1 == *two) {
        match stretch {
            [first, _, .., last] => parts.push(format!("{first} to {last}")),
            few => parts.extend(few.iter().map(u16::to_string)),
        }
    }
    joined(&parts)
}

/// "1 message", "2 messages".
pub fn count(number: usize, thing: &str) -> String {
    match number {
        1 => format!("1 {thing}"),
        _ => format!("{number} {thing}s"),
    }
}

/// The same with its first letter as a capital.
pub fn capital(text: &str) -> String {
    let mut letters = text.chars();
    match letters.next() {
        None => String::new(),
        Some(first) => first.to_uppercase().chain(letters).collect(),
    }
}
