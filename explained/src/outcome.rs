//! What a delivered packet led to.

use crate::words::Done;
use reference::answer::Rule;
use reference::job::ix;
use reference::message::Lookup;
use reference::wire::{Content, Name};

#[derive(Clone, Copy, Debug, PartialEq, Eq)]
pub enum Outcome {
    /// ASK: the table has the ticket.
    Known { tn: u16, received: bool },
    /// ASK: worked, and out of the table.
    Worked,
    /// ASK: a new ticket.
    Given { tn: u16, hole: bool },
    /// GRANT: no such message in the log.
    NotLogged,
    /// GRANT: the message has a TN.
    Ticketed { tn: u16 },
    /// GRANT old: the message leaves the log.
    Removed,
    /// GRANT received: no DATA is needed.
    Set { tn: u16 },
    /// GRANT new: DATA follows.
    SetAndSent { tn: u16 },
    /// DATA: the entry is filled.
    Filled { tn: u16 },
    /// DATA: received before.
    FilledBefore { tn: u16 },
    /// DATA: no entry.
    NoEntry,
    /// NOTE: stored, now so many.
    Stored { tn: u16, notes: usize },
    /// NOTE: present.
    StoredBefore,
    /// ACK: the entry is noted.
    Noted { tn: u16 },
    /// ACK: noted before.
    NotedBefore { tn: u16 },
    /// ACK: no entry.
    NothingToNote,
}

impl Outcome {
    /// The rule that it falls under.
    pub fn rule(self) -> Rule {
        match self {
            Outcome::Known { .. } => Rule::AskFound,
            Outcome::Worked => Rule::AskWorked,
            Outcome::Given { .. } => Rule::AskNew,
            Outcome::NotLogged | Outcome::Ticketed { .. } => Rule::GrantDropped,
            Outcome::Removed => Rule::GrantOld,
            Outcome::Set { .. } => Rule::GrantReceived,
            Outcome::SetAndSent { .. } => Rule::GrantNew,
            Outcome::Filled { .. } => Rule::DataFilled,
            Outcome::FilledBefore { .. } | Outcome::NoEntry => Rule::DataDropped,
            Outcome::Stored { .. }
            | Outcome::StoredBefore
            | Outcome::Noted { .. }
            | Outcome::NotedBefore { .. }
            | Outcome::NothingToNote => Rule::Other,
        }
    }
}

/// The packet that a delivery took off the wire.
pub fn taken(done: &Done) -> Option<(Name, Content)> {
    let at = done.change.taken?;
    Some((done.before.wire.names()[at], done.before.wire.content(at)))
}

pub fn outcome(done: &Done, name: Name, content: Content) -> Outcome {
    match content {
        Content::Ask => ask(done, name),
        Content::GrantOld => grant(done, name, Outcome::Removed),
        Content::GrantReceived(tn) => grant(done, name, Outcome::Set { tn }),
        Content::GrantNew(tn) => grant(done, name, Outcome::SetAndSent { tn }),
        Content::Data { .. } => data(done, name),
        Content::Note(tn) => note(done, name, tn),
        Content::Ack => ack(done, name),
    }
}

fn ask(done: &Done, name: Name) -> Outcome {
    let before = done.before.chare(name.receiver());
    if let Some(at) = before.table.find(name.sender(), name.sn()) {
        let entry = &before.table.0[at];
        return Outcome::Known {
            tn: entry.tn,
            received: entry.received.is_some(),
        };
    }
    let after = &done.after.chare(name.receiver()).table;
    match after.find(name.sender(), name.sn()) {
        None => Outcome::Worked,
        Some(at) => {
            let tn = after.0[at].tn;
            let hole = before.holes().any(|hole| hole == tn);
            Outcome::Given { tn, hole }
        }
    }
}

fn grant(done: &Done, name: Name, fresh: Outcome) -> Outcome {
    let log = done.before.log(name.sender());
    match log.look_up(name.receiver(), name.sn()) {
        Lookup::Missing => Outcome::NotLogged,
        Lookup::Ticketed(at) => Outcome::Ticketed {
            tn: log.0[at].tn.unwrap_or_default(),
        },
        Lookup::Waiting(_) => fresh,
    }
}

fn data(done: &Done, name: Name) -> Outcome {
    let table = &done.before.chare(name.receiver()).table;
    match table.find(name.sender(), name.sn()).map(|at| table.0[at]) {
        None => Outcome::NoEntry,
        Some(entry) if entry.received.is_some() => Outcome::FilledBefore { tn: entry.tn },
        Some(entry) => Outcome::Filled { tn: entry.tn },
    }
}

fn note(done: &Done, name: Name, tn: u16) -> Outcome {
    let at = ix(done.job.machine_of(name.receiver()));
    let notes = done.after.backups[at].notes.len();
    if notes == done.before.backups[at].notes.len() {
        Outcome::StoredBefore
    } else {
        Outcome::Stored { tn, notes }
    }
}

fn ack(done: &Done, name: Name) -> Outcome {
    let table = &done.before.chare(name.receiver()).table;
    match table.find(name.sender(), name.sn()).map(|at| table.0[at]) {
        None => Outcome::NothingToNote,
        Some(entry) if entry.noted => Outcome::NotedBefore { tn: entry.tn },
        Some(entry) => Outcome::Noted { tn: entry.tn },
    }
}
