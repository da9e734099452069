//! Messages, and the log in which a sender keeps them.

use crate::limits::LOG_SIZE;
use crate::list::List;

/// What a message carries.
#[derive(Clone, Copy, Debug, Default, PartialEq, Eq, Hash, PartialOrd, Ord)]
pub struct Body {
    pub value: u16,
    pub hops: u8,
}

/// A message with all five of its numbers.
#[derive(Clone, Copy, Debug, Default, PartialEq, Eq, Hash, PartialOrd, Ord)]
pub struct Message {
    pub sender: u8,
    pub receiver: u8,
    pub sn: u16,
    pub body: Body,
}

/// A message in its sender's log, with its ticket or none yet.
#[derive(Clone, Copy, Debug, Default, PartialEq, Eq)]
pub struct Logged {
    pub receiver: u8,
    pub sn: u16,
    pub body: Body,
    pub tn: Option<u16>,
}

/// Where a message stands in a log.
#[derive(Clone, Copy, Debug, PartialEq, Eq)]
pub enum Lookup {
    Missing,
    Ticketed(usize),
    Waiting(usize),
}

/// One sender's log, oldest message first.
#[derive(Clone, Debug, Default, PartialEq, Eq)]
pub struct Log(pub List<Logged, LOG_SIZE>);

impl Log {
    pub fn look_up(&self, receiver: u8, sn: u16) -> Lookup {
        let found = self
            .0
            .iter()
            .position(|m| m.sn == sn && m.receiver == receiver);
        match found {
            None => Lookup::Missing,
            Some(at) if self.0[at].tn.is_some() => Lookup::Ticketed(at),
            Some(at) => Lookup::Waiting(at),
        }
    }

    /// Has some message no ticket yet?
    pub fn has_waiting(&self) -> bool {
        self.0.iter().any(|m| m.tn.is_none())
    }

    /// Does an entry equal this message of the log's owner?
    pub fn has(&self, message: &Message) -> bool {
        self.0
            .iter()
            .any(|m| m.receiver == message.receiver && m.sn == message.sn && m.body == message.body)
    }
}
