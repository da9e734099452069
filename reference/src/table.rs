//! The ticket table of a receiver.

use crate::limits::TABLE_SIZE;
use crate::list::List;
use crate::message::Body;

/// One ticket. `received` holds the message once it is there.
#[derive(Clone, Copy, Debug, Default, PartialEq, Eq)]
pub struct Entry {
    pub sender: u8,
    pub sn: u16,
    pub tn: u16,
    pub received: Option<Body>,
    pub noted: bool,
}

/// Tickets in order of entry. Worked ones stay until the checkpoint.
#[derive(Clone, Debug, Default, PartialEq, Eq)]
pub struct Table(pub List<Entry, TABLE_SIZE>);

impl Table {
    pub fn find(&self, sender: u8, sn: u16) -> Option<usize> {
        self.0.iter().position(|e| e.sn == sn && e.sender == sender)
    }

    pub fn find_tn(&self, tn: u16) -> Option<&Entry> {
        self.0.iter().find(|e| e.tn == tn)
    }

    pub fn has_tn(&self, tn: u16) -> bool {
        self.find_tn(tn).is_some()
    }

    /// The largest of the height and the table's TNs.
    pub fn highest(&self, height: u16) -> u16 {
        self.0.iter().fold(height, |most, e| most.max(e.tn))
    }
}
