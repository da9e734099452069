//! What a machine remembers of one chare, and what a checkpoint copies.

use crate::limits::{MAX_CHARES, MAX_SENDERS};
use crate::message::Log;
use crate::seen::Seen;
use crate::table::Table;

#[derive(Clone, Debug, Default, PartialEq, Eq)]
pub struct Chare {
    pub state: u32,
    /// The last TN worked.
    pub height: u16,
    /// The highest TN at the last restart, 0 before any: holes lie below it.
    pub restart_high: u16,
    /// The last SN sent to each chare, chare 1 first.
    pub sent: [u16; MAX_CHARES],
    /// What is worked of each sender, the desk first.
    pub seen: [Seen; MAX_SENDERS],
    pub table: Table,
    pub log: Log,
}

impl Chare {
    /// A chare as the job makes it: its state is its number.
    pub fn fresh(number: u8) -> Self {
        Chare {
            state: u32::from(number),
            ..Chare::default()
        }
    }

    /// The TNs that a restart found lost and that no new ticket has taken since, lowest first.
    pub fn holes(&self) -> impl Iterator<Item = u16> + '_ {
        (self.height + 1..self.restart_high).filter(|&tn| !self.table.has_tn(tn))
    }

    /// The TN of the next new ticket, as if `taken` were given already.
    pub fn next_ticket(&self, taken: Option<u16>) -> u16 {
        let hole = self.holes().find(|&tn| taken != Some(tn));
        hole.unwrap_or_else(|| {
            let highest = self.table.highest(self.height);
            taken.map_or(highest, |tn| highest.max(tn)) + 1
        })
    }
}

/// The state after working a value.
pub fn worked_state(state: u32, value: u16) -> u32 {
    state.rotate_left(5).wrapping_add(u32::from(value))
}
