//! Withdraw: the desk takes its last message to a chare back.

use crate::answer::Question;
use crate::job::{ix, Job};
use crate::limits::DESK;
use crate::message::Lookup;
use crate::wire::{Kind, Name};
use crate::world::World;

/// The desk's last message to a chare, as question 12 sees it.
#[derive(Clone, Copy, Debug, PartialEq, Eq)]
pub struct LastInjected {
    /// The desk's count for the chare; 0 if there is no message.
    pub sn: u16,
    /// Where the desk's log has it.
    pub logged: Lookup,
    /// Is its ASK on the wire?
    pub asks: bool,
    /// The TN that the chare's table has for it.
    pub ticket: Option<u16>,
}

impl World {
    /// The chare's machine must be up: its table is looked at.
    pub fn last_injected(&self, chare: u8) -> LastInjected {
        // No message has SN 0, so a count of 0 finds nothing anywhere.
        let sn = self.desk.sent[ix(chare)];
        let table = &self.chare(chare).table;
        LastInjected {
            sn,
            logged: self.desk.log.look_up(chare, sn),
            asks: self.wire.find(ask(chare, sn)).is_some(),
            ticket: table.find(DESK, sn).map(|at| table.0[at].tn),
        }
    }

    /// The message leaves the log and its ASK the wire, and the SN is free again.
    pub fn withdraw(&mut self, job: &Job, chare: u8) -> Result<(), Question> {
        if !self.is_up(job.machine_of(chare)) {
            return Err(Question::Up);
        }
        let LastInjected {
            sn,
            logged: Lookup::Waiting(at),
            asks: true,
            ticket: None,
        } = self.last_injected(chare)
        else {
            return Err(Question::Withdrawable);
        };
        self.desk.log.0.remove(at);
        self.wire.retain(|name| name != ask(chare, sn));
        self.desk.sent[ix(chare)] = sn - 1;
        Ok(())
    }
}

fn ask(chare: u8, sn: u16) -> Name {
    Name::new(Kind::Ask, DESK, chare, sn)
}
