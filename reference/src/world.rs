//! Everything that desk, machines, buddies and wire hold.

use crate::chare::Chare;
use crate::job::{ix, Job};
use crate::limits::{DESK, MAX_CHARES, MAX_MACHINES, NOTES_SIZE};
use crate::list::List;
use crate::message::Log;
use crate::wire::{Kind, Name, Wire};
use std::array::from_fn;

#[derive(Clone, Debug, Default, PartialEq, Eq)]
pub struct Desk {
    /// The last SN sent to each chare, chare 1 first.
    pub sent: [u16; MAX_CHARES],
    pub log: Log,
}

#[derive(Clone, Copy, Debug, Default, PartialEq, Eq)]
pub enum Phase {
    #[default]
    Up,
    Down,
    CatchingUp,
}

/// A ticket that a buddy has written down.
#[derive(Clone, Copy, Debug, Default, PartialEq, Eq)]
pub struct Note {
    pub sender: u8,
    pub receiver: u8,
    pub sn: u16,
    pub tn: u16,
}

/// What a buddy keeps for one machine, besides the copies of its chares.
#[derive(Clone, Debug, Default, PartialEq, Eq)]
pub struct Backup {
    pub has_copy: bool,
    pub notes: List<Note, NOTES_SIZE>,
}

#[derive(Clone, Debug, PartialEq, Eq)]
pub struct World {
    pub desk: Desk,
    /// The memory of each chare; empty while its machine is down.
    pub chares: [Chare; MAX_CHARES],
    /// The copy of each chare at its machine's buddy; empty if the buddy has none.
    pub copies: [Chare; MAX_CHARES],
    pub phases: [Phase; MAX_MACHINES],
    /// The height each chare must reach while its machine catches up, else 0.
    pub targets: [u16; MAX_CHARES],
    /// Kept for each machine by its buddy.
    pub backups: [Backup; MAX_MACHINES],
    pub wire: Wire,
}

impl World {
    pub fn empty() -> World {
        World {
            desk: Desk::default(),
            chares: from_fn(|_| Chare::default()),
            copies: from_fn(|_| Chare::default()),
            phases: [Phase::Up; MAX_MACHINES],
            targets: [0; MAX_CHARES],
            backups: from_fn(|_| Backup::default()),
            wire: Wire::new(),
        }
    }

    /// Sets up a job in an empty world. Each machine starts with a copy.
    pub fn start(&mut self, job: &Job) {
        for chare in job.chares() {
            self.chares[ix(chare)] = Chare::fresh(chare);
            self.copies[ix(chare)] = Chare::fresh(chare);
        }
        for machine in job.machines() {
            self.backups[ix(machine)].has_copy = true;
        }
    }

    pub fn chare(&self, chare: u8) -> &Chare {
        &self.chares[ix(chare)]
    }

    pub fn chare_mut(&mut self, chare: u8) -> &mut Chare {
        &mut self.chares[ix(chare)]
    }

    pub fn log(&self, sender: u8) -> &Log {
        match sender {
            DESK => &self.desk.log,
            chare => &self.chares[ix(chare)].log,
        }
    }

    pub fn log_mut(&mut self, sender: u8) -> &mut Log {
        match sender {
            DESK => &mut self.desk.log,
            chare => &mut self.chares[ix(chare)].log,
        }
    }

    /// Is the machine up? A machine that is catching up is; so is the desk's place, 0.
    #[inline]
    pub fn is_up(&self, machine: u8) -> bool {
        machine == 0 || self.phases[ix(machine)] != Phase::Down
    }

    /// Is no machine down or catching up?
    pub fn all_well(&self) -> bool {
        self.phases.iter().all(|&phase| phase == Phase::Up)
    }

    /// Would a crash of this machine, which is up, be covered?
    pub fn has_cover(&self, machine: u8) -> bool {
        self.all_well() && self.backups[ix(machine)].has_copy
    }
}

/// The machine a packet goes to; 0 is the desk.
#[inline]
pub fn destination(job: &Job, name: Name) -> u8 {
    match name.kind() {
        Kind::Ask | Kind::Data | Kind::Ack => job.machine_of(name.receiver()),
        Kind::Grant => job.machine_of(name.sender()),
        Kind::Note => job.buddy_of(job.machine_of(name.receiver())),
    }
}
