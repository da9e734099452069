//! The layout of a job: machines, buddies, chares and ports.

use crate::frame::Draft;
use crate::limits::{MAX_CHARES, MAX_MACHINES, MAX_PORTS, MIN_MACHINES};

#[derive(Clone, Copy, Debug, Default, PartialEq, Eq)]
pub struct Place {
    pub machine: u8,
    /// Two chares, 0 for none.
    pub ports: [u8; MAX_PORTS],
}

/// A job in range. Machines and chares are numbered from 1.
#[derive(Clone, Debug, PartialEq, Eq)]
pub struct Job {
    machines: u8,
    chares: u8,
    buddies: [u8; MAX_MACHINES],
    places: [Place; MAX_CHARES],
}

/// The place in an array of a machine or a chare numbered from 1.
#[inline]
pub fn ix(number: u8) -> usize {
    number as usize - 1
}

impl Job {
    /// The job of a frame, if all its numbers are in range.
    pub fn from_draft(draft: &Draft) -> Option<Job> {
        let (m, c) = (draft.machines as usize, draft.chares as usize);
        if !(MIN_MACHINES..=MAX_MACHINES).contains(&m) || !(1..=MAX_CHARES).contains(&c) {
            return None;
        }
        let mut job = Job {
            machines: draft.machines,
            chares: draft.chares,
            buddies: [0; MAX_MACHINES],
            places: [Place::default(); MAX_CHARES],
        };
        for (machine, &named) in (1..=draft.machines).zip(&draft.buddies) {
            if named > draft.machines || named == machine {
                return None;
            }
            job.buddies[ix(machine)] = match named {
                // Point 7: the machine before, the last one before the first.
                0 if machine == 1 => draft.machines,
                0 => machine - 1,
                _ => named,
            };
        }
        for (place, &[machine, one, two]) in job.places.iter_mut().zip(&draft.places[..c]) {
            if !(1..=draft.machines).contains(&machine) || one.max(two) > draft.chares {
                return None;
            }
            *place = Place {
                machine,
                ports: [one, two],
            };
        }
        Some(job)
    }

    pub fn machine_count(&self) -> u8 {
        self.machines
    }

    pub fn chare_count(&self) -> u8 {
        self.chares
    }

    pub fn machines(&self) -> impl Iterator<Item = u8> {
        1..=self.machines
    }

    pub fn chares(&self) -> impl Iterator<Item = u8> {
        1..=self.chares
    }

    pub fn has_machine(&self, machine: u8) -> bool {
        (1..=self.machines).contains(&machine)
    }

    pub fn has_chare(&self, chare: u8) -> bool {
        (1..=self.chares).contains(&chare)
    }

    /// The machine of a chare; 0 for the desk, which is on none.
    #[inline]
    pub fn machine_of(&self, sender: u8) -> u8 {
        match sender {
            0 => 0,
            chare => self.places[ix(chare)].machine,
        }
    }

    #[inline]
    pub fn buddy_of(&self, machine: u8) -> u8 {
        self.buddies[ix(machine)]
    }

    pub fn ports_of(&self, chare: u8) -> [u8; MAX_PORTS] {
        self.places[ix(chare)].ports
    }

    /// The chares on a machine, lowest first.
    pub fn chares_on(&self, machine: u8) -> impl Iterator<Item = u8> + '_ {
        self.chares()
            .filter(move |&c| self.machine_of(c) == machine)
    }
}
