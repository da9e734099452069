//! Small changes of a good row, each of which makes one record bad.

use crate::limits::{DESK, MAX_CHARES};
use crate::precedes::{Name, Processing};
use crate::rng::Rng;

pub struct Fault {
    pub name: &'static str,
    change: fn(&mut Rng, &[Processing], usize) -> Option<Processing>,
}

impl Fault {
    /// What to put at a place of a good row to make it bad there; nothing if the record there cannot have this fault.
    pub fn at(&self, rng: &mut Rng, row: &[Processing], at: usize) -> Option<Processing> {
        (self.change)(rng, row, at)
    }
}

pub const FAULTS: [Fault; 11] = [
    Fault {
        name: "chare outside 1 to 12",
        change: |rng, row, at| {
            Some(Processing {
                chare: *rng.pick(&[0, 13, 255]),
                ..row[at]
            })
        },
    },
    Fault {
        name: "sender outside 0 to 12",
        change: |rng, row, at| {
            Some(Processing {
                sender: *rng.pick(&[13, 255]),
                ..row[at]
            })
        },
    },
    Fault {
        name: "TN 0",
        change: |_, row, at| Some(with_tn(row[at], 0)),
    },
    Fault {
        name: "TN skipped",
        change: |_, row, at| Some(with_tn(row[at], row[at].tn + 1)),
    },
    Fault {
        name: "TN repeated",
        change: |_, row, at| (row[at].tn > 1).then(|| with_tn(row[at], row[at].tn - 1)),
    },
    Fault {
        name: "TN too high",
        change: |rng, row, at| {
            let higher = row[at].tn + rng.between(2, 600) as u16;
            Some(with_tn(row[at], *rng.pick(&[higher, u16::MAX])))
        },
    },
    Fault {
        name: "desk with a TN",
        change: |rng, row, at| {
            let tn = *rng.pick(&[1, row[at].tn, u16::MAX]);
            Some(sent_by(row[at], (DESK, tn)))
        },
    },
    Fault {
        name: "chare as sender with TN 0",
        change: |rng, row, at| Some(sent_by(row[at], (random_chare(rng), 0))),
    },
    Fault {
        name: "sending record later",
        change: |rng, row, at| {
            let later = &row[at + 1..];
            (!later.is_empty()).then(|| sent_by(row[at], rng.pick(later).name()))
        },
    },
    Fault {
        name: "sending record the record itself",
        change: |_, row, at| Some(sent_by(row[at], row[at].name())),
    },
    Fault {
        name: "no sending record",
        change: |rng, row, at| Some(sent_by(row[at], nowhere(rng, row))),
    },
];

/// A place of a good row, which is not empty, and what to put there.
pub fn random_fault(rng: &mut Rng, row: &[Processing]) -> (usize, Processing) {
    let at = rng.below(row.len());
    (at, random_fault_at(rng, row, at))
}

/// What to put at that place: every record can have some fault.
pub fn random_fault_at(rng: &mut Rng, row: &[Processing], at: usize) -> Processing {
    loop {
        if let Some(record) = rng.pick(&FAULTS).at(rng, row, at) {
            return record;
        }
    }
}

fn with_tn(record: Processing, tn: u16) -> Processing {
    Processing { tn, ..record }
}

fn sent_by(record: Processing, (sender, sender_tn): Name) -> Processing {
    Processing {
        sender,
        sender_tn,
        ..record
    }
}

fn random_chare(rng: &mut Rng) -> u8 {
    rng.between(1, MAX_CHARES) as u8
}

/// A chare with a TN that it has nowhere in the row.
fn nowhere(rng: &mut Rng, row: &[Processing]) -> Name {
    let chare = random_chare(rng);
    let highest = row.iter().filter(|record| record.chare == chare);
    let highest = highest.map(|record| record.tn).max().unwrap_or(0);
    (chare, *rng.pick(&[highest + 1, u16::MAX]))
}
