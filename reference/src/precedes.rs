//! Point 12: which processing came before which. All chains of a row are worked out at once, as a closed matrix.

use crate::limits::{DESK, MAX_CHARES};

/// A row has no more records than this.
pub const MAX_RECORDS: usize = 512;

/// A record of a row: the chare that worked a message, at which TN, who sent it, and the sender's TN at which it was sent (0 for the
/// desk). A caller in C lends the same bytes.
#[repr(C)]
#[derive(Clone, Copy, Debug, PartialEq, Eq)]
pub struct Processing {
    pub chare: u8,
    pub tn: u16,
    pub sender: u8,
    pub sender_tn: u16,
}

/// The name of a processing: its chare and TN.
pub type Name = (u8, u16);

impl Processing {
    pub fn name(&self) -> Name {
        (self.chare, self.tn)
    }
}

#[derive(Clone, Copy, Debug, PartialEq, Eq)]
pub enum Answer {
    /// The place of the first bad record, counted from 1.
    Bad(u16),
    /// One of the two is not in the row.
    Unknown,
    Yes,
    No,
}

/// Does the first processing precede the second?
pub fn precedes(row: &[Processing], first: Name, second: Name) -> Answer {
    Chains::of(row).answer(first, second)
}

/// All that can be asked of a row, worked out once.
pub struct Chains {
    names: Vec<Name>,
    /// For each record those that it precedes, or the place where the row is bad.
    after: Result<Vec<Set>, u16>,
}

impl Chains {
    pub fn of(row: &[Processing]) -> Chains {
        let names = row.iter().map(Processing::name).collect();
        let after = match first_bad(row) {
            Some(place) => Err(place),
            None => Ok(closed(steps(row))),
        };
        Chains { names, after }
    }

    pub fn is_bad(&self) -> bool {
        self.after.is_err()
    }

    pub fn answer(&self, first: Name, second: Name) -> Answer {
        let after = match &self.after {
            Ok(after) => after,
            Err(place) => return Answer::Bad(*place),
        };
        let at = |name: Name| self.names.iter().position(|&other| other == name);
        match (at(first), at(second)) {
            (Some(first), Some(second)) if after[first].has(second) => Answer::Yes,
            (Some(_), Some(_)) => Answer::No,
            _ => Answer::Unknown,
        }
    }
}

fn first_bad(row: &[Processing]) -> Option<u16> {
    let at = (0..row.len()).find(|&at| is_bad(&row[at], &row[..at]))?;
    // At most 513: a record past 512 is bad.
    Some(at as u16 + 1)
}

fn is_bad(record: &Processing, earlier: &[Processing]) -> bool {
    earlier.len() >= MAX_RECORDS
        || !(1..=MAX_CHARES).contains(&usize::from(record.chare))
        || usize::from(record.sender) > MAX_CHARES
        || !is_sent(record, earlier)
        || usize::from(record.tn) != worked_by(record.chare, earlier) + 1
}

/// Does the desk give TN 0, or does the record that a chare names as sending stand earlier?
fn is_sent(record: &Processing, earlier: &[Processing]) -> bool {
    match record.sender {
        DESK => record.sender_tn == 0,
        _ => earlier.iter().any(|other| sends(other, record)),
    }
}

/// Is the one record the processing in which the other's message was sent? The desk is no chare of a good record.
fn sends(one: &Processing, other: &Processing) -> bool {
    one.name() == (other.sender, other.sender_tn)
}

fn worked_by(chare: u8, records: &[Processing]) -> usize {
    records.iter().filter(|other| other.chare == chare).count()
}

/// The single steps of a good row: for each record those on its chare with a higher TN, and those whose message it sent.
fn steps(row: &[Processing]) -> Vec<Set> {
    let is_step = |one: &Processing, other: &Processing| {
        (one.chare == other.chare && one.tn < other.tn) || sends(one, other)
    };
    let from = |one: &Processing| {
        let mut set = Set::default();
        (0..row.len())
            .filter(|&at| is_step(one, &row[at]))
            .for_each(|at| set.put(at));
        set
    };
    row.iter().map(from).collect()
}

/// Warshall's closure: chains that pass through the first records only, then through one more, until all may be passed.
fn closed(mut after: Vec<Set>) -> Vec<Set> {
    for through in 0..after.len() {
        let further = after[through];
        for set in &mut after {
            if set.has(through) {
                set.join(&further);
            }
        }
    }
    after
}

const WORD: usize = u64::BITS as usize;

/// A set of places in a row, counted from 0, with one bit each.
#[derive(Clone, Copy, Default)]
struct Set([u64; MAX_RECORDS / WORD]);

impl Set {
    fn has(&self, at: usize) -> bool {
        self.0[at / WORD] >> (at % WORD) & 1 == 1
    }

    fn put(&mut self, at: usize) {
        self.0[at / WORD] |= 1 << (at % WORD);
    }

    fn join(&mut self, other: &Set) {
        for (word, more) in self.0.iter_mut().zip(other.0) {
            *word |= more;
        }
    }
}
