//! Good rows of processings, random ones and woven ones.

use crate::limits::{DESK, MAX_CHARES};
use crate::precedes::{Processing, MAX_RECORDS};
use crate::rng::Rng;

/// Where the sending record of a chare's message stands.
#[derive(Clone, Copy)]
enum Reach {
    Before,
    Near,
    Any,
    First,
    /// Anywhere, but odd chares write to odd ones and even ones to even ones.
    Apart,
}

const REACHES: [Reach; 5] = [
    Reach::Before,
    Reach::Near,
    Reach::Any,
    Reach::First,
    Reach::Apart,
];

/// Puts the next processing of a chare behind the others. Its message was sent by the record at the place `sender`, or by the desk.
pub fn work(row: &mut Vec<Processing>, chare: u8, sender: Option<usize>) {
    let last = row.iter().rev().find(|record| record.chare == chare);
    let tn = last.map_or(1, |record| record.tn + 1);
    let (sender, sender_tn) = sender.map_or((DESK, 0), |at| row[at].name());
    row.push(Processing {
        chare,
        tn,
        sender,
        sender_tn,
    });
}

pub fn random_good_row(rng: &mut Rng) -> Vec<Processing> {
    let len = random_length(rng);
    good_row(rng, len)
}

pub fn random_length(rng: &mut Rng) -> usize {
    match rng.weighted(&[30, 42, 18, 8, 2]) {
        0 => rng.below(13),
        1 => rng.between(13, 64),
        2 => rng.between(65, 200),
        3 => rng.between(201, MAX_RECORDS),
        _ => rng.between(MAX_RECORDS - 1, MAX_RECORDS),
    }
}

/// A row in which every record is good, but for its length.
pub fn good_row(rng: &mut Rng, len: usize) -> Vec<Processing> {
    let chares = random_chares(rng);
    let reach = *rng.pick(&REACHES);
    // Of a hundred messages.
    let from_desk = *rng.pick(&[0, 5, 30, 70, 95]);
    let mut row = Vec::with_capacity(len);
    for _ in 0..len {
        let chare = *rng.pick(&chares);
        let sender = if rng.below(100) < from_desk {
            None
        } else {
            random_sender(rng, &row, chare, reach)
        };
        work(&mut row, chare, sender);
    }
    row
}

/// Few or many; one that is picked twice works more.
fn random_chares(rng: &mut Rng) -> Vec<u8> {
    let most = *rng.pick(&[1, 2, 3, 5, MAX_CHARES, 2 * MAX_CHARES]);
    (0..rng.between(1, most))
        .map(|_| rng.between(1, MAX_CHARES) as u8)
        .collect()
}

fn random_sender(rng: &mut Rng, row: &[Processing], chare: u8, reach: Reach) -> Option<usize> {
    const FEW: usize = 8;
    let last = row.len().checked_sub(1)?;
    match reach {
        Reach::Before => Some(last),
        Reach::Near => Some(rng.between(last.saturating_sub(FEW), last)),
        Reach::Any => Some(rng.between(0, last)),
        Reach::First => Some(rng.between(0, last.min(FEW))),
        Reach::Apart => Some(rng.between(0, last)).filter(|&at| row[at].chare % 2 == chare % 2),
    }
}

pub fn random_braid(rng: &mut Rng) -> Vec<Processing> {
    let len = random_length(rng);
    braid(rng.between(2, MAX_CHARES - 1), len)
}

/// A search back from the last record that remembers nothing would take for ever to find that the first one is not there.
pub fn braid(chares: usize, len: usize) -> Vec<Processing> {
    weave(chares, len, |at| at - 1)
}

/// Chare 12 alone, then so many chares in turn, the first written to by the desk, the others by the records at the places `sender`.
pub fn weave(chares: usize, len: usize, sender: fn(usize) -> usize) -> Vec<Processing> {
    let mut row = Vec::with_capacity(len);
    for at in 0..len {
        match at {
            0 => work(&mut row, MAX_CHARES as u8, None),
            1 => work(&mut row, 1, None),
            _ => {
                let chare = (at - 1) % chares + 1;
                work(&mut row, chare as u8, Some(sender(at)));
            }
        }
    }
    row
}
