//! Random rows of processings of every kind, good ones and bad ones, for questions what came before what.

use crate::faults::{random_fault_at, FAULTS};
use crate::precedes::{Processing, MAX_RECORDS};
use crate::rng::Rng;
use crate::rows::{good_row, random_braid, random_good_row, random_length};

/// A row, and as what kind it was made.
pub struct Sample {
    pub kind: &'static str,
    pub row: Vec<Processing>,
}

pub fn random_row(rng: &mut Rng) -> Sample {
    let (kind, row) = match rng.weighted(&[40, 4, 33, 8, 6, 1, 1, 5, 2]) {
        0 => ("good", random_good_row(rng)),
        1 => ("braid", random_braid(rng)),
        2 => return spoilt(rng),
        3 => ("two bad records", spoilt_twice(rng)),
        4 => ("records moved", moved(rng)),
        5 => ("past 512", past_the_end(rng)),
        6 => ("past 512 and a bad record", spoilt_past_the_end(rng)),
        7 => ("small numbers", numbers(rng, small)),
        _ => ("any bytes", numbers(rng, any)),
    };
    Sample { kind, row }
}

/// A good row with one bad record; its kind is the fault's name.
fn spoilt(rng: &mut Rng) -> Sample {
    let mut row = random_good_row(rng);
    let fault = rng.pick(&FAULTS);
    // Not every record can have every fault.
    for _ in 0..2 * row.len() {
        let at = rng.below(row.len());
        if let Some(record) = fault.at(rng, &row, at) {
            row[at] = record;
            let kind = fault.name;
            return Sample { kind, row };
        }
    }
    Sample { kind: "good", row }
}

fn spoilt_twice(rng: &mut Rng) -> Vec<Processing> {
    let len = random_length(rng).max(2);
    let good = good_row(rng, len);
    let one = rng.below(len);
    let other = (one + rng.between(1, len - 1)) % len;
    let mut row = good.clone();
    for at in [one, other] {
        row[at] = random_fault_at(rng, &good, at);
    }
    row
}

/// Some records exchanged, taken out or doubled. Sometimes the row stays good.
fn moved(rng: &mut Rng) -> Vec<Processing> {
    let len = random_length(rng).max(2);
    let mut row = good_row(rng, len);
    let at = rng.below(len);
    match rng.below(4) {
        0 => row.swap(at, rng.below(len)),
        1 => row.swap(at, (at + 1) % len),
        2 => {
            row.remove(at);
        }
        _ => row.insert(at, row[at]),
    }
    row
}

fn past_the_end(rng: &mut Rng) -> Vec<Processing> {
    let len = *rng.pick(&[MAX_RECORDS + 1, MAX_RECORDS + 2, 600]);
    good_row(rng, len)
}

/// The bad record stands anywhere, or about where the row goes past 512.
fn spoilt_past_the_end(rng: &mut Rng) -> Vec<Processing> {
    let mut row = past_the_end(rng);
    let at = match rng.below(2) {
        0 => rng.below(row.len()),
        _ => rng.between(MAX_RECORDS - 2, MAX_RECORDS),
    };
    row[at] = random_fault_at(rng, &row, at);
    row
}

fn numbers(rng: &mut Rng, one: fn(&mut Rng) -> Processing) -> Vec<Processing> {
    (0..rng.between(1, 40)).map(|_| one(rng)).collect()
}

/// Good by accident, for some records.
fn small(rng: &mut Rng) -> Processing {
    Processing {
        chare: rng.between(1, 3) as u8,
        tn: rng.between(1, 3) as u16,
        sender: rng.between(0, 3) as u8,
        sender_tn: rng.between(0, 2) as u16,
    }
}

fn any(rng: &mut Rng) -> Processing {
    Processing {
        chare: rng.byte(),
        tn: rng.next() as u16,
        sender: rng.byte(),
        sender_tn: rng.next() as u16,
    }
}
