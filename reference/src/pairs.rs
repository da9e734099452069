//! Pairs of processings to ask a row for.

use crate::limits::{DESK, MAX_CHARES};
use crate::precedes::{Name, Processing};
use crate::rng::Rng;

/// Does the first precede the second?
pub type Pair = (Name, Name);

/// Pairs of every kind: in the order of the row, reversed, a processing with itself, and with one that is not in the row.
pub fn random_pairs(rng: &mut Rng, row: &[Processing]) -> Vec<Pair> {
    let strangers = strangers(rng, row);
    let stranger = *rng.pick(&strangers);
    let mut pairs = vec![(stranger, *rng.pick(&strangers)), (stranger, stranger)];
    let Some(last) = row.len().checked_sub(1) else {
        return pairs;
    };
    for _ in 0..4 {
        let (one, other) = (rng.between(0, last), rng.between(0, last));
        let (early, late) = (one.min(other), one.max(other));
        pairs.push((row[early].name(), row[late].name()));
    }
    let [one, other] = [(); 2].map(|()| rng.pick(row).name());
    pairs.extend([(one, other), (other, one), (one, one)]);
    pairs.push((row[0].name(), row[last].name()));
    pairs.push((one, row[last].name()));
    pairs.extend([(one, stranger), (stranger, other)]);
    pairs
}

/// Each of the row with each, and all with one that is not in the row.
pub fn all_pairs(row: &[Processing]) -> Vec<Pair> {
    let stranger = (MAX_CHARES as u8, u16::MAX);
    let names = row.iter().map(Processing::name).chain([stranger]);
    let names: Vec<Name> = names.collect();
    names
        .iter()
        .flat_map(|&first| names.iter().map(move |&second| (first, second)))
        .collect()
}

/// Names that a good row does not have.
fn strangers(rng: &mut Rng, row: &[Processing]) -> [Name; 8] {
    let chare = rng.between(1, MAX_CHARES) as u8;
    let some = row.get(rng.below(row.len().max(1)));
    let tn = some.map_or(1, |record| record.tn);
    let worked = row.iter().filter(|record| record.chare == chare).count();
    let beyond = MAX_CHARES as u8 + 1;
    [
        (chare, 0),
        (chare, worked as u16 + 1),
        (chare, u16::MAX),
        (DESK, 0),
        (DESK, tn),
        (beyond, tn),
        (u8::MAX, tn),
        (rng.byte() | 0x10, rng.next() as u16),
    ]
}
