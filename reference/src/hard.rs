//! Long rows for which one question what came before what takes long, whichever way a row is searched.

use crate::limits::MAX_CHARES;
use crate::pairs::Pair;
use crate::precedes::{Processing, MAX_RECORDS};
use crate::rows::{braid, weave, work};

pub struct Hard {
    pub name: &'static str,
    pub row: Vec<Processing>,
}

pub fn hard_rows() -> Vec<Hard> {
    let hard = |name, row| Hard { name, row };
    let last = MAX_RECORDS;
    let far = |at| at / 2;
    vec![
        hard("one chare alone", alone()),
        hard(
            "2 chares in turn, sent by the record before",
            braid(2, last),
        ),
        hard(
            "11 chares in turn, sent by the record before",
            braid(11, last),
        ),
        hard(
            "12 chares in turn, sent by the record before",
            braid(12, last),
        ),
        hard("11 chares in turn, sent from far", weave(11, last, far)),
        hard("12 chares in turn, sent from far", weave(12, last, far)),
        hard("11 chares in turn, all sent by one", weave(11, last, |_| 1)),
        hard("12 chares, one after the other", one_after_the_other()),
        hard("bad at the last record", bad_at_the_last()),
        hard("600 records", weave(12, 600, far)),
    ]
}

fn alone() -> Vec<Processing> {
    let mut row = Vec::new();
    (0..MAX_RECORDS).for_each(|_| work(&mut row, 1, None));
    row
}

/// Each chare works all its messages before the next one does; each was sent by the chare before at the same TN.
fn one_after_the_other() -> Vec<Processing> {
    let each = MAX_RECORDS / MAX_CHARES;
    let mut row = Vec::new();
    for chare in 1..=MAX_CHARES {
        for _ in 0..each {
            let sender = row.len().checked_sub(each);
            work(&mut row, chare as u8, sender);
        }
    }
    // What is left over.
    while row.len() < MAX_RECORDS {
        let sender = row.len() - each;
        work(&mut row, MAX_CHARES as u8, Some(sender));
    }
    row
}

/// The sending record that it names stands nowhere.
fn bad_at_the_last() -> Vec<Processing> {
    let mut row = braid(MAX_CHARES, MAX_RECORDS);
    row[MAX_RECORDS - 1].sender_tn += 1;
    row
}

/// Pairs of a long row, so that each way to search has its worst one among them.
pub fn hard_pairs(row: &[Processing]) -> Vec<Pair> {
    let last = row.len() - 1;
    let [first, second, middle, end] = [0, 1, last / 2, last].map(|at| row[at].name());
    let stranger = (MAX_CHARES as u8, u16::MAX);
    vec![
        (first, end),
        (second, end),
        (middle, end),
        (end, end),
        (end, first),
        (first, middle),
        (end, stranger),
        (stranger, end),
    ]
}
