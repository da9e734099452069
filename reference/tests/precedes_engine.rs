//! The proved answers what came before what, asked through the library, are the second implementation's, and come soon.

use reference::asked::compare_random;
use reference::engine;
use reference::hard::{hard_pairs, hard_rows};
use reference::pairs::random_pairs;
use reference::precedes::{Answer, Chains, Processing};
use reference::rng::Rng;
use reference::samples::random_row;
use std::slice;
use std::time::{Duration, Instant};

#[test]
fn random_rows() {
    for seed in 1..=4 {
        let tally = compare_random(5000, seed, engine::precedes)
            .unwrap_or_else(|difference| panic!("the answers differ\n{difference}"));
        assert!(tally.answers.values().sum::<usize>() > 50_000);
    }
}

#[test]
fn hard_rows_get_the_same_answers() {
    for hard in hard_rows() {
        let chains = Chains::of(&hard.row);
        for (first, second) in hard_pairs(&hard.row) {
            let answer = engine::precedes(&hard.row, first, second);
            assert_eq!(answer, chains.answer(first, second), "{}", hard.name);
        }
    }
}

/// A record's eight bytes, the two that belong to no field filled with `between`.
fn bytes(record: &Processing, between: u8) -> [u8; 8] {
    let ([tn, tn_end], [sent, sent_end]) =
        (record.tn.to_ne_bytes(), record.sender_tn.to_ne_bytes());
    let (chare, sender) = (record.chare, record.sender);
    [chare, between, tn, tn_end, sender, between, sent, sent_end]
}

/// A caller in C need not clear what stands between the fields.
#[test]
fn bytes_between_the_fields_do_not_count() {
    let mut rng = Rng::new(3);
    for _ in 0..1000 {
        let row = random_row(&mut rng).row;
        let chains = Chains::of(&row);
        let between = rng.byte();
        let words: Vec<u64> = row
            .iter()
            .map(|record| u64::from_ne_bytes(bytes(record, between)))
            .collect();
        // Sound: a word has a record's size and more than its alignment, and any bytes are a record.
        let same: &[Processing] =
            unsafe { slice::from_raw_parts(words.as_ptr().cast(), words.len()) };
        assert_eq!(same, row);
        for (first, second) in random_pairs(&mut rng, &row) {
            let answer = engine::precedes(same, first, second);
            assert_eq!(answer, chains.answer(first, second), "{between} {row:?}");
        }
    }
}

const fn record(chare: u8, tn: u16, sender: u8, sender_tn: u16) -> Processing {
    Processing {
        chare,
        tn,
        sender,
        sender_tn,
    }
}

/// It stands where nothing can be written: the test would not live through a try.
static LENT: [Processing; 3] = [record(1, 1, 0, 0), record(2, 1, 1, 1), record(1, 2, 0, 0)];

#[test]
fn the_row_is_only_read() {
    assert_eq!(engine::precedes(&LENT, (1, 1), (2, 1)), Answer::Yes);
    assert_eq!(engine::precedes(&LENT, (2, 1), (1, 2)), Answer::No);
    assert_eq!(engine::precedes(&LENT, (2, 1), (1, 3)), Answer::Unknown);
    assert_eq!(engine::precedes(&LENT[1..], (1, 1), (2, 1)), Answer::Bad(1));
}

/// The best of some tries, so that a busy machine does not count.
#[test]
fn within_a_millisecond() {
    const MOST: Duration = Duration::from_millis(1);
    for hard in hard_rows() {
        for (first, second) in hard_pairs(&hard.row) {
            let ask = || {
                let start = Instant::now();
                engine::precedes(&hard.row, first, second);
                start.elapsed()
            };
            let best = (0..20).map(|_| ask()).min().expect("some tries");
            assert!(best < MOST, "{}, {first:?} {second:?}: {best:?}", hard.name);
        }
    }
}
