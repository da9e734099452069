//! Point 12: what came before what. Rows with answers worked out by hand.

use reference::precedes::Answer::{self, Bad, No, Unknown, Yes};
use reference::precedes::{precedes, Name, Processing, MAX_RECORDS};

/// Chare, TN, sender, the sender's TN.
type Record = (u8, u16, u8, u16);

fn row(records: &[Record]) -> Vec<Processing> {
    let record = |&(chare, tn, sender, sender_tn): &Record| Processing {
        chare,
        tn,
        sender,
        sender_tn,
    };
    records.iter().map(record).collect()
}

fn ask(records: &[Record], first: Name, second: Name) -> Answer {
    precedes(&row(records), first, second)
}

/// Two chares that write to each other, a third that is written to, and a fourth that only the desk writes to.
const TALK: [Record; 8] = [
    (1, 1, 0, 0),
    (2, 1, 1, 1),
    (4, 1, 0, 0),
    (1, 2, 0, 0),
    (3, 1, 2, 1),
    (2, 2, 1, 2),
    (4, 2, 0, 0),
    (3, 2, 0, 0),
];

/// A row of a bad record behind good ones: the place is that of the bad one, whatever is asked for.
fn assert_bad_behind_good(record: Record) {
    for good in 0..=TALK.len() {
        let records = [&TALK[..good], &[record]].concat();
        for (first, second) in [((1, 1), (2, 1)), ((9, 9), (1, 1)), ((0, 0), (255, 65535))] {
            let place = good as u16 + 1;
            assert_eq!(ask(&records, first, second), Bad(place), "{records:?}");
        }
    }
}

#[test]
fn a_chare_outside_1_to_12() {
    for chare in [0, 13, 14, 128, 255] {
        assert_bad_behind_good((chare, 1, 0, 0));
    }
    assert_eq!(ask(&[(1, 1, 0, 0)], (1, 1), (1, 1)), No);
    assert_eq!(ask(&[(12, 1, 0, 0)], (12, 1), (12, 1)), No);
}

#[test]
fn a_sender_outside_0_to_12() {
    for sender in [13, 14, 128, 255] {
        for sender_tn in [0, 1] {
            assert_bad_behind_good((5, 1, sender, sender_tn));
        }
    }
    let records = [(12, 1, 0, 0), (1, 1, 12, 1)];
    assert_eq!(ask(&records, (12, 1), (1, 1)), Yes);
}

#[test]
fn the_desk_with_a_tn() {
    for sender_tn in [1, 2, 256, 65535] {
        assert_bad_behind_good((5, 1, 0, sender_tn));
    }
}

#[test]
fn a_chare_as_sender_with_tn_0() {
    for sender in 1..=12 {
        assert_bad_behind_good((5, 1, sender, 0));
    }
}

#[test]
fn a_sending_record_that_is_not_there() {
    // A chare that works nothing, and TNs that are not reached, also by their low byte.
    for sent_at in [(6, 1), (1, 3), (1, 257), (1, 65535), (4, 3)] {
        assert_bad_behind_good((5, 1, sent_at.0, sent_at.1));
    }
}

#[test]
fn a_sending_record_that_is_the_record_itself() {
    assert_bad_behind_good((5, 1, 5, 1));
    let records = [(5, 1, 0, 0), (5, 2, 5, 2)];
    assert_eq!(ask(&records, (5, 1), (5, 1)), Bad(2));
    // The one before it on its own chare may send.
    let records = [(5, 1, 0, 0), (5, 2, 5, 1)];
    assert_eq!(ask(&records, (5, 1), (5, 2)), Yes);
}

#[test]
fn a_sending_record_that_stands_later() {
    let records = [(1, 1, 2, 1), (2, 1, 0, 0)];
    assert_eq!(ask(&records, (2, 1), (1, 1)), Bad(1));
    let records = [(2, 1, 0, 0), (1, 1, 2, 2), (2, 2, 0, 0)];
    assert_eq!(ask(&records, (2, 1), (1, 1)), Bad(2));
    let records = [(2, 1, 0, 0), (2, 2, 0, 0), (1, 1, 2, 2)];
    assert_eq!(ask(&records, (2, 1), (1, 1)), Yes);
}

#[test]
fn tns_that_do_not_ascend_by_1_from_1() {
    for first in [0, 2, 3, 257, 65535] {
        assert_bad_behind_good((5, first, 0, 0));
    }
    for third in [0, 1, 2, 4, 259, 65535] {
        let records = [(5, 1, 0, 0), (5, 2, 0, 0), (1, 1, 0, 0), (5, third, 0, 0)];
        assert_eq!(ask(&records, (5, 1), (5, 2)), Bad(4), "{third}");
    }
    let records = [(5, 1, 0, 0), (5, 2, 0, 0), (1, 1, 0, 0), (5, 3, 0, 0)];
    assert_eq!(ask(&records, (5, 1), (5, 3)), Yes);
}

#[test]
fn the_first_of_several_bad_records() {
    let bad: [Record; 6] = [
        (0, 1, 0, 0),
        (5, 1, 13, 1),
        (5, 1, 0, 1),
        (5, 1, 1, 0),
        (5, 1, 5, 1),
        (5, 2, 0, 0),
    ];
    for one in bad {
        for other in bad {
            let records = [(1, 1, 0, 0), one, (2, 1, 0, 0), other];
            assert_eq!(ask(&records, (1, 1), (2, 1)), Bad(2));
            // A good record between them, and the same ones behind a good row.
            let records = [&TALK[..], &[one, other, one]].concat();
            assert_eq!(ask(&records, (1, 1), (2, 1)), Bad(9));
        }
    }
}

/// Chare 1 works so many messages from the desk.
fn alone(records: usize) -> Vec<Record> {
    (1..=records as u16).map(|tn| (1, tn, 0, 0)).collect()
}

#[test]
fn past_512() {
    assert_eq!(MAX_RECORDS, 512);
    assert_eq!(ask(&alone(511), (1, 1), (1, 511)), Yes);
    assert_eq!(ask(&alone(512), (1, 1), (1, 512)), Yes);
    assert_eq!(ask(&alone(512), (1, 512), (1, 1)), No);
    assert_eq!(ask(&alone(512), (1, 1), (1, 513)), Unknown);
    for len in [513, 514, 600, 1024, 65_535] {
        for (first, second) in [((1, 1), (1, 2)), ((1, 1), (1, 513)), ((2, 1), (0, 0))] {
            assert_eq!(ask(&alone(len), first, second), Bad(513), "{len}");
        }
    }
}

#[test]
fn a_bad_record_before_the_513th() {
    for len in [512, 513, 514, 600] {
        for at in [0, 1, 255, 510, 511] {
            let mut records = alone(len);
            records[at].2 = 2;
            let place = at as u16 + 1;
            assert_eq!(ask(&records, (1, 1), (1, 1)), Bad(place), "{len} {at}");
        }
        // Behind 512 it makes no difference.
        if len > 512 {
            let mut records = alone(len);
            records[len - 1].0 = 0;
            assert_eq!(ask(&records, (1, 1), (1, 1)), Bad(513), "{len}");
        }
    }
}

#[test]
fn unknown() {
    let strangers = [
        (1, 0),
        (1, 3),
        (1, 257),
        (1, 65535),
        (5, 1),
        (0, 0),
        (0, 1),
        (13, 1),
        (255, 1),
    ];
    for stranger in strangers {
        assert_eq!(ask(&TALK, stranger, (1, 1)), Unknown, "{stranger:?}");
        assert_eq!(ask(&TALK, (1, 1), stranger), Unknown, "{stranger:?}");
        assert_eq!(ask(&TALK, stranger, stranger), Unknown, "{stranger:?}");
    }
}

/// In a row without records nothing is bad, and nothing is known.
#[test]
fn an_empty_row() {
    for name in [(0, 0), (1, 1), (12, 512), (255, 65535)] {
        assert_eq!(ask(&[], name, name), Unknown);
        assert_eq!(ask(&[], name, (1, 1)), Unknown);
    }
}

#[test]
fn on_one_chare() {
    for first in 1..=5 {
        for second in 1..=5 {
            let want = if first < second { Yes } else { No };
            assert_eq!(ask(&alone(5), (1, first), (1, second)), want);
        }
    }
}

#[test]
fn through_a_sender() {
    let records = [(1, 1, 0, 0), (2, 1, 1, 1)];
    assert_eq!(ask(&records, (1, 1), (2, 1)), Yes);
    assert_eq!(ask(&records, (2, 1), (1, 1)), No);
    let records = [(1, 1, 0, 0), (2, 1, 0, 0)];
    assert_eq!(ask(&records, (1, 1), (2, 1)), No);
    assert_eq!(ask(&records, (2, 1), (1, 1)), No);
    // What the sender worked after the sending does not count.
    let records = [(1, 1, 0, 0), (1, 2, 0, 0), (2, 1, 1, 1)];
    assert_eq!(ask(&records, (1, 1), (2, 1)), Yes);
    assert_eq!(ask(&records, (1, 2), (2, 1)), No);
}

/// Chains of senders alone, of both kinds of steps, and round a ring of chares.
#[test]
fn through_chains() {
    let records = [(1, 1, 0, 0), (2, 1, 1, 1), (3, 1, 2, 1), (4, 1, 3, 1)];
    assert_eq!(ask(&records, (1, 1), (4, 1)), Yes);
    assert_eq!(ask(&records, (2, 1), (4, 1)), Yes);
    assert_eq!(ask(&records, (4, 1), (1, 1)), No);
    // On chare 1, to chare 2, on chare 2, to chare 3, on chare 3.
    let records = [
        (3, 1, 0, 0),
        (1, 1, 0, 0),
        (2, 1, 0, 0),
        (1, 2, 0, 0),
        (2, 2, 1, 2),
        (2, 3, 0, 0),
        (3, 2, 2, 3),
        (3, 3, 0, 0),
    ];
    assert_eq!(ask(&records, (1, 1), (3, 3)), Yes);
    assert_eq!(ask(&records, (2, 1), (3, 2)), Yes);
    assert_eq!(ask(&records, (2, 2), (3, 2)), Yes);
    assert_eq!(ask(&records, (3, 1), (2, 3)), No);
    assert_eq!(ask(&records, (1, 2), (2, 1)), No);
    // Out to chare 2 and back.
    let records = [(1, 1, 0, 0), (2, 1, 1, 1), (1, 2, 0, 0), (1, 3, 2, 1)];
    assert_eq!(ask(&records, (2, 1), (1, 3)), Yes);
    assert_eq!(ask(&records, (2, 1), (1, 2)), No);
}

/// Every pair of one row, by hand: for each processing those that it precedes.
#[test]
fn every_pair_of_a_row() {
    let after: [(Name, &[Name]); 8] = [
        ((1, 1), &[(1, 2), (2, 1), (2, 2), (3, 1), (3, 2)]),
        ((2, 1), &[(2, 2), (3, 1), (3, 2)]),
        ((4, 1), &[(4, 2)]),
        ((1, 2), &[(2, 2)]),
        ((3, 1), &[(3, 2)]),
        ((2, 2), &[]),
        ((4, 2), &[]),
        ((3, 2), &[]),
    ];
    for (first, later) in after {
        for (second, _) in after {
            let want = if later.contains(&second) { Yes } else { No };
            assert_eq!(ask(&TALK, first, second), want, "{first:?} {second:?}");
        }
    }
}

#[test]
fn nothing_precedes_itself() {
    for (chare, tn, _, _) in TALK {
        assert_eq!(ask(&TALK, (chare, tn), (chare, tn)), No);
    }
}
