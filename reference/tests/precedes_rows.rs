//! The random rows and questions of Point 12 are of every kind, and a comparison on them tells a wrong answer.

use reference::asked::{compare_random, Difference, Tally};
use reference::faults::{random_fault, FAULTS};
use reference::limits::{DESK, MAX_CHARES};
use reference::precedes::{precedes, Answer, Name, Processing, MAX_RECORDS};
use reference::rng::Rng;
use reference::rows::{braid, good_row};
use std::collections::{BTreeMap, HashMap};

fn is_good(row: &[Processing]) -> bool {
    precedes(row, (0, 0), (0, 0)) == Answer::Unknown
}

#[test]
fn good_rows_are_good() {
    let mut rng = Rng::new(1);
    for len in 0..=MAX_RECORDS {
        let row = good_row(&mut rng, len);
        assert_eq!(row.len(), len);
        assert!(is_good(&row), "{row:?}");
    }
    for chares in 2..12 {
        let row = braid(chares, MAX_RECORDS);
        assert!(is_good(&row));
        // The first record sends nothing, all others come one out of the other.
        assert_eq!(precedes(&row, (12, 1), row[511].name()), Answer::No);
        assert_eq!(precedes(&row, (1, 1), row[511].name()), Answer::Yes);
    }
}

/// Every fault makes the row bad where it is put, also where another stands behind it.
#[test]
fn faults_are_bad_where_they_are_put() {
    let mut rng = Rng::new(2);
    let mut tried = [0; FAULTS.len()];
    for _ in 0..2000 {
        let len = rng.between(1, 60);
        let good = good_row(&mut rng, len);
        for (fault, tried) in FAULTS.iter().zip(&mut tried) {
            let at = rng.below(len);
            let Some(record) = fault.at(&mut rng, &good, at) else {
                continue;
            };
            let mut row = good.clone();
            let (other, another) = random_fault(&mut rng, &good);
            if other > at {
                row[other] = another;
            }
            row[at] = record;
            let place = at as u16 + 1;
            let answer = precedes(&row, (1, 1), (1, 1));
            assert_eq!(answer, Answer::Bad(place), "{} {row:?}", fault.name);
            *tried += 1;
        }
    }
    assert!(tried.iter().all(|&tried| tried > 500), "{tried:?}");
}

/// A wrong way to answer.
#[derive(Clone, Copy, Debug, PartialEq, Eq)]
enum Wrong {
    Itself,
    /// The two exchanged.
    Reversed,
    /// Steps on a chare alone.
    NoSenders,
    /// Steps to the sender alone.
    NoChares,
    /// No chain of more than one step.
    OneStep,
    /// The sender's next processing is taken for the one that sent.
    SentLate,
    /// A chare as sender may have TN 0.
    SentAtZero,
    /// A sending record may stand later.
    SentLater,
    /// It may be the record itself.
    SentByItself,
    /// It need not be there.
    SentNowhere,
    DeskWithTn,
    Chare0,
    Chare13,
    Sender13,
    /// A chare may begin with TN 0.
    FromZero,
    /// TNs ascend, but may skip.
    Skipping,
    /// The same TN again.
    Repeating,
    Only511,
    Also513,
    /// A row past 512 is bad at 513, whatever stands before.
    LengthFirst,
    /// The last bad record.
    LastBad,
    /// Places counted from 0.
    FromPlace0,
    UnknownFirst,
    /// One of the two is enough.
    HalfKnown,
}

const WRONG: [Wrong; 24] = [
    Wrong::Itself,
    Wrong::Reversed,
    Wrong::NoSenders,
    Wrong::NoChares,
    Wrong::OneStep,
    Wrong::SentLate,
    Wrong::SentAtZero,
    Wrong::SentLater,
    Wrong::SentByItself,
    Wrong::SentNowhere,
    Wrong::DeskWithTn,
    Wrong::Chare0,
    Wrong::Chare13,
    Wrong::Sender13,
    Wrong::FromZero,
    Wrong::Skipping,
    Wrong::Repeating,
    Wrong::Only511,
    Wrong::Also513,
    Wrong::LengthFirst,
    Wrong::LastBad,
    Wrong::FromPlace0,
    Wrong::UnknownFirst,
    Wrong::HalfKnown,
];

/// The answer by another way: one pass that counts what each chare has worked, then a search back from the second processing.
fn by_search(row: &[Processing], first: Name, second: Name, wrong: Option<Wrong>) -> Answer {
    let is = |what: Wrong| wrong == Some(what);
    // Backwards, so that the first of a name is kept.
    let places: HashMap<Name, usize> = (0..row.len())
        .rev()
        .map(|at| (row[at].name(), at))
        .collect();
    let known = [first, second].map(|name| places.contains_key(&name));
    let unknown = if is(Wrong::HalfKnown) {
        known == [false; 2]
    } else {
        known != [true; 2]
    };
    if is(Wrong::UnknownFirst) && unknown {
        return Answer::Unknown;
    }
    if let Some(at) = bad_place(row, &places, wrong) {
        return Answer::Bad(at as u16 + u16::from(!is(Wrong::FromPlace0)));
    }
    if unknown {
        return Answer::Unknown;
    }
    let (first, second) = match is(Wrong::Reversed) {
        true => (second, first),
        false => (first, second),
    };
    match is(Wrong::Itself) && first == second || is_found(row, &places, first, second, wrong) {
        true => Answer::Yes,
        false => Answer::No,
    }
}

/// Counted from 0.
fn bad_place(
    row: &[Processing],
    places: &HashMap<Name, usize>,
    wrong: Option<Wrong>,
) -> Option<usize> {
    let is = |what: Wrong| wrong == Some(what);
    let most = match wrong {
        Some(Wrong::Only511) => MAX_RECORDS - 1,
        Some(Wrong::Also513) => MAX_RECORDS + 1,
        _ => MAX_RECORDS,
    };
    if is(Wrong::LengthFirst) && row.len() > most {
        return Some(most);
    }
    let mut worked = [0; 256];
    let mut is_bad = |at: usize| {
        let record = row[at];
        let last = worked[usize::from(record.chare)];
        worked[usize::from(record.chare)] = record.tn;
        let sent = places.get(&(record.sender, record.sender_tn));
        let sent_well = match record.sender {
            DESK => record.sender_tn == 0 || is(Wrong::DeskWithTn),
            _ if is(Wrong::Sender13) && record.sender == 13 => true,
            _ if is(Wrong::SentNowhere) => usize::from(record.sender) <= MAX_CHARES,
            _ if is(Wrong::SentAtZero) && record.sender_tn == 0 => true,
            _ if is(Wrong::SentLater) => sent.is_some_and(|&place| place != at),
            _ if is(Wrong::SentByItself) => sent.is_some_and(|&place| place <= at),
            _ => sent.is_some_and(|&place| place < at),
        };
        let follows = Some(record.tn) == last.checked_add(1);
        let well_counted = match wrong {
            Some(Wrong::FromZero) if last == 0 => record.tn <= 1,
            Some(Wrong::Skipping) => record.tn > last,
            Some(Wrong::Repeating) if last > 0 => follows || record.tn == last,
            _ => follows,
        };
        let well_placed = match record.chare {
            0 => is(Wrong::Chare0),
            13 => is(Wrong::Chare13),
            chare => usize::from(chare) <= MAX_CHARES,
        };
        at >= most || !well_placed || !sent_well || !well_counted
    };
    let bad: Vec<usize> = (0..row.len()).filter(|&at| is_bad(at)).collect();
    match is(Wrong::LastBad) {
        true => bad.last().copied(),
        false => bad.first().copied(),
    }
}

fn is_found(
    row: &[Processing],
    places: &HashMap<Name, usize>,
    first: Name,
    second: Name,
    wrong: Option<Wrong>,
) -> bool {
    let is = |what: Wrong| wrong == Some(what);
    let mut seen = vec![false; row.len()];
    let mut open = Vec::from_iter(places.get(&second).copied());
    while let Some(at) = open.pop() {
        let Processing { chare, tn, .. } = row[at];
        let sender_tn = row[at]
            .sender_tn
            .saturating_add(u16::from(is(Wrong::SentLate)));
        let before = (!is(Wrong::NoChares) && tn > 1).then(|| (chare, tn - 1));
        let sent = (!is(Wrong::NoSenders)).then_some((row[at].sender, sender_tn));
        for name in [before, sent].into_iter().flatten() {
            match places.get(&name) {
                Some(_) if name == first => return true,
                Some(&place) if !seen[place] && !is(Wrong::OneStep) => {
                    seen[place] = true;
                    open.push(place);
                }
                _ => {}
            }
        }
    }
    false
}

const COUNT: usize = 4000;

fn compare(wrong: Option<Wrong>) -> Result<Tally, Difference> {
    let other = |row: &[Processing], first, second| by_search(row, first, second, wrong);
    compare_random(COUNT, 1, other)
}

#[test]
fn rows_and_answers_of_every_kind() {
    let tally = compare(None).unwrap_or_else(|difference| panic!("{difference}"));
    let sum = |counts: &BTreeMap<_, usize>| counts.values().sum::<usize>();
    assert_eq!(sum(&tally.good) + sum(&tally.bad), COUNT);
    assert!(sum(&tally.good) > COUNT / 3, "{tally}");
    assert!(sum(&tally.bad) > COUNT / 3, "{tally}");
    for fault in &FAULTS {
        assert!(tally.bad[fault.name] > 50, "{tally}");
        assert!(!tally.good.contains_key(fault.name), "{tally}");
    }
    for kind in ["past 512", "past 512 and a bad record"] {
        assert!(tally.bad[kind] > 20, "{tally}");
        assert!(!tally.good.contains_key(kind), "{tally}");
    }
    assert!(tally.bad["two bad records"] > 100, "{tally}");
    assert!(tally.bad["small numbers"] > 100, "{tally}");
    assert!(tally.bad["any bytes"] > 50, "{tally}");
    assert!(tally.bad["records moved"] > 50, "{tally}");
    assert!(tally.good["records moved"] > 20, "{tally}");
    assert!(tally.good["braid"] > 100, "{tally}");
    assert_eq!(tally.answers.len(), 7, "{tally}");
    assert!(tally.answers.values().all(|&n| n > 1500), "{tally}");
}

/// That comparison can fail: it tells each wrong way.
#[test]
fn wrong_ways_differ() {
    for wrong in WRONG {
        assert!(compare(Some(wrong)).is_err(), "{wrong:?} is not told");
    }
}
