//! Questions what came before what, put to the second implementation and to another, compared and counted.

use crate::pairs::{all_pairs, random_pairs, Pair};
use crate::precedes::{Answer, Chains, Name, Processing};
use crate::rng::Rng;
use crate::samples::{random_row, Sample};
use std::collections::BTreeMap;
use std::fmt;

/// How many rows of each kind were asked, and how many answers of each kind they gave.
#[derive(Default)]
pub struct Tally {
    pub good: BTreeMap<&'static str, usize>,
    pub bad: BTreeMap<&'static str, usize>,
    pub answers: BTreeMap<&'static str, usize>,
    /// Rows of which every pair was asked.
    pub whole: usize,
}

/// The first question that gets two answers.
#[derive(Debug)]
pub struct Difference {
    pub row: Vec<Processing>,
    pub pair: Pair,
    pub second: Answer,
    pub other: Answer,
}

/// Compares on so many random rows, several pairs of each, every pair of some good ones.
pub fn compare_random(
    count: usize,
    seed: u64,
    other: impl Fn(&[Processing], Name, Name) -> Answer,
) -> Result<Tally, Difference> {
    let mut rng = Rng::new(seed);
    let mut tally = Tally::default();
    for _ in 0..count {
        let Sample { kind, row } = random_row(&mut rng);
        let chains = Chains::of(&row);
        tally.count_row(kind, &chains);
        // The longer the row, the rarer, so that no length takes all the time.
        let rare = 4 + row.len() * row.len() / 40;
        let pairs = if !chains.is_bad() && rng.one_in(rare) {
            tally.whole += 1;
            all_pairs(&row)
        } else {
            random_pairs(&mut rng, &row)
        };
        tally.compare(&row, &chains, &pairs, &other)?;
    }
    Ok(tally)
}

impl Tally {
    fn count_row(&mut self, kind: &'static str, chains: &Chains) {
        let kinds = match chains.is_bad() {
            true => &mut self.bad,
            false => &mut self.good,
        };
        *kinds.entry(kind).or_default() += 1;
    }

    fn compare(
        &mut self,
        row: &[Processing],
        chains: &Chains,
        pairs: &[Pair],
        other: impl Fn(&[Processing], Name, Name) -> Answer,
    ) -> Result<(), Difference> {
        for &(first, second) in pairs {
            let answer = chains.answer(first, second);
            let others = other(row, first, second);
            if answer != others {
                return Err(Difference {
                    row: row.to_vec(),
                    pair: (first, second),
                    second: answer,
                    other: others,
                });
            }
            let kind = answer_kind(row, (first, second), answer);
            *self.answers.entry(kind).or_default() += 1;
        }
        Ok(())
    }
}

fn answer_kind(row: &[Processing], (first, second): Pair, answer: Answer) -> &'static str {
    let place = |name: Name| row.iter().position(|record| record.name() == name);
    match answer {
        Answer::Bad(_) => "bad",
        Answer::Unknown => "unknown",
        Answer::Yes if first.0 == second.0 => "yes on one chare",
        Answer::Yes => "yes through senders",
        Answer::No if first == second => "no, itself",
        Answer::No if place(first) < place(second) => "no, though it stands earlier",
        Answer::No => "no, it stands later",
    }
}

impl fmt::Display for Tally {
    fn fmt(&self, f: &mut fmt::Formatter) -> fmt::Result {
        put_counts(f, "good rows", &self.good)?;
        put_counts(f, "bad rows", &self.bad)?;
        writeln!(f, "every pair of {} rows, some of the others", self.whole)?;
        put_counts(f, "answers", &self.answers)
    }
}

fn put_counts(f: &mut fmt::Formatter, what: &str, counts: &BTreeMap<&str, usize>) -> fmt::Result {
    writeln!(f, "{} {what}", counts.values().sum::<usize>())?;
    for (kind, count) in counts {
        writeln!(f, "{count:9}  {kind}")?;
    }
    Ok(())
}

impl fmt::Display for Difference {
    fn fmt(&self, f: &mut fmt::Formatter) -> fmt::Result {
        writeln!(f, "place: chare TN, sender TN")?;
        for (at, record) in self.row.iter().enumerate() {
            let Processing {
                chare,
                tn,
                sender,
                sender_tn,
            } = record;
            writeln!(f, "{:5}: {chare} {tn}, {sender} {sender_tn}", at + 1)?;
        }
        let (first, second) = self.pair;
        writeln!(f, "does {first:?} precede {second:?}?")?;
        writeln!(f, "second implementation: {:?}", self.second)?;
        writeln!(f, "the other:             {:?}", self.other)
    }
}
