//! What came before what: the proved function is asked, and the second implementation too.

use super::row::Work;
use crate::names::processing;
use crate::play::say_loudly;
use reference::limits::MAX_CHARES;
use reference::precedes::{Answer, Chains, Name, Processing};
use std::fmt;

/// One who answers whether a processing of a row precedes another.
pub type Ask = fn(&[Processing], Name, Name) -> Answer;

/// How many processings of each chare, chare 1 first, came before one: they are the chare's first so many.
pub type Clock = [u16; MAX_CHARES];

/// A row that can be asked.
pub struct Order<'a> {
    pub works: &'a [Work],
    records: Vec<Processing>,
    ask: Option<Ask>,
    second: Chains,
}

/// One step of a chain.
#[derive(Clone, Copy, Debug, PartialEq, Eq)]
pub enum Link {
    /// On one chare, with a higher TN.
    Chare(Name, Name),
    /// The first sent the second's message.
    Message(Name, Name),
}

impl<'a> Order<'a> {
    /// With nobody to ask the second implementation answers alone.
    pub fn new(works: &'a [Work], ask: Option<Ask>) -> Order<'a> {
        let records: Vec<Processing> = works.iter().map(|work| work.record).collect();
        Order {
            works,
            ask,
            second: Chains::of(&records),
            records,
        }
    }

    /// The answer that both give.
    pub fn answer(&self, first: Name, later: Name) -> Result<Answer, Difference> {
        let second = self.second.answer(first, later);
        let engine = self
            .ask
            .map_or(second, |ask| ask(&self.records, first, later));
        match engine == second {
            true => Ok(engine),
            false => Err(Difference {
                asked: (first, later),
                engine,
                second,
            }),
        }
    }

    pub fn precedes(&self, first: Name, later: Name) -> Result<bool, Difference> {
        Ok(self.answer(first, later)? == Answer::Yes)
    }

    /// The place at which the row is bad, from 1. No processing is called 0:0, so only a bad row has more to say of it than unknown.
    pub fn bad(&self) -> Result<Option<u16>, Difference> {
        Ok(match self.answer((0, 0), (0, 0))? {
            Answer::Bad(place) => Some(place),
            _ => None,
        })
    }

    pub fn find(&self, name: Name) -> Option<&'a Work> {
        self.works.iter().find(|work| work.name() == name)
    }

    /// The TN of a chare's last processing in the row, 0 if it has none.
    pub fn last(&self, chare: u8) -> u16 {
        last_of(chare, self.works)
    }

    /// What came before the processing at a place. Only what stands earlier can, and with each all that are lower on its chare, so
    /// the answers on a chare are yes up to some TN and no from there on: that TN is searched for by halving.
    pub fn clock(&self, place: usize) -> Result<Clock, Difference> {
        let (earlier, name) = (&self.works[..place], self.works[place].name());
        let mut clock = [0; MAX_CHARES];
        for (chare, yes) in (1..).zip(&mut clock) {
            let mut most = last_of(chare, earlier);
            while *yes < most {
                let middle = *yes + (most - *yes).div_ceil(2);
                match self.precedes((chare, middle), name)? {
                    true => *yes = middle,
                    false => most = middle - 1,
                }
            }
        }
        Ok(clock)
    }

    /// A chain from one processing to another that it precedes, link by link. On each chare it arrives as early as it can.
    pub fn chain(&self, first: Name, later: Name) -> Result<Vec<Link>, Difference> {
        let mut links = Vec::new();
        let mut end = later;
        while end.0 != first.0 {
            let (chare, mut tn) = end;
            while tn > 1 && self.precedes(first, (chare, tn - 1))? {
                tn -= 1;
            }
            let arrival = (chare, tn);
            if arrival != end {
                links.push(Link::Chare(arrival, end));
            }
            // None lower on its chare came after the first, so it was reached through its message.
            let Some(sender) = self.find(arrival).and_then(Work::sender) else {
                break;
            };
            links.push(Link::Message(sender, arrival));
            end = sender;
        }
        if end != first {
            links.push(Link::Chare(first, end));
        }
        links.reverse();
        Ok(links)
    }
}

fn last_of(chare: u8, works: &[Work]) -> u16 {
    let mut names = works.iter().rev().map(Work::name);
    let last = names.find(|&(other, _)| other == chare);
    last.map_or(0, |(_, tn)| tn)
}

/// The engine and the second implementation do not answer alike.
#[derive(Debug, PartialEq, Eq)]
pub struct Difference {
    pub asked: (Name, Name),
    pub engine: Answer,
    pub second: Answer,
}

/// An answer in one word.
pub fn word(answer: Answer) -> String {
    match answer {
        Answer::Yes => "yes".to_string(),
        Answer::No => "no".to_string(),
        Answer::Unknown => "unknown".to_string(),
        Answer::Bad(place) => format!("bad at place {place}"),
    }
}

impl fmt::Display for Difference {
    fn fmt(&self, f: &mut fmt::Formatter<'_>) -> fmt::Result {
        let (first, later) = self.asked;
        let asked = format!("{} before {}", processing(first), processing(later));
        let both = [self.engine, self.second].map(word);
        let what = "THE ANSWERS DIFFER ON WHAT CAME BEFORE WHAT";
        let then = "No answer is printed.";
        say_loudly(f, what, ("asked:", &asked), [&both[0], &both[1]], then)
    }
}
