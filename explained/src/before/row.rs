//! The row of a list: its processings, each once, in the order in which they were first done.

use super::order::{Ask, Order};
use crate::names::{body, message, processing, sent_by};
use crate::play::{loud, Step};
use reference::chare::Chare;
use reference::frame::Frame;
use reference::limits::DESK;
use reference::message::Message;
use reference::precedes::{Name, Processing};
use std::collections::BTreeMap;
use std::fmt;

/// One processing.
#[derive(Clone, Debug, PartialEq, Eq)]
pub struct Work {
    /// Chare and TN, and who sent the message at which of its own TNs.
    pub record: Processing,
    pub message: Message,
    /// The frame that did it first, then those that did it again after a restart.
    pub frames: Vec<usize>,
}

impl Work {
    pub fn name(&self) -> Name {
        self.record.name()
    }

    /// The one before it on its chare.
    pub fn previous(&self) -> Option<Name> {
        let (chare, tn) = self.name();
        (tn > 1).then_some((chare, tn - 1))
    }

    /// The one that sent its message; none for the desk's.
    pub fn sender(&self) -> Option<Name> {
        let Processing {
            sender, sender_tn, ..
        } = self.record;
        (sender != DESK).then_some((sender, sender_tn))
    }

    /// All that must be the same when it is done again.
    fn told(&self) -> String {
        let Message {
            sender,
            receiver,
            sn,
            body: carried,
        } = self.message;
        format!(
            "frame {}: {} ({}), sent by {}",
            self.frames[0],
            message(sender, receiver, sn),
            body(carried),
            sent_by(&self.record)
        )
    }
}

#[derive(Default)]
pub struct Row {
    pub works: Vec<Work>,
    /// Where each processing stands, from 0.
    places: BTreeMap<Name, usize>,
    /// The sender's TN at which a message was sent, under sender, receiver and SN.
    sent: BTreeMap<(u8, u8, u16), u16>,
    /// The first that was not the same when it was done again.
    pub changed: Option<Changed>,
}

impl Row {
    pub fn records(&self) -> Vec<Processing> {
        self.works.iter().map(|work| work.record).collect()
    }

    /// The row to be asked, unless it has one that was not the same when it was done again.
    pub fn order(&self, ask: Option<Ask>) -> Result<Order<'_>, Changed> {
        match &self.changed {
            Some(changed) => Err(changed.clone()),
            None => Ok(Order::new(&self.works, ask)),
        }
    }

    /// Takes an accepted work. Every other frame leaves the row as it is; a list has one job at most, and so one row.
    pub fn see(&mut self, step: &Step) {
        let Some(Frame::Work { chare }) = step.frame else {
            return;
        };
        if !step.answer.is_accepted() {
            return;
        }
        let [before, after] = [step.before, step.after].map(|state| state.world.chare(chare));
        if let Some(work) = self.work(chare, before, step.number) {
            self.add(work);
        }
        self.add_sends(chare, before, after);
    }

    /// What a chare works next, as its table has it.
    fn work(&self, chare: u8, before: &Chare, frame: usize) -> Option<Work> {
        let tn = before.height + 1;
        let entry = before.table.find_tn(tn)?;
        let (sender, sn) = (entry.sender, entry.sn);
        // 0 is right for the desk. A chare's message that nobody sent would make the row bad.
        let sender_tn = self.sent.get(&(sender, chare, sn)).copied().unwrap_or(0);
        Some(Work {
            record: Processing {
                chare,
                tn,
                sender,
                sender_tn,
            },
            message: Message {
                sender,
                receiver: chare,
                sn,
                body: entry.received?,
            },
            frames: vec![frame],
        })
    }

    /// One that was done before keeps its place, and must be the same.
    fn add(&mut self, work: Work) {
        let end = self.works.len();
        let place = *self.places.entry(work.name()).or_insert(end);
        let Some(first) = self.works.get_mut(place) else {
            return self.works.push(work);
        };
        if (first.record, first.message) != (work.record, work.message) {
            let changed = Changed {
                name: work.name(),
                first: first.told(),
                again: work.told(),
            };
            self.changed.get_or_insert(changed);
        }
        first.frames.extend(work.frames);
    }

    /// The messages that a work sent have the SNs that it used up. Sent again they must go out at the same TN.
    fn add_sends(&mut self, chare: u8, before: &Chare, after: &Chare) {
        let counts = before.sent.iter().zip(&after.sent);
        for (receiver, (&old, &new)) in (1..).zip(counts) {
            for sn in old + 1..=new {
                let first = self.sent.entry((chare, receiver, sn));
                let first = *first.or_insert(after.height);
                if first != after.height {
                    let by = |tn| {
                        let name = processing((chare, tn));
                        format!("{} is sent by {name}", message(chare, receiver, sn))
                    };
                    let changed = Changed {
                        name: (chare, after.height),
                        first: by(first),
                        again: by(after.height),
                    };
                    self.changed.get_or_insert(changed);
                }
            }
        }
    }
}

/// After a restart a chare works the same messages at the same TNs, and sends the same ones then (demand 3). Here it did not.
#[derive(Clone, Debug, PartialEq, Eq)]
pub struct Changed {
    pub name: Name,
    pub first: String,
    pub again: String,
}

impl fmt::Display for Changed {
    fn fmt(&self, f: &mut fmt::Formatter<'_>) -> fmt::Result {
        let name = processing(self.name);
        let lines = [
            ("processing:", name.as_str()),
            ("first:", &self.first),
            ("again:", &self.again),
        ];
        let what = "A PROCESSING DONE AGAIN IS NOT THE SAME";
        let then = "By demand 3 this cannot be. Nothing is said of what came before what.";
        loud(f, what, &lines, then)
    }
}
