//! What is remembered of a list beside the state: injections, sequences, holes.

use crate::answer::Answer;
use crate::frame::Frame;
use crate::job::{ix, Job};
use crate::limits::MAX_CHARES;
use crate::message::{Body, Message};
use crate::run::Injection;
use crate::state::State;
use std::collections::BTreeSet;

#[derive(Clone, Debug, Default)]
pub struct History {
    /// The accepted injections that are not withdrawn, in order.
    pub injections: Vec<Injection>,
    /// The messages each chare has worked, in order; as many as the job has chares.
    pub sequences: Vec<Vec<Message>>,
    /// How long each sequence was when the chare's copy was fixed. Since then a sequence has only
    /// grown, or was put back to this length, so the length is enough.
    copied: [usize; MAX_CHARES],
    /// The holes as an explicit set: made by a restart, used up by new tickets.
    pub holes: [BTreeSet<u16>; MAX_CHARES],
    /// Restarts so far.
    pub restarts: usize,
    /// Withdrawals so far.
    pub withdrawals: usize,
}

/// The message that an accepted work of this frame works: the one with the next TN.
pub fn next_message(state: &State, frame: &Frame) -> Option<Message> {
    let (Some(job), &Frame::Work { chare }) = (&state.job, frame) else {
        return None;
    };
    if !job.has_chare(chare) {
        return None;
    }
    let me = state.world.chare(chare);
    let entry = me.table.find_tn(me.height + 1)?;
    Some(Message {
        sender: entry.sender,
        receiver: chare,
        sn: entry.sn,
        body: entry.received?,
    })
}

impl History {
    /// Follows a frame. `next` is what `next_message` said before it, `state` is the state after.
    pub fn follow(&mut self, frame: &Frame, next: Option<Message>, answer: Answer, state: &State) {
        let Some(job) = &state.job else { return };
        if !answer.is_accepted() {
            return;
        }
        match *frame {
            Frame::Job(_) => self.sequences = vec![Vec::new(); job.chare_count() as usize],
            Frame::Inject { chare, value, hops } => self.injections.push(Injection {
                chare,
                body: Body { value, hops },
            }),
            Frame::Work { chare } => {
                self.sequences[ix(chare)].extend(next);
            }
            Frame::Checkpoint { machine } => {
                for at in job.chares_on(machine).map(ix) {
                    self.copied[at] = self.sequences[at].len();
                }
            }
            Frame::Crash { machine } => {
                for at in job.chares_on(machine).map(ix) {
                    self.holes[at].clear();
                }
            }
            Frame::Restart { machine } => {
                self.restarts += 1;
                for at in job.chares_on(machine).map(ix) {
                    self.sequences[at].truncate(self.copied[at]);
                }
                self.find_holes(job, machine, state);
            }
            Frame::Withdraw { chare } => self.withdraw(chare),
            Frame::Deliver(_) | Frame::Show { .. } => {}
        }
        for chare in job.chares() {
            let table = &state.world.chare(chare).table;
            self.holes[ix(chare)].retain(|&tn| !table.has_tn(tn));
        }
    }

    /// Takes the last injection to a chare out; those to other chares may stand behind it.
    fn withdraw(&mut self, chare: u8) {
        self.withdrawals += 1;
        let last = self.injections.iter().rposition(|i| i.chare == chare);
        if let Some(at) = last {
            self.injections.remove(at);
        }
    }

    fn find_holes(&mut self, job: &Job, machine: u8, state: &State) {
        for chare in job.chares_on(machine) {
            let me = state.world.chare(chare);
            let highest = me.table.highest(me.height);
            self.holes[ix(chare)] = (me.height + 1..highest)
                .filter(|&tn| !me.table.has_tn(tn))
                .collect();
        }
    }
}
