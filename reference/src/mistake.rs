//! Injections that a random list takes back.

use crate::frame::Frame;
use crate::generator::Generator;
use crate::job::{ix, Job};
use crate::limits::DESK;
use crate::mood::Act;
use crate::outlook::{asks_again, withdrawable};
use crate::state::State;
use crate::wire::{Kind, Name};

/// What is to be put right.
#[derive(Clone, Copy, Debug, PartialEq, Eq)]
pub enum Mistake {
    /// The last frame, an injection to this chare, was wrong.
    Made(u8),
    /// An injection to this chare is withdrawn: the next one goes there, so that its SN is used
    /// again.
    TakenBack(u8),
}

impl Generator {
    /// The last frame was accepted: is there something to put right?
    pub(crate) fn look_back(&mut self) {
        match self.last {
            Some(Frame::Inject { chare, .. }) if self.rng.one_in(self.mood.errs) => {
                self.mistake = Some(Mistake::Made(chare));
            }
            Some(Frame::Withdraw { chare }) => self.mistake = Some(Mistake::TakenBack(chare)),
            _ => {}
        }
    }

    /// What a mistake asks for at once.
    pub(crate) fn correction(&mut self) -> Option<Act> {
        match self.mistake? {
            Mistake::Made(_) => Some(Act::Withdraw),
            Mistake::TakenBack(_) => self.rng.one_in(6).then_some(Act::Inject),
        }
    }

    /// Now and then the ASK that a withdrawal took off the wire is asked for all the same.
    pub(crate) fn stale_ask(&mut self, state: &State) -> Option<Frame> {
        let Some(Mistake::TakenBack(chare)) = self.mistake else {
            return None;
        };
        let sn = state.world.desk.sent[ix(chare)] + 1;
        let ask = Name::new(Kind::Ask, DESK, chare, sn);
        self.rng.one_in(12).then(|| ask.into())
    }

    /// Mostly a message that can be withdrawn, or one that seems so.
    pub(crate) fn withdraw(&mut self, job: &Job, state: &State) -> Frame {
        if let Some(Mistake::Made(chare)) = self.mistake.take() {
            return Frame::Withdraw { chare };
        }
        let any = self.rng.between(1, job.chare_count() as usize) as u8;
        if self.rng.one_in(4) {
            return Frame::Withdraw { chare: any };
        }
        let world = &state.world;
        let chare = asks_again(world).or_else(|| {
            let withdrawable: Vec<u8> = withdrawable(job, world).collect();
            match withdrawable[..] {
                [] => None,
                _ => Some(*self.rng.pick(&withdrawable)),
            }
        });
        Frame::Withdraw {
            chare: chare.unwrap_or(any),
        }
    }
}
