//! The whole state and the step: one frame in, one answer out.

use crate::answer::{Answer, Question, Rule};
use crate::frame::{parse, Frame};
use crate::job::Job;
use crate::limits::{MAX_HOPS, MAX_NUMBER};
use crate::message::Body;
use crate::wire::Kind;
use crate::world::World;

#[derive(Clone, Debug, PartialEq, Eq)]
pub struct State {
    pub job: Option<Job>,
    /// A crash without cover has happened.
    pub lost: bool,
    pub world: World,
}

impl State {
    pub fn new() -> State {
        State {
            job: None,
            lost: false,
            world: World::empty(),
        }
    }

    /// Answers a line, given without its newline.
    pub fn line(&mut self, line: &[u8]) -> Answer {
        match parse(line) {
            Some(frame) => self.step(&frame),
            None => Answer::Refused(Question::Form),
        }
    }

    /// Answers a well-formed frame. A refused one changes nothing.
    pub fn step(&mut self, frame: &Frame) -> Answer {
        self.try_step(frame).unwrap_or_else(Answer::Refused)
    }

    fn try_step(&mut self, frame: &Frame) -> Result<Answer, Question> {
        let State { job, lost, world } = self;
        let job = match (frame, &*job) {
            (Frame::Job(_), Some(_)) => return Err(Question::Job),
            (Frame::Job(draft), None) => {
                let new = Job::from_draft(draft).ok_or(Question::Range)?;
                world.start(&new);
                *job = Some(new);
                return Ok(Answer::Accepted(Rule::Other));
            }
            (_, None) => return Err(Question::Job),
            (_, Some(job)) => job,
        };
        if !in_range(job, frame) {
            return Err(Question::Range);
        }
        if *lost {
            return Err(Question::NotLost);
        }
        let mut rule = Rule::Other;
        match *frame {
            Frame::Job(_) => {}
            Frame::Inject { chare, value, hops } => world.inject(chare, Body { value, hops })?,
            Frame::Deliver(delivery) => {
                rule = world.deliver(job, delivery.name().ok_or(Question::Range)?)?;
            }
            Frame::Work { chare } => world.work(job, chare)?,
            Frame::Checkpoint { machine } => world.checkpoint(job, machine)?,
            Frame::Crash { machine } => {
                if !world.crash(job, machine)? {
                    *lost = true;
                    return Ok(Answer::Lost);
                }
            }
            Frame::Restart { machine } => world.restart(job, machine)?,
            Frame::Show { chare } => {
                if !world.is_up(job.machine_of(chare)) {
                    return Err(Question::Up);
                }
                let shown = world.chare(chare);
                return Ok(Answer::Shown {
                    height: shown.height,
                    state: shown.state,
                });
            }
            Frame::Withdraw { chare } => world.withdraw(job, chare)?,
        }
        world.settle(job);
        Ok(Answer::Accepted(rule))
    }

    /// Is this a quiet moment: a job set, nothing lost, no machine down or catching up?
    pub fn is_quiet(&self) -> bool {
        self.job.is_some() && !self.lost && self.world.all_well()
    }
}

impl Default for State {
    fn default() -> Self {
        State::new()
    }
}

/// Question 3 for every frame but a job.
fn in_range(job: &Job, frame: &Frame) -> bool {
    match *frame {
        Frame::Job(_) => true,
        Frame::Inject { chare, hops, .. } => job.has_chare(chare) && hops <= MAX_HOPS,
        Frame::Deliver(delivery) => {
            Kind::from_byte(delivery.kind).is_some()
                && delivery.sender <= job.chare_count()
                && job.has_chare(delivery.receiver)
                && (1..=MAX_NUMBER).contains(&delivery.sn)
        }
        Frame::Work { chare } | Frame::Show { chare } | Frame::Withdraw { chare } => {
            job.has_chare(chare)
        }
        Frame::Checkpoint { machine } | Frame::Crash { machine } | Frame::Restart { machine } => {
            job.has_machine(machine)
        }
    }
}
