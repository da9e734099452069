//! What a frame did, in plain words.

pub mod catching;
mod checkpoint;
pub mod crash;
mod deliver;
mod garbled;
pub mod headline;
mod job;
pub mod letter;
mod missing;
mod range;
pub mod refusal;
mod restart;
mod send;
pub mod withdraw;

use crate::names::{capital, origin, packet, place};
use crate::play::Step;
use crate::traffic::{change, Change};
use reference::answer::Answer;
use reference::frame::Frame;
use reference::job::Job;
use reference::message::Body;
use reference::world::{destination, World};

/// An accepted frame, with all that the words are made from.
pub struct Done<'a> {
    pub frame: &'a Frame,
    pub job: &'a Job,
    pub before: &'a World,
    pub after: &'a World,
    pub change: Change,
}

impl<'a> Done<'a> {
    /// None if the frame was refused or lost the run.
    pub fn new(step: &'a Step) -> Option<Done<'a>> {
        let (frame, job) = (step.frame.as_ref()?, step.job()?);
        if !step.answer.is_accepted() {
            return None;
        }
        let (before, after) = (&step.before.world, &step.after.world);
        Some(Done {
            frame,
            job,
            before,
            after,
            change: change(job, frame, &before.wire, &after.wire),
        })
    }

    /// One line for each packet that went out.
    fn sent(&self) -> Vec<String> {
        let mut lines = Vec::new();
        for &(name, content) in &self.change.sent {
            let (from, to) = (origin(self.job, name), destination(self.job, name));
            let mut line = format!(
                "{} goes out from {} to {}.",
                packet(name, content),
                place(from),
                place(to)
            );
            if !self.after.is_up(to) {
                let down = format!(" {} is down: it cannot be delivered now.", place(to));
                line.push_str(&capital(&down));
            }
            lines.push(line);
        }
        lines
    }
}

/// A few lines about a step.
pub fn words(step: &Step) -> Vec<String> {
    match step.answer {
        Answer::Refused(question) => vec![refusal::words(step, question)],
        Answer::Lost => crash::lost(step),
        Answer::Accepted(_) | Answer::Shown { .. } => match Done::new(step) {
            Some(done) => accepted(&done, step.answer),
            None => Vec::new(),
        },
    }
}

fn accepted(done: &Done, answer: Answer) -> Vec<String> {
    let mut lines = match *done.frame {
        Frame::Job(ref draft) => job::words(done.job, draft),
        Frame::Inject { chare, value, hops } => send::inject(done, chare, Body { value, hops }),
        Frame::Deliver(_) => deliver::words(done),
        Frame::Work { chare } => send::work(done, chare),
        Frame::Checkpoint { machine } => checkpoint::words(done, machine),
        Frame::Crash { machine } => crash::words(done, machine),
        Frame::Restart { machine } => restart::words(done, machine),
        Frame::Show { chare } => show(chare, answer),
        Frame::Withdraw { chare } => withdraw::words(done, chare),
    };
    lines.extend(catching::words(done));
    lines
}

fn show(chare: u8, answer: Answer) -> Vec<String> {
    let Answer::Shown { height, state } = answer else {
        return Vec::new();
    };
    let worked = match height {
        0 => "has worked nothing, height 0".to_string(),
        height => format!("has worked up to TN {height}"),
    };
    vec![format!(
        "Show: chare {chare} {worked} (hex {height:04X}); its state is {state:08X}."
    )]
}
