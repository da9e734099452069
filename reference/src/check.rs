//! Demand 3, checked on a list as it is played.

use crate::answer::Answer;
use crate::frame::{parse, Frame};
use crate::history::{next_message, History};
use crate::job::{ix, Job};
use crate::message::Message;
use crate::run::{Run, Work};
use crate::state::State;
use std::fmt;

/// What went wrong.
#[derive(Clone, Debug, PartialEq, Eq)]
pub enum Violation {
    /// A chare's next message is not sent in the run, or is worked already.
    Stuck {
        chare: u8,
    },
    /// The list of works that was found gives no run, or not the same one.
    Works,
    State {
        chare: u8,
    },
    Height {
        chare: u8,
    },
    /// The run's sequence is not the engine's.
    Sequence {
        chare: u8,
    },
    /// A sequence does not begin with the one of an earlier quiet moment.
    Prefix {
        chare: u8,
    },
    /// A message sent and not worked stands in no log.
    NotLogged(Message),
    /// The derived holes are not the explicit set.
    Holes {
        chare: u8,
    },
    /// A refused frame changed something.
    Changed,
}

impl fmt::Display for Violation {
    fn fmt(&self, f: &mut fmt::Formatter<'_>) -> fmt::Result {
        fmt::Debug::fmt(self, f)
    }
}

/// The run of the last quiet moment, extended from one quiet moment to the next.
pub struct Checker {
    run: Option<Run>,
    /// The restarts that the sequences of the run know of.
    restarts: usize,
    /// The withdrawals that its injections know of.
    withdrawals: usize,
    /// Room for the works of one extension.
    works: Vec<Work>,
    /// The injections that the run knows of.
    injections: usize,
    /// Quiet moments since the run was last built from nothing.
    since_nothing: usize,
    pub quiet_moments: usize,
    pub from_nothing: usize,
    pub after_withdrawals: usize,
}

impl Checker {
    pub fn new() -> Checker {
        Checker {
            run: None,
            restarts: 0,
            withdrawals: 0,
            works: Vec::new(),
            injections: 0,
            since_nothing: 0,
            quiet_moments: 0,
            from_nothing: 0,
            after_withdrawals: 0,
        }
    }

    /// Checks a quiet moment; at any other there is nothing to check.
    pub fn check(&mut self, state: &State, history: &History) -> Result<(), Violation> {
        let Some(job) = state.job.as_ref().filter(|_| state.is_quiet()) else {
            return Ok(());
        };
        self.quiet_moments += 1;
        self.since_nothing += 1;
        let restarted = self.restarts != history.restarts;
        self.restarts = history.restarts;
        let withdrawn = self.withdrawals != history.withdrawals;
        self.withdrawals = history.withdrawals;
        let run = self.run.get_or_insert_with(|| Run::new(job));
        if restarted || withdrawn {
            // Sequences were put back and have grown again, perhaps in another way.
            begins_with(&history.sequences, &run.worked)?;
        }
        if withdrawn {
            // Other injections give another run, which must still begin like the last.
            *run = Run::new(job);
            self.injections = 0;
            self.after_withdrawals += 1;
        }
        for injection in &history.injections[self.injections..] {
            run.inject(injection);
        }
        self.injections = history.injections.len();
        let before: Vec<usize> = run.worked.iter().map(Vec::len).collect();
        self.works.clear();
        run.extend(&history.sequences, &mut self.works)
            .map_err(|chare| Violation::Stuck { chare })?;
        for (at, &known) in before.iter().enumerate() {
            let (ours, theirs) = (&history.sequences[at], &run.worked[at]);
            let chare = at as u8 + 1;
            if ours.len() < known {
                return Err(Violation::Prefix { chare });
            }
            if ours.len() != theirs.len() || ours[known..] != theirs[known..] {
                return Err(Violation::Sequence { chare });
            }
        }
        compare(job, state, run)?;
        // Often from nothing; less often where sequences are long.
        let length: usize = history.sequences.iter().map(Vec::len).sum();
        if restarted || self.since_nothing > 16 + length / 4 {
            self.since_nothing = 0;
            self.from_nothing += 1;
            let fresh = check_from_nothing(job, state, history)?;
            if self.run.as_ref() != Some(&fresh) {
                return Err(Violation::Works);
            }
        }
        Ok(())
    }
}

impl Default for Checker {
    fn default() -> Self {
        Checker::new()
    }
}

fn begins_with(sequences: &[Vec<Message>], earlier: &[Vec<Message>]) -> Result<(), Violation> {
    for (at, (sequence, start)) in sequences.iter().zip(earlier).enumerate() {
        if !sequence.starts_with(start) {
            let chare = at as u8 + 1;
            return Err(Violation::Prefix { chare });
        }
    }
    Ok(())
}

/// Finds a list of works for the sequences, plays the run it gives and compares all of it.
pub fn check_from_nothing(job: &Job, state: &State, history: &History) -> Result<Run, Violation> {
    let mut search = Run::new(job);
    for injection in &history.injections {
        search.inject(injection);
    }
    let mut works = Vec::new();
    search
        .extend(&history.sequences, &mut works)
        .map_err(|chare| Violation::Stuck { chare })?;
    let run = Run::play(job, &history.injections, &works).ok_or(Violation::Works)?;
    for chare in job.chares() {
        if run.worked[ix(chare)] != history.sequences[ix(chare)] {
            return Err(Violation::Sequence { chare });
        }
    }
    compare(job, state, &run)?;
    Ok(run)
}

/// States, heights and logs against the run.
fn compare(job: &Job, state: &State, run: &Run) -> Result<(), Violation> {
    for chare in job.chares() {
        let me = state.world.chare(chare);
        if me.state != run.states[ix(chare)] {
            return Err(Violation::State { chare });
        }
        if me.height as usize != run.worked[ix(chare)].len() {
            return Err(Violation::Height { chare });
        }
    }
    for (&(sender, receiver, sn), &body) in &run.unworked {
        let message = Message {
            sender,
            receiver,
            sn,
            body,
        };
        if !state.world.log(sender).has(&message) {
            return Err(Violation::NotLogged(message));
        }
    }
    Ok(())
}

/// Document 01's explicit holes against the derived ones.
fn check_holes(state: &State, history: &History) -> Result<(), Violation> {
    let Some(job) = &state.job else { return Ok(()) };
    for chare in job.chares() {
        let me = state.world.chare(chare);
        if !me.holes().eq(history.holes[ix(chare)].iter().copied()) {
            return Err(Violation::Holes { chare });
        }
    }
    Ok(())
}

/// A state with its history, every frame checked.
pub struct Checked {
    pub state: State,
    pub history: History,
    pub checker: Checker,
    frames: usize,
}

impl Checked {
    pub fn new() -> Checked {
        Checked {
            state: State::new(),
            history: History::default(),
            checker: Checker::new(),
            frames: 0,
        }
    }

    /// Plays a line and checks what is owed after it.
    pub fn line(&mut self, line: &[u8]) -> Result<Answer, Violation> {
        let Some(frame) = parse(line) else {
            return Ok(self.state.line(line));
        };
        self.step(&frame)
    }

    pub fn step(&mut self, frame: &Frame) -> Result<Answer, Violation> {
        self.frames += 1;
        // Often the whole state is kept, to see that a refusal changes nothing.
        let kept = self.frames.is_multiple_of(8) || matches!(frame, Frame::Restart { .. });
        let before = kept.then(|| self.state.clone());
        let next = next_message(&self.state, frame);
        let answer = self.state.step(frame);
        if let (Some(mut before), false) = (before, answer.is_accepted()) {
            before.lost |= answer == Answer::Lost;
            if before != self.state {
                return Err(Violation::Changed);
            }
        }
        self.history.follow(frame, next, answer, &self.state);
        check_holes(&self.state, &self.history)?;
        self.checker.check(&self.state, &self.history)?;
        Ok(answer)
    }
}

impl Default for Checked {
    fn default() -> Self {
        Checked::new()
    }
}
