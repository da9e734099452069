//! Counts of what a list has reached.

use crate::answer::{Answer, Question, Rule};
pub use crate::event::Event;
use crate::frame::Frame;
use crate::history::next_message;
use crate::job::ix;
use crate::limits::{HALF_WINDOW, MAX_SENDERS, WINDOW_BITS};
use crate::message::{Body, Lookup, Message};
use crate::reuse::Reuse;
use crate::seen::{Reply, Seen};
use crate::state::State;
use crate::wire::Content;
use crate::withdraw::LastInjected;
use crate::world::Phase;
use std::fmt;

/// Names of the answers in the order in which they are counted.
pub const ANSWERS: [&str; 14] = [
    "00", "01", "02", "03", "04", "05", "06", "07", "08", "09", "10", "11", "12", "FF",
];

fn place(answer: Answer) -> usize {
    match answer {
        Answer::Accepted(_) | Answer::Shown { .. } => 0,
        Answer::Refused(question) => question as usize,
        Answer::Lost => ANSWERS.len() - 1,
    }
}

#[derive(Clone, Debug)]
pub struct Census {
    pub answers: [u64; ANSWERS.len()],
    /// How often each letter ended a line, in the order of `Rule::ALL`.
    pub letters: [u64; Rule::ALL.len()],
    events: [(Option<Event>, u64); Event::COUNT],
    pub frames: u64,
    pub longest_wire: usize,
    reuse: Reuse,
}

impl Census {
    pub fn new() -> Census {
        Census {
            answers: [0; ANSWERS.len()],
            letters: [0; Rule::ALL.len()],
            events: [(None, 0); Event::COUNT],
            frames: 0,
            longest_wire: 0,
            reuse: Reuse::default(),
        }
    }

    pub fn count(&self, event: Event) -> u64 {
        self.events[event as usize].1
    }

    /// Are all answers but 07 seen? That one needs 60,000 messages.
    pub fn has_all_but_07(&self) -> bool {
        let seen = |(at, &count): (usize, &u64)| at == 7 || count > 0;
        self.answers.iter().enumerate().all(seen)
    }

    /// The letters that ended no line.
    pub fn unseen_letters(&self) -> Vec<char> {
        let counted = Rule::ALL.iter().zip(&self.letters);
        let unseen = counted.filter(|(_, &count)| count == 0);
        unseen.map(|(rule, _)| rule.letter()).collect()
    }

    fn add(&mut self, event: Event) {
        let (name, count) = &mut self.events[event as usize];
        *name = Some(event);
        *count += 1;
    }

    /// Counts a line that is no frame.
    pub fn garbled(&mut self, answer: Answer) {
        self.frames += 1;
        self.answers[place(answer)] += 1;
        if let Some(rule) = answer.rule() {
            self.letters[rule as usize] += 1;
        }
    }

    /// What can be seen before a frame, for `after`.
    pub fn before(state: &State, frame: &Frame) -> Before {
        let world = &state.world;
        let mut before = Before {
            phase: Before::worst_phase(state),
            ..Before::default()
        };
        let Some(job) = &state.job else { return before };
        match *frame {
            Frame::Deliver(delivery)
                if job.has_chare(delivery.receiver) && delivery.sender <= job.chare_count() =>
            {
                let Some(name) = delivery.name() else {
                    return before;
                };
                let (sender, receiver, sn) = (name.sender(), name.receiver(), name.sn());
                let found = world.wire.find(name);
                let mut lower = world.chare(receiver).seen[sender as usize];
                lower.window &= u128::from(u64::MAX);
                before.by_lower_half = lower.look(sn) == Reply::Worked;
                before.content = found.map(|at| world.wire.content(at));
                before.wire = world.wire.len();
                before.holes = world.chare(receiver).holes().count();
                before.notes = world.backups[ix(job.machine_of(receiver))].notes.len();
                let entry = world.chare(receiver).table.find(sender, sn);
                before.entry = entry.map(|at| world.chare(receiver).table.0[at].received.is_some());
                let waits = |m: &&crate::message::Logged| m.receiver == receiver && m.sn == sn;
                let logged = world.log(sender).0.iter().find(waits);
                before.waiting = logged.is_some_and(|m| m.tn.is_none());
            }
            Frame::Withdraw { chare }
                if job.has_chare(chare) && world.is_up(job.machine_of(chare)) =>
            {
                before.last = Some(world.last_injected(chare));
            }
            Frame::Work { chare } if job.has_chare(chare) => {
                before.next = next_message(state, frame);
                before.wire = world.wire.len();
                before.logged = world.chare(chare).log.0.len();
                before.marks = world.chare(chare).seen.map(|seen| seen.mark);
            }
            _ => {}
        }
        before
    }

    /// Counts a frame.
    pub fn after(&mut self, before: &Before, frame: &Frame, answer: Answer, state: &State) {
        self.garbled(answer);
        self.longest_wire = self.longest_wire.max(state.world.wire.len());
        let caught_up = before.phase == Phase::CatchingUp && state.world.all_well();
        if caught_up && answer.is_accepted() {
            self.add(Event::CaughtUpLater);
        }
        match (answer, frame) {
            (Answer::Refused(_), Frame::Withdraw { .. }) => self.not_withdrawn(before, answer),
            (Answer::Refused(question), _) => self.refused(question as usize, frame),
            (Answer::Lost, _) => self.add(match before.phase {
                Phase::Down => Event::LostWhileDown,
                Phase::CatchingUp => Event::LostWhileCatchingUp,
                Phase::Up => Event::LostWithoutCopy,
            }),
            (_, Frame::Crash { .. }) => self.add(Event::Crashed),
            (_, Frame::Checkpoint { .. }) => match before.phase {
                Phase::Down => self.add(Event::CheckpointWhileDown),
                Phase::CatchingUp => self.add(Event::CheckpointWhileCatchingUp),
                Phase::Up => {}
            },
            (_, &Frame::Restart { machine }) => self.restarted(machine, state),
            (_, Frame::Deliver(delivery)) => {
                if answer.rule() == Some(Rule::AskWorked) && !before.by_lower_half {
                    self.add(Event::WorkedInUpperHalf);
                }
                self.delivered(before, delivery.receiver, state);
            }
            (_, &Frame::Work { chare }) => self.worked(before, chare, state),
            (_, Frame::Withdraw { .. }) => self.withdrawn(before.phase),
            (_, Frame::Job(_)) => self.reuse = Reuse::default(),
            (_, &Frame::Inject { chare, value, hops }) => {
                let sn = state.world.desk.sent[ix(chare)];
                if self.reuse.injected(chare, sn, Body { value, hops }) {
                    self.add(Event::NumberReused);
                }
            }
            _ => {}
        }
    }

    fn withdrawn(&mut self, phase: Phase) {
        self.add(Event::Withdrawn);
        match phase {
            Phase::Down => self.add(Event::WithdrawnWhileDown),
            Phase::CatchingUp => self.add(Event::WithdrawnWhileCatchingUp),
            Phase::Up => {}
        }
    }

    fn not_withdrawn(&mut self, before: &Before, answer: Answer) {
        match (answer, before.last) {
            (Answer::Refused(Question::Up), _) => self.add(Event::WithdrawDown),
            (Answer::Refused(Question::Withdrawable), Some(last)) => self.add(reason(&last)),
            _ => {}
        }
    }

    fn refused(&mut self, question: usize, frame: &Frame) {
        match (question, frame) {
            (8, Frame::Work { .. }) => self.add(Event::WorkWindow),
            (8, _) => self.add(Event::AskWindow),
            (9, Frame::Work { .. }) => self.add(Event::WorkLog),
            (10, Frame::Work { .. }) => self.add(Event::WorkTable),
            (10, Frame::Deliver(delivery)) if delivery.kind == 1 => self.add(Event::AskTable),
            (10, Frame::Deliver(_)) => self.add(Event::NoteListFull),
            (10, Frame::Restart { .. }) => self.add(Event::RestartTable),
            (11, Frame::Work { .. }) => self.add(Event::WorkWire),
            (11, Frame::Restart { .. }) => self.add(Event::RestartWire),
            (11, Frame::Inject { .. }) => self.add(Event::InjectWire),
            _ => {}
        }
    }

    fn restarted(&mut self, machine: u8, state: &State) {
        self.add(Event::Restarted);
        let Some(job) = &state.job else { return };
        let holes = |chare| state.world.chare(chare).holes().next().is_some();
        if job.chares_on(machine).any(holes) {
            self.add(Event::RestartWithHoles);
        }
        if !state.world.all_well() {
            self.add(Event::RestartStillCatchingUp);
        }
    }

    fn delivered(&mut self, before: &Before, receiver: u8, state: &State) {
        if state.world.chare(receiver).holes().count() < before.holes {
            self.add(Event::HoleTaken);
        }
        let Some(job) = &state.job else { return };
        let notes = state.world.backups[ix(job.machine_of(receiver))]
            .notes
            .len();
        match (before.content, before.entry) {
            (Some(content), _) if is_grant(content) && !before.waiting => {
                self.add(Event::GrantDropped);
            }
            (Some(Content::GrantOld), _) => self.add(Event::GrantOld),
            (Some(Content::GrantReceived(_)), _) => self.add(Event::GrantReceived),
            (Some(Content::Data { .. }), None | Some(true)) => self.add(Event::DataDropped),
            (Some(Content::Note(_)), _) if notes == before.notes => self.add(Event::NotePresent),
            (Some(Content::Ack), None) => self.add(Event::AckWithoutEntry),
            _ => {}
        }
    }

    fn worked(&mut self, before: &Before, chare: u8, state: &State) {
        let me = state.world.chare(chare);
        let sent = me.log.0.len() - before.logged.min(me.log.0.len());
        if sent > state.world.wire.len() - before.wire.min(state.world.wire.len()) {
            self.add(Event::LocalFilled);
        }
        for (seen, mark) in me.seen.iter().zip(&before.marks) {
            self.rose(seen, seen.mark - mark);
        }
        if before.next.is_some_and(|next| self.reuse.worked(&next)) {
            self.add(Event::ReusedWorked);
        }
    }

    fn rose(&mut self, seen: &Seen, rise: u16) {
        let lower = seen.window as u64;
        match rise {
            0 => {}
            WINDOW_BITS => self.add(Event::WholeWindow),
            HALF_WINDOW => self.add(Event::HalfWindow),
            _ if rise > HALF_WINDOW => self.add(Event::OverHalfWindow),
            _ if lower >> (HALF_WINDOW - rise) != 0 => self.add(Event::UpperHalfCameDown),
            _ => {}
        }
    }
}

impl Default for Census {
    fn default() -> Self {
        Census::new()
    }
}

fn is_grant(content: Content) -> bool {
    matches!(
        content,
        Content::GrantOld | Content::GrantReceived(_) | Content::GrantNew(_)
    )
}

/// Why question 12 says no.
fn reason(last: &LastInjected) -> Event {
    match (last.logged, last.asks, last.ticket) {
        (Lookup::Missing, false, None) if last.sn == 0 => Event::WithdrawNothing,
        (Lookup::Missing, false, None) => Event::WithdrawDropped,
        (Lookup::Ticketed(_), false, None) => Event::WithdrawWorked,
        (Lookup::Ticketed(_), false, Some(_)) => Event::WithdrawTicketed,
        (Lookup::Waiting(_), false, Some(_)) => Event::WithdrawAsked,
        (Lookup::Waiting(_), true, Some(_)) => Event::WithdrawTicketAlone,
        _ => Event::WithdrawStray,
    }
}

/// What `Census::before` saw.
#[derive(Clone, Debug, Default)]
pub struct Before {
    phase: Phase,
    /// Is the packet's SN worked by the mark or by the window's lower half?
    by_lower_half: bool,
    content: Option<Content>,
    entry: Option<bool>,
    waiting: bool,
    holes: usize,
    notes: usize,
    wire: usize,
    logged: usize,
    marks: [u16; MAX_SENDERS],
    /// What a work would work.
    next: Option<Message>,
    last: Option<LastInjected>,
}

impl Before {
    fn worst_phase(state: &State) -> Phase {
        let phases = &state.world.phases;
        let not_up = phases.iter().find(|&&phase| phase != Phase::Up);
        *not_up.unwrap_or(&Phase::Up)
    }
}

impl fmt::Display for Census {
    fn fmt(&self, f: &mut fmt::Formatter<'_>) -> fmt::Result {
        for (name, count) in ANSWERS.iter().zip(&self.answers) {
            writeln!(f, "{name} {count}")?;
        }
        for (rule, count) in Rule::ALL.iter().zip(&self.letters) {
            writeln!(f, "{} {count}", rule.letter())?;
        }
        for &(name, count) in &self.events {
            if let Some(event) = name {
                writeln!(f, "{event:?} {count}")?;
            }
        }
        writeln!(f, "longest wire {}", self.longest_wire)
    }
}
