//! Gathers what the picture shows: a row for each frame, a flight for each packet.

use super::marked::{marks, Mark};
use crate::lines::shown;
use crate::names::{meaning, origin, place, short};
use crate::outcome::{outcome, taken, Outcome};
use crate::play::Step;
use crate::words::{catching, headline::headline, Done};
use reference::answer::Answer;
use reference::frame::Frame;
use reference::job::Job;
use reference::limits::MAX_MACHINES;
use reference::wire::{Content, Kind, Name};
use reference::world::{destination, Phase};

/// All that the picture shows.
#[derive(Clone, Default)]
pub struct Story {
    pub job: Option<Job>,
    pub rows: Vec<Row>,
    pub flights: Vec<Flight>,
}

/// One frame, or a stretch of frames that is folded.
#[derive(Clone)]
pub struct Row {
    /// The frame's number; of a stretch, its first and its last.
    pub numbers: (usize, usize),
    pub given: String,
    pub line: String,
    pub answer: Answer,
    pub headline: String,
    /// Is a job set, and the run not lost, after this frame?
    pub running: bool,
    pub marks: Vec<Mark>,
    /// What the delivered flight led to.
    pub arrival: Option<(usize, String)>,
    /// The flights that begin here.
    pub sent: Vec<usize>,
    /// The machine that has caught up.
    pub caught_up: Option<u8>,
    /// The phases after the frame, machine 1 first.
    pub phases: [Phase; MAX_MACHINES],
    /// Frames of one shape do the same with other numbers.
    pub shape: String,
}

/// One packet, from where and when it went out to where and when it ended. Lane 0 is the desk.
#[derive(Clone)]
pub struct Flight {
    pub kind: Kind,
    pub label: String,
    /// What the packet says, in words.
    pub meaning: String,
    pub from: u8,
    pub to: u8,
    pub sent: usize,
    pub end: End,
}

/// How a flight ended, with the row.
#[derive(Clone, Copy, Debug, PartialEq, Eq)]
pub enum End {
    OnWire,
    Delivered(usize),
    /// Taken off the wire by a crash or a restart.
    Lost(usize),
    /// Taken back by the desk.
    Withdrawn(usize),
}

impl End {
    pub fn row(self) -> Option<usize> {
        match self {
            End::OnWire => None,
            End::Delivered(row) | End::Lost(row) | End::Withdrawn(row) => Some(row),
        }
    }
}

/// The most characters of a frame.
const GIVEN: usize = 13;

fn shortened(text: &str, most: usize) -> String {
    if text.chars().count() <= most {
        return text.to_string();
    }
    text.chars().take(most - 1).chain(['…']).collect()
}

#[derive(Default)]
pub struct Recorder {
    pub story: Story,
    /// The flights on the wire, in its order.
    wire: Vec<usize>,
}

impl Recorder {
    pub fn new() -> Recorder {
        Recorder::default()
    }

    pub fn see(&mut self, step: &Step) {
        let mut row = Row {
            numbers: (step.number, step.number),
            given: shortened(&shown(step.given), GIVEN),
            line: step.line.to_string(),
            answer: step.answer,
            headline: headline(step),
            running: step.after.job.is_some() && !step.after.lost,
            marks: marks(step),
            arrival: None,
            sent: Vec::new(),
            caught_up: None,
            phases: step.after.world.phases,
            shape: String::new(),
        };
        if let Some(done) = Done::new(step) {
            if self.story.job.is_none() {
                self.story.job = Some(done.job.clone());
            }
            self.follow(&done, &mut row);
            row.caught_up = catching::ended(&done);
        }
        row.shape = self.shape(step, &row);
        self.story.rows.push(row);
    }

    /// Ends and begins flights as the wire changed.
    fn follow(&mut self, done: &Done, row: &mut Row) {
        let now = self.story.rows.len();
        if let (Some(at), Some((name, content))) = (done.change.taken, taken(done)) {
            let flight = self.wire[at];
            self.story.flights[flight].end = End::Delivered(now);
            let machine = done.job.machine_of(name.receiver());
            let remark = remark(outcome(done, name, content), machine);
            row.arrival = Some((flight, remark));
        }
        let end = match done.frame {
            Frame::Withdraw { .. } => End::Withdrawn(now),
            _ => End::Lost(now),
        };
        for &at in &done.change.gone {
            self.story.flights[self.wire[at]].end = end;
        }
        let mut at = 0;
        self.wire.retain(|_| {
            at += 1;
            done.change.is_kept(at - 1)
        });
        for &(name, content) in &done.change.sent {
            let flight = self.story.flights.len();
            let (from, to) = (origin(done.job, name), destination(done.job, name));
            self.story.flights.push(Flight {
                kind: name.kind(),
                label: label(name, content),
                meaning: format!(
                    "{}, from {} to {}",
                    meaning(name, content),
                    place(from),
                    place(to)
                ),
                from,
                to,
                sent: now,
                end: End::OnWire,
            });
            self.wire.push(flight);
            row.sent.push(flight);
        }
    }

    /// What a frame does, without SNs, TNs, values and states.
    fn shape(&self, step: &Step, row: &Row) -> String {
        let frame = match step.frame {
            Some(Frame::Inject { chare, hops, .. }) => format!("inject {chare} {hops}"),
            Some(Frame::Deliver(delivery)) => {
                format!(
                    "deliver {} {} {}",
                    delivery.kind, delivery.sender, delivery.receiver
                )
            }
            // Works of one machine are alike, whichever chare it is.
            Some(Frame::Work { .. }) => {
                let marks = row.marks.iter().map(|mark| (mark.machine, mark.kind));
                format!("work {:?}", marks.collect::<Vec<_>>())
            }
            Some(ref other) => format!("{other:?}"),
            // What is no frame is like no other.
            None => format!("line {}", step.number),
        };
        let answer = match step.answer {
            Answer::Shown { .. } => "shown".to_string(),
            other => format!("{other:?}"),
        };
        let sent = row.sent.iter().map(|&at| &self.story.flights[at]);
        let sent: Vec<_> = sent.map(|f| (f.kind, f.from, f.to)).collect();
        let remark = row.arrival.as_ref().map_or("", |(_, remark)| remark);
        let remark = remark.replace(|letter: char| letter.is_ascii_digit(), "");
        let Row {
            caught_up, phases, ..
        } = row;
        format!("{frame} {answer} {sent:?} {remark} {caught_up:?} {phases:?}")
    }
}

fn label(name: Name, content: Content) -> String {
    let short = short(name);
    match content {
        Content::GrantOld => format!("{short}: old"),
        Content::GrantReceived(tn) => format!("{short}: TN {tn}, received"),
        Content::GrantNew(tn) => format!("{short}: TN {tn}"),
        Content::Note(tn) => format!("{short}: TN {tn}"),
        Content::Ask | Content::Data { .. } | Content::Ack => short,
    }
}

/// What a delivery led to, in very few words. Notes are held for `machine`.
fn remark(outcome: Outcome, machine: u8) -> String {
    match outcome {
        Outcome::Known { tn, .. } => format!("has TN {tn}"),
        Outcome::Worked => "worked before".to_string(),
        Outcome::Given { tn, hole: true } => format!("gives hole {tn}"),
        Outcome::Given { tn, hole: false } => format!("gives TN {tn}"),
        Outcome::NotLogged | Outcome::Ticketed { .. } => "dropped".to_string(),
        Outcome::Removed => "out of the log".to_string(),
        Outcome::Set { tn } | Outcome::SetAndSent { tn } => format!("TN {tn} logged"),
        Outcome::Filled { tn } => format!("fills TN {tn}"),
        Outcome::FilledBefore { .. } | Outcome::NoEntry => "dropped".to_string(),
        Outcome::Stored { notes, .. } => format!("notes for {machine}: {notes}"),
        Outcome::StoredBefore => "noted before".to_string(),
        Outcome::Noted { tn } => format!("TN {tn} noted"),
        Outcome::NotedBefore { .. } => "noted before".to_string(),
        Outcome::NothingToNote => "nothing to note".to_string(),
    }
}

impl Row {
    pub fn is_refused(&self) -> bool {
        matches!(self.answer, Answer::Refused(_))
    }

    pub fn is_folded(&self) -> bool {
        self.numbers.0 != self.numbers.1
    }
}
