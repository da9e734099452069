//! The marks that a frame leaves on the lanes: works and local messages, checkpoints and copies, crashes, restarts, withdrawals.

use crate::names::{count, message};
use crate::play::Step;
use crate::words::{withdraw, Done};
use reference::answer::Answer;
use reference::frame::Frame;
use reference::job::{ix, Job};
use reference::limits::DESK;
use reference::message::Logged;

/// A mark on a lane, the desk's being 0. Marks of one lane stand one under another.
#[derive(Clone, Debug, PartialEq, Eq)]
pub struct Mark {
    pub machine: u8,
    pub kind: MarkKind,
    pub text: String,
}

#[derive(Clone, Copy, Debug, PartialEq, Eq)]
pub enum MarkKind {
    Work,
    /// A message to a chare of the same machine.
    Local,
    Show,
    Checkpoint,
    /// What a buddy keeps for another machine.
    Kept,
    Crash,
    Restart,
    /// On the desk's lane.
    Withdrawal,
}

pub fn marks(step: &Step) -> Vec<Mark> {
    let (Some(frame), Some(job)) = (&step.frame, step.job()) else {
        return Vec::new();
    };
    let mark = |machine: u8, kind, text: String| Mark {
        machine,
        kind,
        text,
    };
    match (step.answer, *frame) {
        (Answer::Refused(_), _) => Vec::new(),
        (_, Frame::Job(_)) => {
            let copy = |machine| {
                mark(
                    job.buddy_of(machine),
                    MarkKind::Kept,
                    format!("copy of {machine}"),
                )
            };
            job.machines().map(copy).collect()
        }
        (_, Frame::Work { chare }) => works(step, job, chare),
        (_, Frame::Show { chare }) => {
            let text = format!("chare {chare} shown");
            vec![mark(job.machine_of(chare), MarkKind::Show, text)]
        }
        (_, Frame::Checkpoint { machine }) => {
            let notes = step.before.world.backups[ix(machine)].notes.len();
            let out = match notes {
                0 => String::new(),
                held => format!(", {} out", count(held, "note")),
            };
            let copy = format!("new copy of {machine}{out}");
            vec![
                mark(machine, MarkKind::Checkpoint, "checkpoint".to_string()),
                mark(job.buddy_of(machine), MarkKind::Kept, copy),
            ]
        }
        (Answer::Lost, Frame::Crash { machine }) => {
            vec![mark(
                machine,
                MarkKind::Crash,
                "crash, no cover".to_string(),
            )]
        }
        (_, Frame::Crash { machine }) => {
            let crash = mark(machine, MarkKind::Crash, "crash".to_string());
            let lost = losses(step, job, machine);
            let lost = lost
                .into_iter()
                .map(|text| mark(machine, MarkKind::Crash, text));
            [crash].into_iter().chain(lost).collect()
        }
        (_, Frame::Restart { machine }) => {
            let copy = format!("copy of {machine} taken back");
            vec![
                mark(machine, MarkKind::Restart, "restart".to_string()),
                mark(job.buddy_of(machine), MarkKind::Kept, copy),
            ]
        }
        (_, Frame::Withdraw { chare }) => {
            let last = withdraw::taken_back(&step.before.world, chare).into_iter();
            let text = |last: Logged| format!("{} withdrawn", message(DESK, chare, last.sn));
            last.map(|last| mark(DESK, MarkKind::Withdrawal, text(last)))
                .collect()
        }
        (_, Frame::Inject { .. } | Frame::Deliver(_)) => Vec::new(),
    }
}

/// The work, and the messages that stay on the machine: they take no packet.
fn works(step: &Step, job: &Job, chare: u8) -> Vec<Mark> {
    let machine = job.machine_of(chare);
    let me = step.after.world.chare(chare);
    let mut marks = vec![Mark {
        machine,
        kind: MarkKind::Work,
        text: format!("chare {chare} works TN {}", me.height),
    }];
    let Some(done) = Done::new(step) else {
        return marks;
    };
    let sent = &me.log.0[done.before.chare(chare).log.0.len()..];
    for logged in sent
        .iter()
        .filter(|m| job.machine_of(m.receiver) == machine)
    {
        let what = message(chare, logged.receiver, logged.sn);
        marks.push(Mark {
            machine,
            kind: MarkKind::Local,
            text: format!("{what} here: TN {}", logged.tn.unwrap_or_default()),
        });
    }
    marks
}

/// What a crash takes of other machines.
fn losses(step: &Step, job: &Job, machine: u8) -> Vec<String> {
    let mut losses = Vec::new();
    for backed in job.machines().filter(|&m| job.buddy_of(m) == machine) {
        let backup = &step.before.world.backups[ix(backed)];
        let notes = count(backup.notes.len(), "note");
        match (backup.has_copy, backup.notes.len()) {
            (false, 0) => {}
            (true, 0) => losses.push(format!("copy of {backed} lost")),
            (true, _) => losses.push(format!("copy of {backed}, {notes} lost")),
            (false, _) => losses.push(format!("{notes} for {backed} lost")),
        }
    }
    losses
}
