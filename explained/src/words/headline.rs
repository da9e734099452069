//! A frame in a few words, for the margin of the picture.

use super::crash::no_cover;
use super::{letter, refusal, withdraw};
use crate::names::{self, count, message, short};
use crate::play::Step;
use reference::answer::{Answer, Rule};
use reference::frame::Frame;
use reference::job::ix;
use reference::limits::DESK;

/// What the frame did, or why it was refused.
pub fn headline(step: &Step) -> String {
    if let Answer::Refused(question) = step.answer {
        return refusal::reason(step, question);
    }
    let Some(frame) = &step.frame else {
        return String::new();
    };
    match *frame {
        Frame::Job(ref draft) => {
            let [machines, chares] = [draft.machines, draft.chares].map(usize::from);
            format!(
                "job: {}, {}",
                count(machines, "machine"),
                count(chares, "chare")
            )
        }
        Frame::Inject { chare, value, .. } => {
            let sn = step.after.world.desk.sent[ix(chare)];
            format!(
                "inject {}, value {}",
                message(DESK, chare, sn),
                names::value(value)
            )
        }
        Frame::Deliver(delivery) => match delivery.name() {
            Some(name) => format!("deliver {}{}", short(name), rule(step.answer)),
            None => String::new(),
        },
        Frame::Work { chare } => {
            let me = step.after.world.chare(chare);
            format!("work, chare {chare}: state {:08X}", me.state)
        }
        Frame::Checkpoint { machine } => format!("checkpoint of machine {machine}"),
        Frame::Crash { machine } => match step.answer {
            Answer::Lost => {
                let why = no_cover(step).join("; ");
                format!("crash of machine {machine}, no cover: {why}")
            }
            _ => format!("crash of machine {machine}, with cover"),
        },
        Frame::Restart { machine } => format!("restart of machine {machine}"),
        Frame::Show { chare } => format!("show chare {chare}"),
        Frame::Withdraw { chare } => match withdraw::taken_back(&step.before.world, chare) {
            Some(last) => format!(
                "withdraw {}, value {}: SN {} is free again",
                message(DESK, chare, last.sn),
                names::value(last.body.value),
                last.sn
            ),
            None => String::new(),
        },
    }
}

/// What the letter of a delivery's line stands for, if it has a name of its own.
fn rule(answer: Answer) -> String {
    match answer.rule() {
        None | Some(Rule::Other) => String::new(),
        Some(rule) => format!(": {}", letter::name(rule)),
    }
}
