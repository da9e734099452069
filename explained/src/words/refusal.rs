//! Why a frame was refused: the question, and what was the matter.

use super::{garbled, missing, range, withdraw};
use crate::names::{message, place, sender, short};
use crate::play::Step;
use crate::traffic::named;
use reference::answer::Question;
use reference::frame::Frame;
use reference::job::{ix, Job};
use reference::limits::{
    DESK, LOG_SIZE, MAX_NUMBER, NOTES_SIZE, TABLE_SIZE, WINDOW_BITS, WIRE_SIZE,
};
use reference::seen::Reply;
use reference::send::{Plan, Planned, Route};
use reference::wire::Kind;
use reference::world::{destination, World};

/// One line: the number, the question, the reason.
pub fn words(step: &Step, question: Question) -> String {
    let number = question as u8;
    let asked = asked(step, question);
    format!(
        "Refused by question {number}, \"{asked}\": {}.",
        told(step, question)
    )
}

/// The reason, and for question 6 what is waited for.
pub fn told(step: &Step, question: Question) -> String {
    let mut told = reason(step, question);
    if let (Question::Present, Some(frame), Some(job)) = (question, &step.frame, &step.before.job) {
        if let Some(hint) = missing::hint(job, &step.before.world, frame) {
            told.push_str(&format!("; {hint}"));
        }
    }
    told
}

/// The question in words.
fn asked(step: &Step, question: Question) -> String {
    let restart = matches!(step.frame, Some(Frame::Restart { .. }));
    let work = matches!(step.frame, Some(Frame::Work { .. }));
    let words = match question {
        Question::Form => "hexadecimal digits in pairs, a known kind, its exact length?",
        Question::Job if matches!(step.frame, Some(Frame::Job(_))) => "no job yet?",
        Question::Job => "is a job set?",
        Question::Range => "every number in range?",
        Question::NotLost => "run not lost?",
        Question::Up if restart => "is the machine down?",
        Question::Up => "is the machine up?",
        Question::Present if work => "is the next TN received and noted?",
        Question::Present => "is the packet on the wire?",
        Question::Withdrawable => {
            "last message in the desk's log without a TN, its ASK on the wire, no ticket in the table?"
        }
        Question::Number => "does every number stay at 60,000 or below?",
        Question::Window => return format!("new ticket: SN at most mark + {WINDOW_BITS}?"),
        Question::LogSpace => "space in the sender's log?",
        Question::Space => "space in the table or note list?",
        Question::WireSpace => return format!("wire at most {WIRE_SIZE} after the step?"),
    };
    words.to_string()
}

/// What was the matter, without a stop at the end.
pub fn reason(step: &Step, question: Question) -> String {
    let (Some(frame), false) = (&step.frame, question == Question::Form) else {
        return garbled::reason(step.given);
    };
    let world = &step.before.world;
    let Some(job) = &step.before.job else {
        return match question {
            Question::Range => range::reasons(None, frame).join("; "),
            _ => "no job is set yet".to_string(),
        };
    };
    match question {
        Question::Form => garbled::reason(step.given),
        Question::Job => "a job is set already".to_string(),
        Question::Range => range::reasons(Some(job), frame).join("; "),
        Question::NotLost => match step.lost_at {
            Some(frame) => format!("the run was lost at frame {frame}"),
            None => "the run is lost".to_string(),
        },
        Question::Up => not_up(job, world, frame),
        Question::Present => not_present(world, frame),
        Question::Withdrawable => not_withdrawable(world, frame),
        Question::Number => too_large(job, world, frame),
        Question::Window => outside_window(job, world, frame),
        Question::LogSpace => log_full(job, world, frame),
        Question::Space => no_space(job, world, frame),
        Question::WireSpace => wire_full(job, world, frame),
    }
}

fn not_up(job: &Job, world: &World, frame: &Frame) -> String {
    let machine = match *frame {
        Frame::Restart { machine } => return format!("machine {machine} is up"),
        Frame::Checkpoint { machine } if world.is_up(machine) => {
            return format!("machine {}, the buddy, is down", job.buddy_of(machine));
        }
        Frame::Checkpoint { machine } | Frame::Crash { machine } => machine,
        Frame::Work { chare } | Frame::Show { chare } | Frame::Withdraw { chare } => {
            job.machine_of(chare)
        }
        _ => named(frame).map_or(0, |name| destination(job, name)),
    };
    format!("{} is down", place(machine))
}

fn not_present(world: &World, frame: &Frame) -> String {
    let Frame::Work { chare } = *frame else {
        let name = named(frame).map(short).unwrap_or_default();
        return format!("no {name} is on the wire");
    };
    let me = world.chare(chare);
    let next = me.height + 1;
    let Some(entry) = me.table.find_tn(next) else {
        let hole = me.holes().any(|tn| tn == next);
        return match hole {
            true => format!("TN {next} of chare {chare} is a hole"),
            false => format!("chare {chare} has given no TN {next}"),
        };
    };
    let what = message(entry.sender, chare, entry.sn);
    match entry.received {
        None => format!("TN {next}, {what}, is not received"),
        Some(_) => format!("TN {next}, {what}, is not noted"),
    }
}

fn not_withdrawable(world: &World, frame: &Frame) -> String {
    match *frame {
        Frame::Withdraw { chare } => withdraw::reason(world, chare),
        _ => String::new(),
    }
}

/// Which number would pass 60,000.
fn too_large(job: &Job, world: &World, frame: &Frame) -> String {
    let next = MAX_NUMBER + 1;
    let sn = |from: u8, to: u8| format!("the SN of {from}→{to} would be {next}");
    let tn = |chare: u8| format!("the next TN of chare {chare} would be {next}");
    match *frame {
        Frame::Inject { chare, .. } => sn(DESK, chare),
        Frame::Work { chare } => {
            let (_, plan) = planned(job, world, chare);
            match plan.iter().find(|p| p.sn > MAX_NUMBER) {
                Some(send) => sn(chare, send.receiver),
                None => {
                    let taking =
                        |p: &&Planned| matches!(p.route, Route::Takes(tn) if tn > MAX_NUMBER);
                    plan.iter()
                        .find(taking)
                        .map_or_else(String::new, |send| tn(send.receiver))
                }
            }
        }
        _ => named(frame).map_or_else(String::new, |name| tn(name.receiver())),
    }
}

/// The sends of a work that is refused, and the world in which they are judged: with the message worked.
fn planned(job: &Job, world: &World, chare: u8) -> (World, Plan) {
    let mut worked = world.clone();
    // Refused by a later question, so there is a message to work.
    let _ = worked.begin_work(chare);
    let plan = worked.plan(job, chare);
    (worked, plan)
}

/// The new tickets of a plan for a chare.
fn entering(plan: &Plan, to: u8) -> usize {
    let new = |p: &&Planned| p.receiver == to && matches!(p.route, Route::Takes(_));
    plan.iter().filter(new).count()
}

fn outside_window(job: &Job, world: &World, frame: &Frame) -> String {
    if let Frame::Work { chare } = *frame {
        let (worked, plan) = planned(job, world, chare);
        let mut taking = plan.iter().filter(|p| matches!(p.route, Route::Takes(_)));
        let sent = taking.find_map(|p| {
            let beyond = beyond(&worked, chare, p.receiver, p.sn)?;
            let what = message(chare, p.receiver, p.sn);
            Some(format!("it sends {what}, and {beyond}"))
        });
        return sent.unwrap_or_default();
    }
    named(frame)
        .and_then(|name| beyond(world, name.sender(), name.receiver(), name.sn()))
        .unwrap_or_default()
}

/// By how many an SN is beyond its receiver's window, if it is.
fn beyond(world: &World, from: u8, to: u8, sn: u16) -> Option<String> {
    let seen = world.chare(to).seen[usize::from(from)];
    match seen.look(sn) {
        Reply::Worked | Reply::Open => None,
        Reply::Beyond(by) => Some(format!(
            "SN {sn} is {by} beyond mark {} + {WINDOW_BITS}",
            seen.mark
        )),
    }
}

fn log_full(job: &Job, world: &World, frame: &Frame) -> String {
    let (from, sent) = match *frame {
        Frame::Work { chare } => (chare, planned(job, world, chare).1.len()),
        _ => (DESK, 1),
    };
    let held = world.log(from).0.len();
    format!(
        "the log of {} holds {held} of {LOG_SIZE}, {sent} more to send",
        sender(from)
    )
}

fn no_space(job: &Job, world: &World, frame: &Frame) -> String {
    match (*frame, named(frame)) {
        (Frame::Work { chare }, _) => {
            let (_, plan) = planned(job, world, chare);
            let full = |to: u8| world.chare(to).table.0.len() + entering(&plan, to) > TABLE_SIZE;
            let to = plan
                .iter()
                .map(|p| p.receiver)
                .find(|&to| entering(&plan, to) > 0 && full(to));
            to.map_or_else(String::new, |to| table_full(world, to, entering(&plan, to)))
        }
        (_, Some(name)) if name.kind() == Kind::Note => {
            let machine = job.machine_of(name.receiver());
            let held = world.backups[ix(machine)].notes.len();
            format!("{held} of {NOTES_SIZE} notes are held for machine {machine}")
        }
        (_, Some(name)) => table_full(world, name.receiver(), 1),
        _ => format!("more than {TABLE_SIZE} tickets are known for one chare"),
    }
}

fn table_full(world: &World, chare: u8, more: usize) -> String {
    let held = world.chare(chare).table.0.len();
    format!("the table of chare {chare} holds {held} of {TABLE_SIZE}, {more} more to enter")
}

fn wire_full(job: &Job, world: &World, frame: &Frame) -> String {
    let held = format!("the wire holds {} of {WIRE_SIZE}", world.wire.len());
    match *frame {
        Frame::Restart { .. } => format!("{held}, and those sent again are too many"),
        Frame::Work { chare } => {
            // An ASK to another machine, a NOTE for each new ticket.
            let (_, plan) = planned(job, world, chare);
            let packets = plan.iter().filter(|p| !matches!(p.route, Route::Fills(_)));
            format!("{held}, {} more to send", packets.count())
        }
        _ => format!("{held}, 1 more to send"),
    }
}
