//! The words for a crash, with cover and without.

use super::Done;
use crate::names::{count, joined, packet};
use crate::play::Step;
use reference::frame::Frame;
use reference::job::ix;
use reference::world::{destination, Phase};

/// A crash with cover.
pub fn words(done: &Done, machine: u8) -> Vec<String> {
    let buddy = done.job.buddy_of(machine);
    let mut lines = vec![
        format!("Crash of machine {machine}: it is down now."),
        format!(
            "There is cover: no machine is down or catching up, \
                    and machine {buddy}, the buddy, holds its copy."
        ),
    ];
    let chares: Vec<String> = done
        .job
        .chares_on(machine)
        .map(|chare| format!("chare {chare} (height {})", done.before.chare(chare).height))
        .collect();
    if !chares.is_empty() {
        lines.push(format!("Its memory is gone: {}.", joined(&chares)));
    }
    for backed in done.job.machines() {
        let backup = &done.before.backups[ix(backed)];
        if done.job.buddy_of(backed) != machine {
            continue;
        }
        let notes = match backup.notes.len() {
            0 => "no notes".to_string(),
            held => count(held, "note"),
        };
        if backup.has_copy {
            lines.push(format!(
                "Gone too: what it kept for machine {backed}, a copy and {notes}. \
                    Machine {backed} has no cover until its next checkpoint."
            ));
        } else if !backup.notes.is_empty() {
            lines.push(format!(
                "Gone too: {notes} that it kept for machine {backed}, of which it held no copy."
            ));
        }
    }
    let gone = gone(done);
    let to_it = |name| destination(done.job, name) == machine;
    let (to, given): (Vec<_>, Vec<_>) = gone.into_iter().partition(|&(name, _)| to_it(name));
    for (packets, why) in [(to, "on their way to it"), (given, "tickets it gave")] {
        if !packets.is_empty() {
            let packets: Vec<String> = packets.iter().map(|&(n, c)| packet(n, c)).collect();
            lines.push(format!("Off the wire, {why}: {}.", joined(&packets)));
        }
    }
    lines
}

/// The packets that a crash, a restart or a withdrawal took off the wire.
pub fn gone(done: &Done) -> Vec<crate::traffic::Packet> {
    let packet = |&at: &usize| (done.before.wire.names()[at], done.before.wire.content(at));
    done.change.gone.iter().map(packet).collect()
}

/// A crash without cover.
pub fn lost(step: &Step) -> Vec<String> {
    let Some(Frame::Crash { machine }) = step.frame else {
        return Vec::new();
    };
    let why = no_cover(step).join("; ");
    vec![
        format!("Crash of machine {machine} without cover: {why}."),
        "The run is lost. Nothing else changes, and no later frame is accepted.".to_string(),
    ]
}

/// Every reason why this crash has no cover.
pub fn no_cover(step: &Step) -> Vec<String> {
    let world = &step.before.world;
    let (Some(Frame::Crash { machine }), Some(job)) = (step.frame, step.job()) else {
        return Vec::new();
    };
    let mut reasons = Vec::new();
    for other in job.machines() {
        match world.phases[ix(other)] {
            Phase::Up => {}
            Phase::Down => reasons.push(format!("machine {other} is down")),
            Phase::CatchingUp if other == machine => {
                reasons.push("it is catching up itself".to_string())
            }
            Phase::CatchingUp => reasons.push(format!("machine {other} is catching up")),
        }
    }
    if !world.backups[ix(machine)].has_copy {
        let buddy = job.buddy_of(machine);
        reasons.push(format!(
            "machine {buddy}, the buddy, does not hold its copy"
        ));
    }
    reasons
}
