//! The words for catching up: how far it is, and when it ends.

use super::Done;
use crate::names::{joined, message};
use reference::frame::Frame;
use reference::job::{ix, Job};
use reference::world::{Phase, World};

/// The machine that is catching up, if one is.
fn catching(world: &World) -> Option<u8> {
    let at = world
        .phases
        .iter()
        .position(|&phase| phase == Phase::CatchingUp)?;
    Some(at as u8 + 1)
}

/// The machine whose catching up this frame ended; a restart may end its own.
pub fn ended(done: &Done) -> Option<u8> {
    let machine = match *done.frame {
        Frame::Restart { machine } => machine,
        _ => catching(done.before)?,
    };
    (done.after.phases[ix(machine)] == Phase::Up).then_some(machine)
}

pub fn words(done: &Done) -> Option<String> {
    if let Some(machine) = ended(done) {
        return Some(match *done.frame {
            Frame::Restart { .. } => {
                format!("Nothing to catch up: machine {machine} is fully back at once.")
            }
            _ => format!("Machine {machine} has caught up: it is fully back."),
        });
    }
    let machine = catching(done.after)?;
    concerns(done, machine).then(|| {
        let left = left(done.job, done.after, machine).join("; ");
        format!("Machine {machine} is catching up: {left}.")
    })
}

/// Can this frame have moved the machine's catching up?
fn concerns(done: &Done, machine: u8) -> bool {
    match *done.frame {
        Frame::Restart { .. } => true,
        Frame::Work { chare } => done.job.machine_of(chare) == machine,
        // A GRANT may end the wait of a logged message.
        Frame::Deliver(delivery) => {
            delivery.kind == 2 && done.job.machine_of(delivery.sender) == machine
        }
        _ => false,
    }
}

/// What is left to catch up, each part by itself.
pub fn left(job: &Job, world: &World, machine: u8) -> Vec<String> {
    let mut parts = Vec::new();
    for chare in job.chares_on(machine) {
        let (height, target) = (world.chare(chare).height, world.targets[ix(chare)]);
        if height < target {
            parts.push(format!(
                "chare {chare} must work on to TN {target} (height {height})"
            ));
        }
    }
    let mut waiting = Vec::new();
    for chare in job.chares_on(machine) {
        let log = &world.chare(chare).log.0;
        let without = log.iter().filter(|m| m.tn.is_none());
        waiting.extend(without.map(|m| message(chare, m.receiver, m.sn)));
    }
    match waiting.len() {
        0 => {}
        1 => parts.push(format!("{} in its log has no TN", joined(&waiting))),
        _ => parts.push(format!("{} in its logs have no TN", joined(&waiting))),
    }
    parts
}
