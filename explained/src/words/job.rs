//! The words for a job.

use crate::names::{count, joined};
use reference::frame::Draft;
use reference::job::{ix, Job};

pub fn words(job: &Job, draft: &Draft) -> Vec<String> {
    let mut lines = vec![format!(
        "Job: {} and {}.",
        count(job.machine_count().into(), "machine"),
        count(job.chare_count().into(), "chare")
    )];
    for machine in job.machines() {
        let chares: Vec<String> = job.chares_on(machine).map(|c| writes(job, c)).collect();
        let chares = match chares.len() {
            0 => "no chare".to_string(),
            _ => joined(&chares),
        };
        let buddy = job.buddy_of(machine);
        // A buddy that the frame does not name is said to be a reading of 00.
        let why = match draft.buddies[ix(machine)] {
            0 => ", 00 being the machine before",
            _ => "",
        };
        lines.push(format!(
            "Machine {machine} (buddy: machine {buddy}{why}): {chares}."
        ));
    }
    lines
        .push("Every state is the chare's number, every height 0; each buddy holds a copy.".into());
    lines
}

fn writes(job: &Job, chare: u8) -> String {
    let ports = job.ports_of(chare).into_iter().filter(|&port| port != 0);
    let ports: Vec<String> = ports.map(|port| port.to_string()).collect();
    match ports.len() {
        0 => format!("chare {chare} (writes to none)"),
        _ => format!("chare {chare} (writes to {})", joined(&ports)),
    }
}
