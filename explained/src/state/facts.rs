//! A state as a list of facts. Each has a key by which it is found again after the next frame.

use crate::names::{body, count, message, origin, packet, place, sender, stretches, tickets};
use crate::notation::digits_of;
use crate::words::catching;
use reference::chare::Chare;
use reference::job::{ix, Job};
use reference::limits::{
    DESK, LOG_SIZE, MAX_CHARES, NOTES_SIZE, TABLE_SIZE, WINDOW_BITS, WIRE_SIZE,
};
use reference::message::{Body, Log};
use reference::seen::{Reply, Seen};
use reference::state::State;
use reference::wire::Content;
use reference::world::{destination, Phase, World};

pub struct Fact {
    pub key: String,
    pub text: String,
}

pub struct Group {
    pub title: String,
    pub facts: Vec<Fact>,
}

impl Group {
    fn new(title: impl Into<String>) -> Group {
        Group {
            title: title.into(),
            facts: Vec::new(),
        }
    }

    fn put(&mut self, key: impl Into<String>, text: impl Into<String>) {
        let (key, text) = (key.into(), text.into());
        self.facts.push(Fact { key, text });
    }
}

/// Everything that a state holds.
pub fn facts(state: &State) -> Vec<Group> {
    let mut groups = vec![run(state)];
    if let Some(job) = &state.job {
        let world = &state.world;
        groups.push(machines(job, world));
        groups.push(desk(job, world));
        groups.extend(job.chares().map(|chare| memory(job, world, chare)));
        groups.extend(job.machines().map(|machine| kept(job, world, machine)));
        groups.push(wire(job, world));
    }
    groups
}

fn run(state: &State) -> Group {
    let mut group = Group::new("Run");
    let text = match &state.job {
        None => "no job is set".to_string(),
        Some(job) => format!(
            "a job of {} and {}",
            count(job.machine_count().into(), "machine"),
            count(job.chare_count().into(), "chare")
        ),
    };
    group.put("job", text);
    let text = match (state.lost, state.is_quiet()) {
        (true, _) => "the run is LOST: no frame is accepted any more",
        (false, true) => "not lost; no machine is down or catching up",
        (false, false) => "not lost",
    };
    group.put("lost", text);
    group
}

fn machines(job: &Job, world: &World) -> Group {
    let mut group = Group::new("Machines");
    for machine in job.machines() {
        let phase = match world.phases[ix(machine)] {
            Phase::Up => "up".to_string(),
            Phase::Down => "DOWN".to_string(),
            Phase::CatchingUp => format!(
                "catching up: {}",
                catching::left(job, world, machine).join("; ")
            ),
        };
        group.put(machine.to_string(), format!("machine {machine}: {phase}"));
        if world.phases[ix(machine)] == Phase::CatchingUp {
            for chare in job.chares_on(machine) {
                let target = world.targets[ix(chare)];
                let text = format!("machine {machine}: chare {chare} has to reach TN {target}");
                group.put(format!("{machine} {chare}"), text);
            }
        }
    }
    group
}

fn desk(job: &Job, world: &World) -> Group {
    let mut group = Group::new("Desk");
    put_sent(&mut group, "", job, &world.desk.sent);
    put_log(&mut group, "", DESK, &world.desk.log);
    group
}

fn memory(job: &Job, world: &World, chare: u8) -> Group {
    let machine = job.machine_of(chare);
    let mut group = Group::new(format!("Chare {chare}, on machine {machine}"));
    match world.is_up(machine) {
        true => put_chare(&mut group, "", job, chare, world.chare(chare)),
        false => group.put("down", format!("nothing: machine {machine} is down")),
    }
    group
}

/// What the buddy keeps for a machine: the copy and the notes.
fn kept(job: &Job, world: &World, machine: u8) -> Group {
    let buddy = job.buddy_of(machine);
    let mut group = Group::new(format!(
        "Kept for machine {machine} by its buddy, machine {buddy}"
    ));
    let backup = &world.backups[ix(machine)];
    match backup.has_copy {
        true => group.put("copy", "a copy of it"),
        false => group.put("copy", "NO copy: a crash of it would have no cover"),
    }
    if backup.has_copy {
        for chare in job.chares_on(machine) {
            let lead = format!("copy of chare {chare}: ");
            put_chare(&mut group, &lead, job, chare, &world.copies[ix(chare)]);
        }
    }
    let held = backup.notes.len();
    if held > 0 {
        group.put("notes", format!("notes held: {held} of {NOTES_SIZE}"));
    }
    for note in backup.notes.iter() {
        let what = message(note.sender, note.receiver, note.sn);
        group.put(
            format!("note {what} {}", note.tn),
            format!("note: {what} has TN {}", note.tn),
        );
    }
    group
}

/// All that a machine, or a copy, has of a chare. `lead` stands before each fact.
fn put_chare(group: &mut Group, lead: &str, job: &Job, chare: u8, memory: &Chare) {
    let Chare { state, height, .. } = memory;
    group.put(
        format!("{lead}state"),
        format!("{lead}height {height}, state {state:08X}"),
    );
    for from in DESK..=job.chare_count() {
        let seen = memory.seen[usize::from(from)];
        if seen != Seen::default() {
            group.put(
                format!("{lead}seen {from}"),
                format!("{lead}{}", worked(from, seen)),
            );
        }
    }
    let holes: Vec<u16> = memory.holes().collect();
    if !holes.is_empty() {
        let word = if holes.len() == 1 { "hole" } else { "holes" };
        group.put(
            format!("{lead}holes"),
            format!("{lead}{word}: {}", tickets(holes)),
        );
    }
    let table = &memory.table.0;
    if !table.is_empty() {
        group.put(
            format!("{lead}table"),
            format!("{lead}table: {} of {TABLE_SIZE}", table.len()),
        );
    }
    let mut entries: Vec<_> = table.iter().collect();
    entries.sort_by_key(|entry| entry.tn);
    for entry in entries {
        let what = message(entry.sender, chare, entry.sn);
        let there = match entry.received {
            Some(message) => format!("received ({})", body(message)),
            None => "not received".to_string(),
        };
        let noted = if entry.noted { "noted" } else { "not noted" };
        let done = if entry.tn <= *height { ", worked" } else { "" };
        let text = format!(
            "{lead}table, TN {}: {what}, {there}, {noted}{done}",
            entry.tn
        );
        group.put(format!("{lead}entry {what}"), text);
    }
    put_sent(group, lead, job, &memory.sent);
    put_log(group, lead, chare, &memory.log);
}

/// Mark and window of a sender.
fn worked(from: u8, seen: Seen) -> String {
    let above = (1..=WINDOW_BITS).map(|bit| seen.mark + bit);
    let above: Vec<u16> = above
        .filter(|&sn| matches!(seen.look(sn), Reply::Worked))
        .collect();
    let window = match above.len() {
        0 => "window empty".to_string(),
        _ => format!("window: SN {} worked too", stretches(&above)),
    };
    format!("worked of {}: mark {}, {window}", sender(from), seen.mark)
}

fn put_sent(group: &mut Group, lead: &str, job: &Job, sent: &[u16; MAX_CHARES]) {
    for to in job.chares().filter(|&to| sent[ix(to)] > 0) {
        let text = format!("{lead}last SN to chare {to}: {}", sent[ix(to)]);
        group.put(format!("{lead}sent {to}"), text);
    }
}

fn put_log(group: &mut Group, lead: &str, from: u8, log: &Log) {
    if !log.0.is_empty() {
        group.put(
            format!("{lead}log"),
            format!("{lead}log: {} of {LOG_SIZE}", log.0.len()),
        );
    }
    for logged in log.0.iter() {
        let what = message(from, logged.receiver, logged.sn);
        let tn = match logged.tn {
            Some(tn) => format!("TN {tn}"),
            None => "no TN yet".to_string(),
        };
        let text = format!("{lead}log, {what} ({}): {tn}", body(logged.body));
        group.put(format!("{lead}logged {what}"), text);
    }
}

fn wire(job: &Job, world: &World) -> Group {
    let mut group = Group::new(format!(
        "Wire, the oldest first, with the frame that delivers it (at most {WIRE_SIZE})"
    ));
    let names = world.wire.names();
    for (at, (name, content)) in world.wire.packets().enumerate() {
        let same = names[..at].iter().filter(|&&other| other == name).count();
        let (from, to) = (origin(job, name), destination(job, name));
        let carried = match content {
            Content::Data { value, hops } => format!(" ({})", body(Body { value, hops })),
            _ => String::new(),
        };
        let text = format!(
            "{}  {}{carried} from {} to {}",
            digits_of(&name.into()),
            packet(name, content),
            place(from),
            place(to)
        );
        group.put(format!("{} {same}", digits_of(&name.into())), text);
    }
    group
}
