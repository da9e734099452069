//! What a refusal by question 6 waits for: packets that are still on the wire.

use crate::names::{joined, message, short};
use crate::traffic::named;
use reference::frame::Frame;
use reference::job::{ix, Job};
use reference::limits::DESK;
use reference::wire::{Kind, Name};
use reference::world::World;

/// So many packets are named.
const NAMED: usize = 3;

/// "GRANT 1→2 #1 is still on the wire", if that is what is missing.
pub fn hint(job: &Job, world: &World, frame: &Frame) -> Option<String> {
    let on_wire = |wanted: &dyn Fn(Name) -> bool| still(world, wanted);
    match (*frame, named(frame)) {
        (Frame::Work { chare }, _) => {
            let me = world.chare(chare);
            let Some(entry) = me.table.find_tn(me.height + 1) else {
                return on_wire(&|name| name.kind() == Kind::Ask && name.receiver() == chare);
            };
            let of_note = |kind| matches!(kind, Kind::Note | Kind::Ack);
            on_wire(&|name| {
                (name.sender(), name.receiver(), name.sn()) == (entry.sender, chare, entry.sn)
                    && of_note(name.kind()) == entry.received.is_some()
            })
        }
        (_, Some(packet)) => {
            let (from, to, sn) = (packet.sender(), packet.receiver(), packet.sn());
            let same = |name: Name| (name.sender(), name.receiver(), name.sn()) == (from, to, sn);
            on_wire(&same).or_else(|| not_sent(job, world, packet))
        }
        _ => None,
    }
}

/// The packets of a kind that the wire has, each name once.
fn still(world: &World, wanted: &dyn Fn(Name) -> bool) -> Option<String> {
    let mut names: Vec<String> = Vec::new();
    for &name in world.wire.names().iter().filter(|&&name| wanted(name)) {
        let name = short(name);
        if !names.contains(&name) {
            names.push(name);
        }
    }
    let more = names.len().saturating_sub(NAMED);
    if more > 0 {
        names.truncate(NAMED);
        names.push(format!("{more} more"));
    }
    match names.len() {
        0 => None,
        1 => Some(format!("{} is still on the wire", names[0])),
        _ => Some(format!("{} are still on the wire", joined(&names))),
    }
}

/// A message whose SN its sender has not come to.
fn not_sent(job: &Job, world: &World, packet: Name) -> Option<String> {
    let (from, to, sn) = (packet.sender(), packet.receiver(), packet.sn());
    let sent = match from {
        DESK => &world.desk.sent,
        chare if world.is_up(job.machine_of(chare)) => &world.chare(chare).sent,
        _ => return None,
    };
    (sn > sent[ix(to)]).then(|| format!("{} is not sent yet", message(from, to, sn)))
}
