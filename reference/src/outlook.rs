//! What a state allows next, as far as can be seen at once.

use crate::job::{ix, Job};
use crate::limits::{DESK, LOG_SIZE, TABLE_SIZE};
use crate::message::Lookup;
use crate::seen::Reply;
use crate::wire::{Kind, Name};
use crate::world::{Phase, World};

/// The chares that can work, as far as question 6 goes.
pub fn workable<'a>(job: &'a Job, world: &'a World) -> impl Iterator<Item = u8> + 'a {
    job.chares().filter(|&chare| {
        let me = world.chare(chare);
        world.is_up(job.machine_of(chare))
            && me
                .table
                .find_tn(me.height + 1)
                .is_some_and(|e| e.noted && e.received.is_some())
    })
}

pub fn catching_up(world: &World) -> Option<u8> {
    let at = world.phases.iter().position(|&p| p == Phase::CatchingUp)?;
    Some(at as u8 + 1)
}

/// Would this be an ASK refused for window or space?
pub fn is_refused(world: &World, name: Name) -> bool {
    let me = world.chare(name.receiver());
    let no_room = match me.seen[name.sender() as usize].look(name.sn()) {
        Reply::Worked => false,
        Reply::Open => me.table.0.is_full(),
        Reply::Beyond(_) => true,
    };
    name.kind() == Kind::Ask && no_room && me.table.find(name.sender(), name.sn()).is_none()
}

/// Would the sends of the next work, as far as can be seen at once, lack space?
pub fn lacks_space(job: &Job, world: &World, chare: u8) -> bool {
    let me = world.chare(chare);
    let next = me.table.find_tn(me.height + 1).and_then(|e| e.received);
    let ports = job.ports_of(chare).into_iter().filter(|&port| port != 0);
    let full = |port: u8| {
        job.machine_of(port) == job.machine_of(chare) && world.chare(port).table.0.is_full()
    };
    next.is_some_and(|body| body.hops > 0)
        && (me.log.0.len() + ports.clone().count() > LOG_SIZE || ports.clone().any(full))
}

/// Would a checkpoint of this machine make space in a full table or log?
pub fn makes_space(job: &Job, world: &World, machine: u8) -> bool {
    let table = job.chares_on(machine).any(|c| {
        let me = world.chare(c);
        me.table.0.len() + 2 > TABLE_SIZE && me.table.0.iter().any(|e| e.tn <= me.height)
    });
    let log = (DESK..=job.chare_count()).map(|sender| &world.log(sender).0);
    let mut full = log.filter(|log| log.len() + 2 > LOG_SIZE);
    table
        || full.any(|log| {
            log.iter().any(|m| {
                let height = world.chare(m.receiver).height;
                job.machine_of(m.receiver) == machine && m.tn.is_some_and(|tn| tn < height)
            })
        })
}

/// The chares from which the desk can take its last message back.
pub fn withdrawable<'a>(job: &'a Job, world: &'a World) -> impl Iterator<Item = u8> + 'a {
    job.chares().filter(|&chare| {
        let last = world.last_injected(chare);
        let open = last.asks && last.ticket.is_none();
        world.is_up(job.machine_of(chare)) && open && matches!(last.logged, Lookup::Waiting(_))
    })
}

/// Is a GRANT of this machine's for the desk's last message to some chare under way?
pub fn granted(job: &Job, world: &World, machine: u8) -> bool {
    job.chares_on(machine).any(|chare| {
        let sn = world.desk.sent[ix(chare)];
        let grant = Name::new(Kind::Grant, DESK, chare, sn);
        world.wire.find(grant).is_some()
    })
}

/// A chare whose last message from the desk asks again, though its ticket is in the table.
pub fn asks_again(world: &World) -> Option<u8> {
    let mut waiting = world.desk.log.0.iter().filter(|m| m.tn.is_none());
    let found = waiting.find(|m| {
        let last = m.sn == world.desk.sent[ix(m.receiver)];
        let ticket = world.chare(m.receiver).table.find(DESK, m.sn);
        let ask = Name::new(Kind::Ask, DESK, m.receiver, m.sn);
        last && ticket.is_some() && world.wire.find(ask).is_some()
    });
    found.map(|m| m.receiver)
}
