//! How a random list chooses the numbers of its next frame.

use crate::frame::Frame;
use crate::generator::Generator;
use crate::hold::Held;
use crate::job::{ix, Job};
use crate::limits::{DESK, WIRE_SIZE};
use crate::mistake::Mistake;
use crate::mood::Order;
use crate::outlook::{catching_up, granted, is_refused, lacks_space, makes_space, workable};
use crate::state::State;
use crate::wire::{Kind, Name};
use crate::world::{destination, World};

impl Generator {
    pub(crate) fn inject(&mut self, job: &Job, state: &State) -> Frame {
        // A full desk log mostly asks for a checkpoint of those it writes to.
        if state.world.desk.log.0.is_full() && !self.rng.one_in(6) {
            let receiver = self.rng.pick(&state.world.desk.log.0).receiver;
            let machine = job.machine_of(receiver);
            let careless = self.mood.careless || self.spares(job, &state.world, machine);
            if state.world.is_up(machine) && !self.rng.one_in(3) && !careless {
                return Frame::Checkpoint { machine };
            }
            return self.onward(job, state);
        }
        let works = self.load_left(job, state);
        let rng = &mut self.rng;
        let mut chare = rng.between(1, job.chare_count() as usize) as u8;
        if self.mood.desk_only {
            // Those with space in their logs can still fill the wire.
            let room = |c: u8| state.world.chare(c).log.0.len();
            for _ in 0..6 {
                let other = rng.between(1, job.chare_count() as usize) as u8;
                if room(other) < room(chare) {
                    chare = other;
                }
            }
        }
        if let Some(Mistake::TakenBack(taken_back)) = self.mistake.take() {
            chare = taken_back;
        }
        let mut hops = match rng.below(4) {
            0 => rng.between(0, self.mood.hops as usize) as u8,
            _ => self.mood.hops,
        };
        if let Some(Held { name, .. }) = self.held {
            // More from the sender of the held packet to its receiver.
            if !rng.one_in(5) {
                (chare, hops) = match name.sender() {
                    DESK => (name.receiver(), self.mood.hops),
                    sender => (sender, hops.max(1)),
                };
            }
        }
        let value = match rng.below(16) {
            0 => 0,
            1 => u16::MAX,
            _ => rng.next() as u16,
        };
        match self.fitting_hops(chare, hops, works) {
            Some(hops) => Frame::Inject { chare, value, hops },
            // Enough is under way: carry on with that.
            None => self.onward(job, state),
        }
    }

    /// A delivery or a work, if there is any to make.
    fn onward(&mut self, job: &Job, state: &State) -> Frame {
        match self.packet(job, state) {
            Some(name) if !self.rng.one_in(3) => name.into(),
            _ => self.work(job, state),
        }
    }

    pub(crate) fn deliver(&mut self, job: &Job, state: &State) -> Frame {
        self.hold(state);
        match self.packet(job, state) {
            Some(name) => name.into(),
            // Nothing to deliver: work, or start something new.
            None if workable(job, &state.world).next().is_some() => self.work(job, state),
            None if state.world.desk.log.0.is_full() => self.idle(job, state),
            None => self.inject(job, state),
        }
    }

    /// Nothing that the mood likes can be done: anything else that leads on.
    fn idle(&mut self, job: &Job, state: &State) -> Frame {
        let world = &state.world;
        let chare = self.rng.between(1, job.chare_count() as usize) as u8;
        if self.rng.one_in(16) {
            return Frame::Work { chare };
        }
        if let Some(frame) = self.relief(job, state) {
            return frame;
        }
        let held = self.held;
        let names = world.wire.names();
        let start = self.rng.below(names.len().max(1));
        let mut all = names[start..].iter().chain(&names[..start]).copied();
        let leads_on = |name: Name| {
            world.is_up(destination(job, name))
                && !held.is_some_and(|held| held.has(name))
                && !is_refused(world, name)
        };
        match all.find(|&name| leads_on(name)) {
            Some(name) => name.into(),
            None if world.desk.log.0.is_full() || self.load_left(job, state) == 0 => {
                self.checkpoint(job, state)
            }
            None => Frame::Inject {
                chare,
                value: self.rng.next() as u16,
                hops: 0,
            },
        }
    }

    /// A packet that can be delivered and that the mood likes.
    fn packet(&mut self, job: &Job, state: &State) -> Option<Name> {
        let world = &state.world;
        let names = world.wire.names();
        if names.is_empty() {
            return None;
        }
        if let Some(name) = self.due(job, world) {
            return Some(name);
        }
        let keen = if self.mood.desk_only { 4 } else { 2 };
        let helped = catching_up(world).filter(|_| !self.rng.one_in(keen));
        if names.len() >= WIRE_SIZE - 2 && self.rng.one_in(12) {
            self.mood.desk_only = false;
        }
        let stingy = self.mood.desk_only && self.cramped <= self.mood.patience;
        let held = self.held;
        let try_refused = self.rng.one_in(8);
        let fits = |name: Name| {
            let about_desk = name.sender() == DESK;
            let helps = helped
                .is_some_and(|p| job.machine_of(name.sender()) == p || destination(job, name) == p);
            world.is_up(destination(job, name))
                && !held.is_some_and(|held| held.has(name))
                && (try_refused || !is_refused(world, name))
                && (helps || (helped.is_none() && (!stingy || about_desk)))
        };
        for _ in 0..4 {
            let at = match self.mood.order {
                Order::Any => self.rng.below(names.len()),
                Order::Oldest => self.rng.below(names.len().min(4)),
                Order::Newest => names.len() - 1 - self.rng.below(names.len().min(4)),
            };
            let name = names[at];
            let liked = self.mood.kinds[name.kind() as usize - 1];
            if fits(name) && self.rng.below(8) < liked as usize {
                return Some(name);
            }
        }
        let start = self.rng.below(names.len());
        let mut rest = names[start..].iter().chain(&names[..start]).copied();
        let liked = |name: Name| self.mood.kinds[name.kind() as usize - 1] >= 4;
        rest.find(|&name| fits(name) && (helped.is_some() || liked(name)))
    }

    pub(crate) fn work(&mut self, job: &Job, state: &State) -> Frame {
        let world = &state.world;
        let mut ready: Vec<u8> = workable(job, world).collect();
        if !self.rng.one_in(8) {
            ready.retain(|&chare| !lacks_space(job, world, chare));
        }
        if let Some(machine) = catching_up(world) {
            let own = |c: &u8| job.machine_of(*c) == machine;
            if ready.iter().any(own) && !self.rng.one_in(3) {
                ready.retain(own);
            }
        }
        if !ready.is_empty() {
            let chare = *self.rng.pick(&ready);
            return Frame::Work { chare };
        }
        match self.packet(job, state) {
            Some(name) => name.into(),
            None => self.idle(job, state),
        }
    }

    /// Does this mood make no checkpoint of this machine for now?
    fn spares(&self, job: &Job, world: &World, machine: u8) -> bool {
        self.mood.spares_crowd
            && self.stuck <= 40
            && job.chares_on(machine).count() * 2 > job.chare_count() as usize
            && !(world.backups[ix(machine)].notes.is_full() && self.cramped > 0)
    }

    pub(crate) fn checkpoint(&mut self, job: &Job, state: &State) -> Frame {
        let world = &state.world;
        let mut machine = self.rng.between(1, job.machine_count() as usize) as u8;
        // Mostly one that can make it; often one that has no copy or that would make space.
        for _ in 0..32 {
            let possible = world.is_up(machine) && world.is_up(job.buddy_of(machine));
            let wanted = !world.backups[ix(machine)].has_copy || makes_space(job, world, machine);
            let spared = self.spares(job, world, machine);
            if possible && !spared && (wanted || self.rng.one_in(4)) {
                break;
            }
            machine = self.rng.between(1, job.machine_count() as usize) as u8;
        }
        Frame::Checkpoint { machine }
    }

    /// A checkpoint that makes space, if there is one.
    pub(crate) fn relief(&mut self, job: &Job, state: &State) -> Option<Frame> {
        let world = &state.world;
        let possible = |m: u8| world.is_up(m) && world.is_up(job.buddy_of(m));
        let patient = self.cramped <= self.mood.patience;
        let useful: Vec<u8> = job
            .machines()
            .filter(|&m| possible(m) && makes_space(job, world, m))
            .filter(|&m| !(patient && self.spares(job, world, m)))
            .collect();
        match useful[..] {
            [] => None,
            _ => Some(Frame::Checkpoint {
                machine: *self.rng.pick(&useful),
            }),
        }
    }

    pub(crate) fn crash(&mut self, job: &Job, state: &State) -> Frame {
        let world = &state.world;
        let struck = self.struck.take().filter(|&m| world.has_cover(m));
        if self.is_doomed() {
            let machine = self.rng.between(1, job.machine_count() as usize) as u8;
            return Frame::Crash { machine };
        }
        if let Some(machine) = struck {
            return Frame::Crash { machine };
        }
        let covered: Vec<u8> = job.machines().filter(|&m| world.has_cover(m)).collect();
        if covered.is_empty() {
            // Without cover anywhere: give some machine its copy back instead.
            return self.checkpoint(job, state);
        }
        // One whose tickets are still under way loses some of them, which leaves holes.
        let given = |machine: u8| {
            let names = world.wire.names().iter();
            let own = names.filter(|n| job.machine_of(n.receiver()) == machine);
            own.filter(|n| matches!(n.kind(), Kind::Grant | Kind::Note))
                .count()
        };
        let mut machine = *self.rng.pick(&covered);
        for _ in 0..2 {
            let other = *self.rng.pick(&covered);
            if given(other) > given(machine) {
                machine = other;
            }
        }
        if let Some(held) = self.held.filter(Held::is_of_chare) {
            let home = job.machine_of(held.name.sender());
            if covered.contains(&home) {
                // After its checkpoint the receiver knows by its window alone what it has worked.
                let there = job.machine_of(held.name.receiver());
                if !self.mood.careless && !self.rng.one_in(4) {
                    self.struck = Some(home);
                    return Frame::Checkpoint { machine: there };
                }
                return Frame::Crash { machine: home };
            }
        }
        if given(machine) < 2 && self.rng.one_in(2) {
            return self.deliver(job, state);
        }
        // A ticket that the copy knows and the desk does not: the message will ask again.
        let careless = self.mood.careless || self.spares(job, world, machine);
        if granted(job, world, machine) && !careless && self.rng.one_in(6) {
            self.struck = Some(machine);
            return Frame::Checkpoint { machine };
        }
        if self.bounds.crashing || self.rng.one_in(4) {
            self.hold_data(job, world, machine);
        }
        Frame::Crash { machine }
    }

    pub(crate) fn restart(&mut self, job: &Job, state: &State) -> Frame {
        let down = job.machines().find(|&m| !state.world.is_up(m));
        Frame::Restart {
            machine: down.unwrap_or(1),
        }
    }
}
