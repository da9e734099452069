//! Packets that a random list holds back.

use crate::generator::Generator;
use crate::job::Job;
use crate::limits::{DESK, HALF_WINDOW, LOG_SIZE, WINDOW_BITS};
use crate::seen::Reply;
use crate::state::State;
use crate::wire::{Kind, Name};
use crate::world::{destination, World};

/// A packet that is not delivered for now.
#[derive(Clone, Copy, Debug)]
pub struct Held {
    pub name: Name,
    /// For so many deliveries at most.
    left: usize,
    /// An ASK goes as soon as so many SNs from its own on are worked or about to be. Without a
    /// number it waits until a later one is refused.
    until: Option<u16>,
    /// A later ASK that waits behind it, so that the window has a gap.
    second: Option<Name>,
}

impl Held {
    fn briefly(name: Name, left: usize) -> Held {
        Held {
            name,
            left,
            until: None,
            second: None,
        }
    }

    pub(crate) fn is_of_chare(&self) -> bool {
        self.name.kind() == Kind::Ask && self.name.sender() != DESK
    }

    pub fn has(&self, name: Name) -> bool {
        self.name == name || self.second == Some(name)
    }

    /// How many SNs from its own on are worked, have a ticket or wait behind it.
    fn reach(&self, world: &World) -> usize {
        let (sender, receiver) = (self.name.sender(), self.name.receiver());
        let me = world.chare(receiver);
        let counts = |&sn: &u16| {
            me.seen[sender as usize].look(sn) == Reply::Worked
                || me.table.find(sender, sn).is_some()
                || self.second.is_some_and(|second| second.sn() == sn)
        };
        1 + (self.name.sn() + 1..).take_while(counts).count()
    }
}

impl Generator {
    /// Chooses a packet to hold back, or lets it go.
    pub(crate) fn hold(&mut self, state: &State) {
        let names = state.world.wire.names();
        let Some(held) = self.held else {
            self.held = self.chosen(names);
            return;
        };
        let name = held.name;
        let seen = &state.world.chare(name.receiver()).seen[name.sender() as usize];
        let refused = names.iter().any(|n| {
            let same = n.sender() == name.sender() && n.receiver() == name.receiver();
            same && n.kind() == Kind::Ask && matches!(seen.look(n.sn()), Reply::Beyond(_))
        });
        if held.left == 0 {
            self.held = None;
        } else if refused && self.rng.one_in(10) {
            self.let_go(held);
        } else {
            let left = held.left - 1;
            self.held = Some(Held { left, ..held });
        }
    }

    fn chosen(&mut self, names: &[Name]) -> Option<Held> {
        if !self.mood.holds || names.is_empty() {
            return None;
        }
        let name = *self.rng.pick(names);
        // Where chares write to each other, the desk's packets mostly go.
        if self.mood.hops > 0 && name.sender() == DESK && !self.rng.one_in(30) {
            return None;
        }
        // An ASK can be held for long; other packets soon stop their receiver.
        match name.kind() {
            Kind::Ask => Some(self.held_ask(name)),
            _ => self.rng.one_in(8).then(|| Held::briefly(name, 60)),
        }
    }

    /// Every second ASK waits for a refusal, the others until half the window is reached or more;
    /// every second one has another behind it.
    fn held_ask(&mut self, name: Name) -> Held {
        let until = match self.rng.below(4) {
            0 => Some(HALF_WINDOW),
            1 => Some(HALF_WINDOW + self.rng.between(1, HALF_WINDOW as usize - 1) as u16),
            _ => None,
        };
        let gap = self.rng.between(1, WINDOW_BITS as usize - 1) as u16;
        let second = Name::new(Kind::Ask, name.sender(), name.receiver(), name.sn() + gap);
        Held {
            name,
            left: 1500,
            until,
            second: self.rng.one_in(2).then_some(second),
        }
    }

    /// The one behind it is held on.
    fn let_go(&mut self, held: Held) {
        self.held = held.second.map(|name| self.held_ask(name));
    }

    /// The held ASK, if its time has come.
    pub(crate) fn due(&mut self, job: &Job, world: &World) -> Option<Name> {
        let held = self.held?;
        let name = held.name;
        let reached = held.reach(world) >= held.until? as usize;
        let there = world.wire.find(name).is_some() && world.is_up(destination(job, name));
        (reached && there).then(|| {
            self.let_go(held);
            name
        })
    }

    /// With its ASK held back a chare's machine does not catch up, so it can crash once: better when
    /// the window's upper half is in use and what the chare asks again is found there.
    pub(crate) fn crash_weight(&self, world: &World, usual: u32) -> u32 {
        let late = HALF_WINDOW as usize + LOG_SIZE;
        match self.held.filter(Held::is_of_chare) {
            None => usual,
            Some(held) if held.reach(world) > late => 4 * usual,
            Some(_) => 0,
        }
    }

    /// Holds DATA from a machine back, so that after the restart it may be sent a second time.
    pub(crate) fn hold_data(&mut self, job: &Job, world: &World, machine: u8) {
        let mut names = world.wire.names().iter();
        let own = |n: &&Name| n.kind() == Kind::Data && job.machine_of(n.sender()) == machine;
        if let Some(&name) = names.find(own) {
            self.held = Some(Held::briefly(name, 30));
        }
    }
}
