//! Checkpoint, crash, restart and catching up.

use crate::answer::Question;
use crate::chare::Chare;
use crate::job::{ix, Job};
use crate::limits::{DESK, LOG_SIZE, MAX_CHARES, MAX_SENDERS, WIRE_SIZE};
use crate::list::List;
use crate::table::{Entry, Table};
use crate::wire::{Content, Kind, Name};
use crate::world::{destination, Backup, Phase, World};

/// All that a restart can send: every message of every log.
type Resends = List<(Name, Content), { MAX_SENDERS * LOG_SIZE }>;

impl World {
    pub fn checkpoint(&mut self, job: &Job, machine: u8) -> Result<(), Question> {
        if !self.is_up(machine) || !self.is_up(job.buddy_of(machine)) {
            return Err(Question::Up);
        }
        // A logged message to this machine with a lower TN goes; no TN is lower than 0.
        let mut floors = [0; MAX_CHARES];
        for chare in job.chares_on(machine) {
            let me = &mut self.chares[ix(chare)];
            let height = me.height;
            me.table.0.retain(|entry| entry.tn > height);
            me.table.0.iter_mut().for_each(|entry| entry.noted = true);
            floors[ix(chare)] = height;
            // The copy is fixed before the logs drop anything.
            self.copies[ix(chare)].clone_from(me);
        }
        let backup = &mut self.backups[ix(machine)];
        backup.has_copy = true;
        backup.notes.clear();
        for sender in DESK..=job.chare_count() {
            if self.is_up(job.machine_of(sender)) {
                let keep = |tn: Option<u16>, floor| tn.is_none_or(|tn| tn >= floor);
                let log = &mut self.log_mut(sender).0;
                log.retain(|m| keep(m.tn, floors[ix(m.receiver)]));
            }
        }
        Ok(())
    }

    /// Says whether the crash had cover. Without it nothing changes here.
    pub fn crash(&mut self, job: &Job, machine: u8) -> Result<bool, Question> {
        if !self.is_up(machine) {
            return Err(Question::Up);
        }
        if !self.has_cover(machine) {
            return Ok(false);
        }
        for chare in job.chares_on(machine) {
            self.chares[ix(chare)] = Chare::default();
        }
        for backed in job.machines().filter(|&m| job.buddy_of(m) == machine) {
            self.backups[ix(backed)] = Backup::default();
            for chare in job.chares_on(backed) {
                self.copies[ix(chare)] = Chare::default();
            }
        }
        self.wire.retain(|name| {
            let given = matches!(name.kind(), Kind::Grant | Kind::Note)
                && job.machine_of(name.receiver()) == machine;
            !given && destination(job, name) != machine
        });
        self.phases[ix(machine)] = Phase::Down;
        Ok(true)
    }

    pub fn restart(&mut self, job: &Job, machine: u8) -> Result<(), Question> {
        if self.is_up(machine) {
            return Err(Question::Up);
        }
        // The memory of a machine that is down is empty, so a refused restart empties it again.
        let result = self.restore(job, machine);
        if result.is_err() {
            for chare in job.chares_on(machine) {
                self.chares[ix(chare)] = Chare::default();
            }
        }
        let resends = result?;
        self.wire.retain(|name| destination(job, name) != machine);
        for &(name, content) in resends.iter() {
            self.wire.push(name, content);
        }
        for chare in job.chares_on(machine) {
            let me = &mut self.chares[ix(chare)];
            me.restart_high = me.table.highest(me.height);
            self.targets[ix(chare)] = me.holes().next().map_or(me.restart_high, |hole| hole - 1);
        }
        self.phases[ix(machine)] = Phase::CatchingUp;
        Ok(())
    }

    /// Fills the memory of the machine's chares and finds what is to be sent.
    fn restore(&mut self, job: &Job, machine: u8) -> Result<Resends, Question> {
        for chare in job.chares_on(machine) {
            self.chares[ix(chare)].clone_from(&self.copies[ix(chare)]);
        }
        for chare in job.chares_on(machine) {
            self.chares[ix(chare)].table = self.restored_table(job, chare)?;
        }
        for sender in job.chares_on(machine) {
            self.fill_from_log(job, sender);
        }
        let resends = self.resends(job, machine);
        let gone = self.wire.names().iter();
        let gone = gone.filter(|&&name| destination(job, name) == machine);
        if self.wire.len() - gone.count() + resends.len() > WIRE_SIZE {
            return Err(Question::WireSpace);
        }
        Ok(resends)
    }

    /// All tickets above the height that copy, logs elsewhere and notes know; none received.
    fn restored_table(&self, job: &Job, chare: u8) -> Result<Table, Question> {
        let (machine, me) = (job.machine_of(chare), self.chare(chare));
        let mut table = Table::default();
        let mut enter = |sender: u8, sn: u16, tn: u16| {
            let entry = Entry {
                sender,
                sn,
                tn,
                received: None,
                noted: true,
            };
            if table.find(sender, sn).is_some() || table.0.push(entry) {
                Ok(())
            } else {
                Err(Question::Space)
            }
        };
        for entry in me.table.0.iter() {
            enter(entry.sender, entry.sn, entry.tn)?;
        }
        for sender in (DESK..=job.chare_count()).filter(|&s| job.machine_of(s) != machine) {
            for m in self.log(sender).0.iter().filter(|m| m.receiver == chare) {
                if let Some(tn) = m.tn.filter(|&tn| tn > me.height) {
                    enter(sender, m.sn, tn)?;
                }
            }
        }
        let notes = self.backups[ix(machine)].notes.iter();
        for note in notes.filter(|n| n.receiver == chare && n.tn > me.height) {
            enter(note.sender, note.sn, note.tn)?;
        }
        Ok(table)
    }

    /// Restored messages to chares of the same machine are there again.
    fn fill_from_log(&mut self, job: &Job, sender: u8) {
        let machine = job.machine_of(sender);
        for at in 0..self.log(sender).0.len() {
            let m = self.log(sender).0[at];
            let to = &mut self.chares[ix(m.receiver)];
            let above = m.tn.is_some_and(|tn| tn > to.height);
            if above && job.machine_of(m.receiver) == machine {
                if let Some(found) = to.table.find(sender, m.sn) {
                    to.table.0[found].received = Some(m.body);
                }
            }
        }
    }

    /// The packets of a restart, by sender, receiver, SN.
    fn resends(&self, job: &Job, machine: u8) -> Resends {
        let mut resends = Resends::new();
        for sender in DESK..=job.chare_count() {
            let own = job.machine_of(sender) == machine;
            let mut log = self.log(sender).0.clone();
            log.sort_unstable_by_key(|m| (m.receiver, m.sn));
            for m in log.iter() {
                let inward = job.machine_of(m.receiver) == machine;
                if own == inward {
                    continue;
                }
                let (kind, content) = match m.tn {
                    None => (Kind::Ask, Content::Ask),
                    Some(tn) if inward && tn > self.chare(m.receiver).height => {
                        (Kind::Data, Content::data(m.body))
                    }
                    Some(_) => continue,
                };
                resends.push((Name::new(kind, sender, m.receiver, m.sn), content));
            }
        }
        resends
    }

    /// Ends the catching up of a machine that has caught up. Put after every accepted step.
    pub fn settle(&mut self, job: &Job) {
        let catching = |&phase: &Phase| phase == Phase::CatchingUp;
        let Some(at) = self.phases.iter().position(catching) else {
            return;
        };
        let machine = at as u8 + 1;
        let caught_up = job.chares_on(machine).all(|chare| {
            let me = self.chare(chare);
            me.height >= self.targets[ix(chare)] && !me.log.has_waiting()
        });
        if caught_up {
            self.phases[at] = Phase::Up;
            for chare in job.chares_on(machine) {
                self.targets[ix(chare)] = 0;
            }
        }
    }
}
