//! Inject and work: the steps that send messages.

use crate::answer::Question;
use crate::chare::worked_state;
use crate::job::{ix, Job};
use crate::limits::{DESK, LOG_SIZE, MAX_HOPS, MAX_NUMBER, MAX_PORTS, TABLE_SIZE, WIRE_SIZE};
use crate::list::List;
use crate::message::{Body, Logged};
use crate::seen::{Reply, Seen};
use crate::table::Entry;
use crate::wire::{Content, Kind, Name};
use crate::world::World;

/// How a message gets its ticket.
#[derive(Clone, Copy, Debug, Default, PartialEq)]
pub enum Route {
    /// From another machine: it must ask.
    #[default]
    Asks,
    /// Local, with an entry already in the table.
    Fills(usize),
    /// Local, with a new ticket.
    Takes(u16),
}

/// A send that a work is about to make.
#[derive(Clone, Copy, Debug, Default)]
pub struct Planned {
    pub receiver: u8,
    pub sn: u16,
    pub route: Route,
}

pub type Plan = List<Planned, MAX_PORTS>;

/// A message that is worked, its sends not yet made: what was before, and what is to be sent.
pub struct Begun {
    sender: u8,
    seen: Seen,
    state: u32,
    sent: Option<Body>,
}

impl World {
    pub fn inject(&mut self, chare: u8, body: Body) -> Result<(), Question> {
        debug_assert!(body.hops <= MAX_HOPS);
        let sn = self.desk.sent[ix(chare)] + 1;
        if sn > MAX_NUMBER {
            return Err(Question::Number);
        }
        if self.desk.log.0.is_full() {
            return Err(Question::LogSpace);
        }
        if self.wire.len() >= WIRE_SIZE {
            return Err(Question::WireSpace);
        }
        self.desk.sent[ix(chare)] = sn;
        self.desk.log.0.push(Logged {
            receiver: chare,
            sn,
            body,
            tn: None,
        });
        self.wire
            .push(Name::new(Kind::Ask, DESK, chare, sn), Content::Ask);
        Ok(())
    }

    pub fn work(&mut self, job: &Job, chare: u8) -> Result<(), Question> {
        if !self.is_up(job.machine_of(chare)) {
            return Err(Question::Up);
        }
        let begun = self.begin_work(chare)?;
        let Some(sent) = begun.sent else {
            return Ok(());
        };
        // The sends are judged with the message worked; if they cannot be made, it is not.
        let plan = self.plan(job, chare);
        if let Err(question) = self.judge(chare, &plan) {
            let me = &mut self.chares[ix(chare)];
            me.seen[begun.sender as usize] = begun.seen;
            me.state = begun.state;
            me.height -= 1;
            return Err(question);
        }
        for planned in plan.iter() {
            self.send(chare, planned, sent);
        }
        Ok(())
    }

    /// Works the next message, but for its sends. Its machine is up.
    pub fn begin_work(&mut self, chare: u8) -> Result<Begun, Question> {
        let me = &mut self.chares[ix(chare)];
        let next = me.height + 1;
        let (sender, sn, body) = match me.table.find_tn(next) {
            Some(&Entry {
                sender,
                sn,
                received: Some(body),
                noted: true,
                ..
            }) => (sender, sn, body),
            _ => return Err(Question::Present),
        };
        let seen = &mut me.seen[sender as usize];
        let (old_seen, old_state) = (*seen, me.state);
        seen.add(sn);
        me.height = next;
        me.state = worked_state(me.state, body.value);
        Ok(Begun {
            sender,
            seen: old_seen,
            state: old_state,
            sent: (body.hops > 0).then(|| Body {
                value: me.state as u16,
                hops: body.hops - 1,
            }),
        })
    }

    /// The sends of a chare to its ports, the second as if the first were made.
    pub fn plan(&self, job: &Job, chare: u8) -> Plan {
        let mut plan = Plan::new();
        let machine = job.machine_of(chare);
        for receiver in job.ports_of(chare) {
            if receiver == 0 {
                continue;
            }
            let first = plan.first().filter(|p| p.receiver == receiver);
            let sn = self.chare(chare).sent[ix(receiver)] + 1 + u16::from(first.is_some());
            let to = self.chare(receiver);
            let route = if job.machine_of(receiver) != machine {
                Route::Asks
            } else if let Some(at) = to.table.find(chare, sn) {
                Route::Fills(at)
            } else {
                let taken = match first {
                    Some(&Planned {
                        route: Route::Takes(tn),
                        ..
                    }) => Some(tn),
                    _ => None,
                };
                Route::Takes(to.next_ticket(taken))
            };
            plan.push(Planned {
                receiver,
                sn,
                route,
            });
        }
        plan
    }

    /// Questions 7 to 11, each put to all sends before the next.
    fn judge(&self, chare: u8, plan: &Plan) -> Result<(), Question> {
        let passes = |p: &Planned| {
            p.sn > MAX_NUMBER || matches!(p.route, Route::Takes(tn) if tn > MAX_NUMBER)
        };
        if plan.iter().any(passes) {
            return Err(Question::Number);
        }
        let takes = |p: &Planned| matches!(p.route, Route::Takes(_));
        let beyond = |p: &Planned| {
            let reply = self.chare(p.receiver).seen[chare as usize].look(p.sn);
            takes(p) && matches!(reply, Reply::Beyond(_))
        };
        if plan.iter().any(beyond) {
            return Err(Question::Window);
        }
        if self.chare(chare).log.0.len() + plan.len() > LOG_SIZE {
            return Err(Question::LogSpace);
        }
        for receiver in plan.iter().filter(|p| takes(p)).map(|p| p.receiver) {
            let new = plan.iter().filter(|p| takes(p) && p.receiver == receiver);
            if self.chare(receiver).table.0.len() + new.count() > TABLE_SIZE {
                return Err(Question::Space);
            }
        }
        let packets = plan.iter().filter(|p| !matches!(p.route, Route::Fills(_)));
        if self.wire.len() + packets.count() > WIRE_SIZE {
            return Err(Question::WireSpace);
        }
        Ok(())
    }

    /// Makes a send that was judged.
    fn send(&mut self, chare: u8, planned: &Planned, body: Body) {
        let Planned {
            receiver,
            sn,
            route,
        } = *planned;
        let to = &mut self.chares[ix(receiver)];
        let tn = match route {
            Route::Asks => {
                self.wire
                    .push(Name::new(Kind::Ask, chare, receiver, sn), Content::Ask);
                None
            }
            Route::Fills(at) => {
                let entry = &mut to.table.0[at];
                entry.received = Some(body);
                Some(entry.tn)
            }
            Route::Takes(tn) => {
                to.table.0.push(Entry {
                    sender: chare,
                    sn,
                    tn,
                    received: Some(body),
                    noted: false,
                });
                self.wire.push(
                    Name::new(Kind::Note, chare, receiver, sn),
                    Content::Note(tn),
                );
                Some(tn)
            }
        };
        let me = &mut self.chares[ix(chare)];
        me.sent[ix(receiver)] = sn;
        me.log.0.push(Logged {
            receiver,
            sn,
            body,
            tn,
        });
    }
}
