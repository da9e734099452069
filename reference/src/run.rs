//! The crash-free run: chares and ports, no machines.

use crate::chare::worked_state;
use crate::job::{ix, Job};
use crate::limits::{DESK, MAX_CHARES, MAX_PORTS, MAX_SENDERS};
use crate::message::{Body, Message};
use std::collections::BTreeMap;

/// An accepted injection.
#[derive(Clone, Copy, Debug, PartialEq, Eq)]
pub struct Injection {
    pub chare: u8,
    pub body: Body,
}

/// One entry of the list of works.
#[derive(Clone, Copy, Debug, PartialEq, Eq)]
pub struct Work {
    pub receiver: u8,
    pub sender: u8,
    pub sn: u16,
}

/// Sender, receiver, SN.
pub type Key = (u8, u8, u16);

#[derive(Clone, Debug, PartialEq, Eq)]
pub struct Run {
    ports: Vec<[u8; MAX_PORTS]>,
    pub states: Vec<u32>,
    /// The messages each chare has worked, in order.
    pub worked: Vec<Vec<Message>>,
    last_sn: [[u16; MAX_CHARES]; MAX_SENDERS],
    /// The messages sent and not worked.
    pub unworked: BTreeMap<Key, Body>,
}

impl Run {
    /// The run before anything is sent.
    pub fn new(job: &Job) -> Run {
        Run {
            ports: job.chares().map(|c| job.ports_of(c)).collect(),
            states: job.chares().map(u32::from).collect(),
            worked: vec![Vec::new(); job.chare_count() as usize],
            last_sn: Default::default(),
            unworked: BTreeMap::new(),
        }
    }

    /// The run that this list of works gives, if it gives one.
    pub fn play(job: &Job, injections: &[Injection], works: &[Work]) -> Option<Run> {
        let mut run = Run::new(job);
        for injection in injections {
            run.inject(injection);
        }
        for work in works {
            run.work(work)?;
        }
        Some(run)
    }

    fn send(&mut self, sender: u8, receiver: u8, body: Body) {
        let sn = &mut self.last_sn[sender as usize][ix(receiver)];
        *sn += 1;
        self.unworked.insert((sender, receiver, *sn), body);
    }

    /// One more injection. Desk and chares count their SNs apart, so an injection sent after some
    /// works leaves the same run as one sent before them.
    pub fn inject(&mut self, injection: &Injection) {
        self.send(DESK, injection.chare, injection.body);
    }

    /// Works a message, if it is sent and not worked.
    pub fn work(&mut self, work: &Work) -> Option<Message> {
        let &Work {
            receiver,
            sender,
            sn,
        } = work;
        let body = self.unworked.remove(&(sender, receiver, sn))?;
        let message = Message {
            sender,
            receiver,
            sn,
            body,
        };
        let at = ix(receiver);
        self.worked[at].push(message);
        let state = worked_state(self.states[at], body.value);
        self.states[at] = state;
        if body.hops > 0 {
            for port in self.ports[at].into_iter().filter(|&port| port != 0) {
                let sent = Body {
                    value: state as u16,
                    hops: body.hops - 1,
                };
                self.send(receiver, port, sent);
            }
        }
        Some(message)
    }

    /// Works on, in any order, until each chare has worked as many messages as its sequence has;
    /// the works go to `works`. Which chare comes first makes no difference: what a chare sends
    /// depends on its own sequence alone. Says the chare that cannot go on, if there is one.
    pub fn extend(&mut self, sequences: &[Vec<Message>], works: &mut Vec<Work>) -> Result<(), u8> {
        loop {
            let mut moved = false;
            let mut behind = None;
            for (at, sequence) in sequences.iter().enumerate() {
                while let Some(next) = sequence.get(self.worked[at].len()) {
                    let work = Work {
                        receiver: next.receiver,
                        sender: next.sender,
                        sn: next.sn,
                    };
                    if ix(next.receiver) != at || self.work(&work).is_none() {
                        behind = Some(at as u8 + 1);
                        break;
                    }
                    works.push(work);
                    moved = true;
                }
            }
            match behind {
                None => return Ok(()),
                Some(chare) if !moved => return Err(chare),
                Some(_) => {}
            }
        }
    }
}
