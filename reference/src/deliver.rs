//! Deliveries, one function per kind of packet.

use crate::answer::{Question, Rule};
use crate::job::{ix, Job};
use crate::limits::MAX_NUMBER;
use crate::message::{Body, Lookup};
use crate::seen::Reply;
use crate::table::Entry;
use crate::wire::{Content, Kind, Name};
use crate::world::{destination, Note, World};

impl World {
    /// Delivers the oldest packet of this name, and says the rule that the state before it chose.
    pub fn deliver(&mut self, job: &Job, name: Name) -> Result<Rule, Question> {
        if !self.is_up(destination(job, name)) {
            return Err(Question::Up);
        }
        let Some(at) = self.wire.find(name) else {
            return Err(Question::Present);
        };
        // An answering packet takes the place that the delivered one leaves, so the wire never
        // refuses.
        let content = self.wire.content(at);
        let (rule, reply) = match content {
            Content::Ask => {
                let (rule, grant) = self.ask(name)?;
                (rule, Some((Kind::Grant, grant)))
            }
            Content::GrantOld | Content::GrantReceived(_) | Content::GrantNew(_) => {
                self.grant(name, content)
            }
            Content::Data { value, hops } => (self.data(name, Body { value, hops }), None),
            Content::Note(tn) => (Rule::Other, Some((Kind::Ack, self.note(job, name, tn)?))),
            Content::Ack => {
                self.ack(name);
                (Rule::Other, None)
            }
        };
        self.wire.remove(at);
        if let Some((kind, content)) = reply {
            self.wire.push(name.with_kind(kind), content);
        }
        Ok(rule)
    }

    /// The GRANT for a message, with a new ticket if it has none and is not worked.
    fn ask(&mut self, name: Name) -> Result<(Rule, Content), Question> {
        let (sender, sn) = (name.sender(), name.sn());
        let chare = &mut self.chares[ix(name.receiver())];
        if let Some(at) = chare.table.find(sender, sn) {
            let entry = &chare.table.0[at];
            let grant = match entry.received {
                Some(_) => Content::GrantReceived(entry.tn),
                None => Content::GrantNew(entry.tn),
            };
            return Ok((Rule::AskFound, grant));
        }
        let reply = chare.seen[sender as usize].look(sn);
        if reply == Reply::Worked {
            return Ok((Rule::AskWorked, Content::GrantOld));
        }
        let tn = chare.next_ticket(None);
        if tn > MAX_NUMBER {
            return Err(Question::Number);
        }
        if matches!(reply, Reply::Beyond(_)) {
            return Err(Question::Window);
        }
        // Noted from the start: the sender's log keeps this ticket.
        let entered = chare.table.0.push(Entry {
            sender,
            sn,
            tn,
            received: None,
            noted: true,
        });
        if !entered {
            return Err(Question::Space);
        }
        Ok((Rule::AskNew, Content::GrantNew(tn)))
    }

    fn grant(&mut self, name: Name, content: Content) -> (Rule, Option<(Kind, Content)>) {
        let log = self.log_mut(name.sender());
        let Lookup::Waiting(at) = log.look_up(name.receiver(), name.sn()) else {
            return (Rule::GrantDropped, None);
        };
        match content {
            Content::GrantReceived(tn) => {
                log.0[at].tn = Some(tn);
                (Rule::GrantReceived, None)
            }
            Content::GrantNew(tn) => {
                log.0[at].tn = Some(tn);
                let data = Content::data(log.0[at].body);
                (Rule::GrantNew, Some((Kind::Data, data)))
            }
            _ => {
                log.0.remove(at);
                (Rule::GrantOld, None)
            }
        }
    }

    fn data(&mut self, name: Name, body: Body) -> Rule {
        let table = &mut self.chares[ix(name.receiver())].table;
        match table.find(name.sender(), name.sn()) {
            Some(at) if table.0[at].received.is_none() => {
                table.0[at].received = Some(body);
                Rule::DataFilled
            }
            _ => Rule::DataDropped,
        }
    }

    fn note(&mut self, job: &Job, name: Name, tn: u16) -> Result<Content, Question> {
        let note = Note {
            sender: name.sender(),
            receiver: name.receiver(),
            sn: name.sn(),
            tn,
        };
        let notes = &mut self.backups[ix(job.machine_of(note.receiver))].notes;
        if !notes.contains(&note) && !notes.push(note) {
            return Err(Question::Space);
        }
        Ok(Content::Ack)
    }

    fn ack(&mut self, name: Name) {
        let table = &mut self.chares[ix(name.receiver())].table;
        if let Some(at) = table.find(name.sender(), name.sn()) {
            table.0[at].noted = true;
        }
    }
}
