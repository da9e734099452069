//! SNs that the desk gives a second time, after a withdrawal.

use crate::limits::DESK;
use crate::message::{Body, Message};
use std::collections::BTreeMap;

/// Follows the desk's numbers in one list.
#[derive(Clone, Debug, Default)]
pub struct Reuse {
    numbers: BTreeMap<(u8, u16), Given>,
}

/// An SN of the desk's to one chare that is not worked yet.
#[derive(Clone, Debug)]
struct Given {
    body: Body,
    /// Before this body the SN had another one.
    again: bool,
}

impl Reuse {
    /// The desk gives this SN; says whether it had another body before.
    pub fn injected(&mut self, chare: u8, sn: u16, body: Body) -> bool {
        let before = self.numbers.get(&(chare, sn));
        let again = before.is_some_and(|given| given.again || given.body != body);
        self.numbers.insert((chare, sn), Given { body, again });
        again
    }

    /// A message is worked; says whether its SN is one of a second body, worked for the first time.
    pub fn worked(&mut self, message: &Message) -> bool {
        let key = (message.receiver, message.sn);
        let given = (message.sender == DESK).then(|| self.numbers.remove(&key));
        given.flatten().is_some_and(|given| given.again)
    }
}
