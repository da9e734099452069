//! The words for a withdrawal, and why one is refused by question 12.

use super::crash::gone;
use super::Done;
use crate::names::{self, message, packet, short};
use reference::limits::DESK;
use reference::message::{Logged, Lookup};
use reference::wire::{Kind, Name};
use reference::withdraw::LastInjected;
use reference::world::World;

/// The message that an accepted withdrawal takes back.
pub fn taken_back(before: &World, chare: u8) -> Option<Logged> {
    match before.last_injected(chare).logged {
        Lookup::Waiting(at) => Some(before.desk.log.0[at]),
        Lookup::Missing | Lookup::Ticketed(_) => None,
    }
}

pub fn words(done: &Done, chare: u8) -> Vec<String> {
    let Some(Logged { sn, body, .. }) = taken_back(done.before, chare) else {
        return Vec::new();
    };
    let what = message(DESK, chare, sn);
    let mut lines = vec![format!(
        "Withdraw: the desk takes {what} ({}), its last message to chare {chare}, out of its log.",
        names::body(body)
    )];
    let asks = gone(done).into_iter();
    lines.extend(asks.map(|(name, content)| format!("{} leaves the wire.", packet(name, content))));
    lines.push(format!(
        "SN {sn} is free again: the next injection to chare {chare} takes it."
    ));
    lines
}

/// The first "no" of question 12, in the order log, ASK, table, and how it came to that: in every list it came in the same way.
pub fn reason(world: &World, chare: u8) -> String {
    let last = world.last_injected(chare);
    let LastInjected { sn, logged, .. } = last;
    if sn == 0 {
        return format!("the desk has sent no message to chare {chare}, or has withdrawn each");
    }
    let what = message(DESK, chare, sn);
    match logged {
        // No GRANT tells the desk "old", so only a checkpoint takes a message out of its log.
        Lookup::Missing => format!(
            "{what}, the last to chare {chare}, is no longer in the desk's log; \
                    it is worked, and a checkpoint dropped it"
        ),
        Lookup::Ticketed(at) => {
            let tn = world.desk.log.0[at].tn.unwrap_or_default();
            format!("{what}, the last to chare {chare}, has its ticket, TN {tn}, in the desk's log")
        }
        Lookup::Waiting(_) => not_free(last, chare),
    }
}

/// The log has the message without a TN, but its ASK or the table is in the way.
fn not_free(last: LastInjected, chare: u8) -> String {
    let what = message(DESK, chare, last.sn);
    let ask = short(Name::new(Kind::Ask, DESK, chare, last.sn));
    match (last.asks, last.ticket) {
        // A crash takes an ASK too, but then question 5 says no, and the restart asks again.
        (false, Some(tn)) => format!(
            "{ask} is no longer on the wire; \
                    it was delivered, and the table of chare {chare} has its ticket, TN {tn}"
        ),
        (false, None) => format!("{ask} is not on the wire"),
        // A crash took the GRANT of a ticket that the copy has.
        (true, Some(tn)) => format!(
            "the table of chare {chare} has a ticket for {what}, TN {tn} from the copy, \
                    though its ASK is on the wire again"
        ),
        // Then it would not be refused.
        (true, None) => String::new(),
    }
}
