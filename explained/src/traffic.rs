//! What a frame did to the wire.

use reference::frame::Frame;
use reference::job::Job;
use reference::wire::{Content, Name, Wire};
use reference::world::destination;

pub type Packet = (Name, Content);

/// The change from one wire to the next. Places are those on the wire before the frame.
#[derive(Debug, Default, PartialEq, Eq)]
pub struct Change {
    /// The packet that was delivered.
    pub taken: Option<usize>,
    /// Packets that a crash, a restart or a withdrawal took off the wire.
    pub gone: Vec<usize>,
    /// Packets that went out, in order.
    pub sent: Vec<Packet>,
}

impl Change {
    pub fn is_kept(&self, at: usize) -> bool {
        self.taken != Some(at) && !self.gone.contains(&at)
    }
}

/// The packet that a delivery names, once its numbers are in range.
pub fn named(frame: &Frame) -> Option<Name> {
    match *frame {
        Frame::Deliver(delivery) => delivery.name(),
        _ => None,
    }
}

/// The change that an accepted frame made.
pub fn change(job: &Job, frame: &Frame, before: &Wire, after: &Wire) -> Change {
    let mut change = Change::default();
    match *frame {
        Frame::Deliver(_) => change.taken = named(frame).and_then(|name| before.find(name)),
        // These send nothing, so what is not found again in its order is gone.
        Frame::Crash { .. } | Frame::Withdraw { .. } => {
            let mut kept = after.packets().peekable();
            for (at, packet) in before.packets().enumerate() {
                if kept.next_if_eq(&packet).is_none() {
                    change.gone.push(at);
                }
            }
        }
        // A restart may send what it has just taken off, so here the rule decides.
        Frame::Restart { machine } => {
            let names = before.names().iter().enumerate();
            let gone = names.filter(|&(_, &name)| destination(job, name) == machine);
            change.gone = gone.map(|(at, _)| at).collect();
        }
        _ => {}
    }
    let kept = (0..before.len()).filter(|&at| change.is_kept(at)).count();
    change.sent = after.packets().skip(kept).collect();
    change
}

#[cfg(test)]
mod tests {
    use super::*;
    use crate::lines::cut;
    use reference::frame::parse;
    use reference::generator::list;
    use reference::state::State;

    /// Kept and sent packets together are the wire afterwards.
    #[test]
    fn nothing_else_changes() {
        for seed in 0..40 {
            let mut state = State::new();
            for line in cut(&list(seed, 600)) {
                let before = state.clone();
                let accepted = state.line(line).is_accepted();
                let (Some(frame), Some(job)) = (parse(line), &state.job) else {
                    continue;
                };
                if !accepted {
                    continue;
                }
                let change = change(job, &frame, &before.world.wire, &state.world.wire);
                let kept = before.world.wire.packets().enumerate();
                let kept = kept.filter(|&(at, _)| change.is_kept(at)).map(|(_, p)| p);
                let whole: Vec<Packet> = kept.chain(change.sent.iter().copied()).collect();
                let now: Vec<Packet> = state.world.wire.packets().collect();
                assert_eq!(whole, now, "seed {seed}: {frame:?}");
            }
        }
    }
}
