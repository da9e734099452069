//! What can be promised of a list, seen in the states before and after each frame.

use crate::answer::{Answer, Rule};
use crate::frame::{parse, Frame};
use crate::job::Job;
use crate::outlook::catching_up;
use crate::state::State;
use crate::wire::Kind;

/// Something that happens in a list.
#[derive(Clone, Copy, Debug, PartialEq, Eq)]
pub enum Promise {
    /// A crash with cover.
    Crash,
    Restart,
    /// A restart that leaves a hole.
    Hole,
    /// A crash without cover.
    Lost,
    /// An injection is taken back.
    Withdraw,
    /// A crash with cover takes a GRANT off the wire that a chare of that machine gave.
    GrantLost,
    /// A GRANT *old* arrives, and the message leaves its sender's log.
    Old,
    /// A crash without cover while another machine is catching up.
    LostCatchingUp,
}

impl Promise {
    pub const ALL: [Promise; 8] = [
        Promise::Crash,
        Promise::Restart,
        Promise::Hole,
        Promise::Lost,
        Promise::Withdraw,
        Promise::GrantLost,
        Promise::Old,
        Promise::LostCatchingUp,
    ];

    pub fn name(self) -> &'static str {
        match self {
            Promise::Crash => "crash",
            Promise::Restart => "restart",
            Promise::Hole => "hole",
            Promise::Lost => "ff",
            Promise::Withdraw => "withdraw",
            Promise::GrantLost => "grant-lost",
            Promise::Old => "old",
            Promise::LostCatchingUp => "ff-catching-up",
        }
    }

    /// Is the run lost where this happens?
    pub fn loses(self) -> bool {
        matches!(self, Promise::Lost | Promise::LostCatchingUp)
    }
}

/// What makes a list hard, the easiest first. A list of difficulty 1 has the first, one of difficulty 2 the first two, and so on.
pub const HARD: [Promise; 4] = [
    Promise::GrantLost,
    Promise::Hole,
    Promise::Old,
    Promise::LostCatchingUp,
];

/// Plays a line; says its answer and adds what happened to `seen`.
pub fn play(state: &mut State, line: &[u8], seen: &mut Vec<Promise>) -> Answer {
    let frame = parse(line);
    let found = match (frame, &state.job) {
        (Some(Frame::Crash { machine }), Some(job)) => Found::new(state, job, machine),
        _ => Found::default(),
    };
    let answer = state.line(line);
    match (frame, answer) {
        (Some(Frame::Crash { .. }), Answer::Accepted(_)) => {
            seen.push(Promise::Crash);
            seen.extend(found.grant.then_some(Promise::GrantLost));
        }
        (Some(Frame::Crash { .. }), Answer::Lost) => {
            seen.push(Promise::Lost);
            seen.extend(found.other_catching_up.then_some(Promise::LostCatchingUp));
        }
        (Some(Frame::Restart { machine }), Answer::Accepted(_)) => {
            seen.push(Promise::Restart);
            seen.extend(has_hole(state, machine).then_some(Promise::Hole));
        }
        (Some(Frame::Withdraw { .. }), Answer::Accepted(_)) => seen.push(Promise::Withdraw),
        (_, Answer::Accepted(Rule::GrantOld)) => seen.push(Promise::Old),
        _ => {}
    }
    answer
}

/// What a crash finds.
#[derive(Default)]
struct Found {
    /// A GRANT that a chare of the machine gave is on the wire.
    grant: bool,
    other_catching_up: bool,
}

impl Found {
    fn new(state: &State, job: &Job, machine: u8) -> Found {
        let names = state.world.wire.names();
        Found {
            grant: names
                .iter()
                .any(|n| n.kind() == Kind::Grant && job.machine_of(n.receiver()) == machine),
            other_catching_up: catching_up(&state.world).is_some_and(|other| other != machine),
        }
    }
}

fn has_hole(state: &State, machine: u8) -> bool {
    let mut chares = state.job.iter().flat_map(|job| job.chares_on(machine));
    chares.any(|chare| state.world.chare(chare).holes().next().is_some())
}
