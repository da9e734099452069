//! What happens in a list, found without the generator's own look at it.

use reference::answer::{Answer, Question, Rule};
use reference::chare::Chare;
use reference::frame::{parse, Frame};
use reference::state::State;
use reference::wire::{Kind, Name};
use reference::world::Phase;

/// What a list holds, seen by playing it.
#[derive(Default)]
pub struct Seen {
    pub frames: usize,
    pub machines: u8,
    pub chares: u8,
    pub crashes: usize,
    pub restarts: usize,
    pub holes: usize,
    pub lost: usize,
    pub lost_catching_up: usize,
    pub grants_lost: usize,
    pub old: usize,
    pub withdrawals: usize,
    pub garbled: usize,
    pub values: Vec<u16>,
    pub played: Vec<(Frame, Answer)>,
}

impl Seen {
    pub fn count(&self, name: &str) -> usize {
        match name {
            "crash" => self.crashes,
            "restart" => self.restarts,
            "hole" => self.holes,
            "ff" => self.lost,
            "ff-catching-up" => self.lost_catching_up,
            "grant-lost" => self.grants_lost,
            "old" => self.old,
            "withdraw" => self.withdrawals,
            other => panic!("{other}"),
        }
    }
}

/// The GRANTs on the wire that chares of a machine gave.
fn grants(state: &State, machine: u8) -> Vec<Name> {
    let job = state.job.as_ref().expect("a job");
    let names = state.world.wire.names().iter().copied();
    let given = |n: &Name| n.kind() == Kind::Grant && job.machine_of(n.receiver()) == machine;
    names.filter(given).collect()
}

pub fn seen(list: &[u8]) -> Seen {
    assert!(list.ends_with(b"\n"));
    let mut state = State::new();
    let mut seen = Seen::default();
    for line in list[..list.len() - 1].split(|&b| b == b'\n') {
        let before = state.clone();
        let answer = state.line(line);
        let accepted = answer.is_accepted();
        seen.frames += 1;
        seen.garbled += usize::from(matches!(
            answer,
            Answer::Refused(Question::Form | Question::Job | Question::Range)
        ));
        seen.old += usize::from(answer == Answer::Accepted(Rule::GrantOld));
        let Some(frame) = parse(line) else { continue };
        seen.played.push((frame, answer));
        match frame {
            Frame::Inject { value, .. } => seen.values.push(value),
            Frame::Crash { machine } if accepted => {
                seen.crashes += 1;
                let gone = grants(&before, machine).len() - grants(&state, machine).len();
                seen.grants_lost += gone;
            }
            Frame::Crash { machine } if answer == Answer::Lost => {
                seen.lost += 1;
                let phases = before.world.phases.iter().zip(1..);
                let mut catching = phases.filter(|(&phase, _)| phase == Phase::CatchingUp);
                let other = catching.any(|(_, number)| number != machine);
                seen.lost_catching_up += usize::from(other);
            }
            Frame::Withdraw { .. } => seen.withdrawals += usize::from(accepted),
            Frame::Restart { .. } if accepted => {
                seen.restarts += 1;
                let holes = |chare: &&Chare| chare.holes().count() > 0;
                seen.holes += state.world.chares.iter().filter(holes).count();
            }
            _ => {}
        }
    }
    let job = state.job.expect("a job");
    (seen.machines, seen.chares) = (job.machine_count(), job.chare_count());
    seen
}
