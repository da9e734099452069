//! Which numbers of a frame are out of range.

use reference::frame::{Draft, Frame};
use reference::job::Job;
use reference::limits::{MAX_CHARES, MAX_HOPS, MAX_MACHINES, MAX_NUMBER, MIN_MACHINES};
use reference::wire::Kind;

/// The reasons for answer 3. No job is needed to judge a job.
pub fn reasons(job: Option<&Job>, frame: &Frame) -> Vec<String> {
    let mut wrong = Wrong {
        machines: job.map_or(0, Job::machine_count),
        chares: job.map_or(0, Job::chare_count),
        reasons: Vec::new(),
    };
    match *frame {
        Frame::Job(ref draft) => return of_job(draft),
        Frame::Inject { chare, hops, .. } => {
            wrong.chare(chare);
            wrong.number("hops", hops.into(), 0, MAX_HOPS.into());
        }
        Frame::Deliver(delivery) => {
            wrong.number("packet kind", delivery.kind.into(), 1, Kind::ALL.len());
            wrong.number("sender", delivery.sender.into(), 0, wrong.chares.into());
            wrong.number("receiver", delivery.receiver.into(), 1, wrong.chares.into());
            wrong.number("SN", delivery.sn.into(), 1, MAX_NUMBER.into());
        }
        Frame::Work { chare } | Frame::Show { chare } | Frame::Withdraw { chare } => {
            wrong.chare(chare);
        }
        Frame::Checkpoint { machine } | Frame::Crash { machine } | Frame::Restart { machine } => {
            wrong.number("machine", machine.into(), 1, wrong.machines.into());
        }
    }
    wrong.reasons
}

struct Wrong {
    machines: u8,
    chares: u8,
    reasons: Vec<String>,
}

impl Wrong {
    fn number(&mut self, what: &str, number: usize, least: usize, most: usize) {
        if !(least..=most).contains(&number) {
            self.reasons
                .push(format!("{what} {number} is not from {least} to {most}"));
        }
    }

    fn chare(&mut self, chare: u8) {
        self.number("chare", chare.into(), 1, self.chares.into());
    }
}

fn of_job(draft: &Draft) -> Vec<String> {
    let mut wrong = Wrong {
        machines: draft.machines,
        chares: draft.chares,
        reasons: Vec::new(),
    };
    wrong.number("M", draft.machines.into(), MIN_MACHINES, MAX_MACHINES);
    wrong.number("C", draft.chares.into(), 1, MAX_CHARES);
    if !wrong.reasons.is_empty() {
        return wrong.reasons;
    }
    for (machine, &buddy) in (1..=draft.machines).zip(&draft.buddies) {
        let what = format!("machine {machine}: buddy");
        wrong.number(&what, buddy.into(), 0, draft.machines.into());
        if buddy == machine {
            wrong
                .reasons
                .push(format!("machine {machine} is its own buddy"));
        }
    }
    for (chare, &[machine, one, two]) in (1..=draft.chares).zip(&draft.places) {
        let what = format!("chare {chare}: machine");
        wrong.number(&what, machine.into(), 1, draft.machines.into());
        for port in [one, two] {
            let what = format!("chare {chare}: port");
            wrong.number(&what, port.into(), 0, draft.chares.into());
        }
    }
    wrong.reasons
}
