//! Random jobs.

use crate::frame::Draft;
use crate::rng::Rng;

/// What kind of job a list asks for.
#[derive(Clone, Copy, Debug, PartialEq, Eq)]
pub enum Layout {
    /// Anything at all.
    Any,
    /// Few machines and chares.
    Narrow,
    /// Many chares that write to other machines.
    Wide,
    /// Most chares on one machine, writing to each other.
    Crowded,
}

/// To whom chares write.
#[derive(Clone, Copy)]
enum Ports {
    Anyone,
    Local,
    Remote,
    Ring,
    Own,
    Nobody,
}

pub fn random_job(rng: &mut Rng, layout: Layout) -> Draft {
    sized_job(rng, layout, None, None)
}

/// A random job with so many machines and chares, where they are given.
pub fn sized_job(
    rng: &mut Rng,
    layout: Layout,
    machines: Option<usize>,
    chares: Option<usize>,
) -> Draft {
    let (any_machines, any_chares) = match layout {
        Layout::Any => (rng.between(2, 6), rng.between(1, 12)),
        Layout::Narrow => (rng.between(2, 3), rng.between(1, 4)),
        Layout::Wide => (rng.between(3, 6), rng.between(10, 12)),
        Layout::Crowded => (rng.between(2, 4), rng.between(8, 12)),
    };
    let (machines, chares) = (
        machines.unwrap_or(any_machines),
        chares.unwrap_or(any_chares),
    );
    let mut draft = Draft {
        machines: machines as u8,
        chares: chares as u8,
        ..Draft::default()
    };
    put_buddies(rng, &mut draft);
    let crowd = rng.between(1, machines) as u8;
    for place in &mut draft.places[..chares] {
        let crowded = layout == Layout::Crowded && !rng.one_in(8);
        place[0] = if crowded {
            crowd
        } else {
            rng.between(1, machines) as u8
        };
    }
    let main = match layout {
        Layout::Wide => *rng.pick(&[Ports::Remote, Ports::Remote, Ports::Anyone]),
        Layout::Crowded => *rng.pick(&[Ports::Local, Ports::Local, Ports::Anyone]),
        _ => *rng.pick(&[
            Ports::Anyone,
            Ports::Anyone,
            Ports::Local,
            Ports::Remote,
            Ports::Ring,
            Ports::Own,
            Ports::Nobody,
        ]),
    };
    let mixed = rng.one_in(3);
    for chare in 1..=chares as u8 {
        for port in 1..=2 {
            let ports = if mixed && rng.one_in(3) {
                Ports::Anyone
            } else {
                main
            };
            draft.places[chare as usize - 1][port] = random_port(rng, &draft, chare, ports);
        }
    }
    draft
}

/// Rings, pairs, one buddy for all, and anything else that is allowed.
fn put_buddies(rng: &mut Rng, draft: &mut Draft) {
    let machines = draft.machines as usize;
    let style = rng.below(5);
    let star = rng.between(1, machines) as u8;
    for at in 0..machines {
        let machine = at as u8 + 1;
        let other = |rng: &mut Rng| {
            let pick = rng.between(1, machines - 1) as u8;
            pick + u8::from(pick >= machine)
        };
        let pair = (at ^ 1) as u8 + 1;
        draft.buddies[at] = match style {
            0 => 0,
            1 if star != machine => star,
            2 if pair as usize <= machines => pair,
            3 if rng.one_in(2) => 0,
            _ => other(rng),
        };
    }
}

fn random_port(rng: &mut Rng, draft: &Draft, chare: u8, ports: Ports) -> u8 {
    let machine = |c: u8| draft.places[c as usize - 1][0];
    let all = || 1..=draft.chares;
    let choice: Vec<u8> = match ports {
        _ if rng.one_in(10) => vec![0],
        Ports::Nobody => vec![0],
        Ports::Own => vec![chare],
        Ports::Ring => vec![chare % draft.chares + 1],
        Ports::Anyone => all().collect(),
        Ports::Local => all().filter(|&c| machine(c) == machine(chare)).collect(),
        Ports::Remote => all().filter(|&c| machine(c) != machine(chare)).collect(),
    };
    match choice[..] {
        [] => rng.between(0, draft.chares as usize) as u8,
        _ => *rng.pick(&choice),
    }
}
