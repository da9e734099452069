//! From digits to words.

use super::raw;
use crate::lines::cut;
use crate::names;
use reference::frame::{parse, Draft, Frame};
use reference::limits::{MAX_CHARES, MAX_MACHINES};
use reference::wire::Kind;

/// A list of digits in words.
pub fn decode(input: &[u8]) -> String {
    let lines = cut(input).into_iter().flat_map(words);
    lines.map(|line| line + "\n").collect()
}

/// A line of digits in words; a job has a line for each chare too.
pub fn words(line: &[u8]) -> Vec<String> {
    match parse(line) {
        Some(frame) if fits(&frame) => spelt(&frame),
        _ => vec![as_it_stands(line)],
    }
}

/// A frame in one line.
pub fn one_line(frame: &Frame) -> String {
    match frame {
        Frame::Job(draft) if !fits(frame) => {
            format!("job {} machines, {} chares", draft.machines, draft.chares)
        }
        frame => spelt(frame).join("; "),
    }
}

/// Does the draft of a job keep all of it? What is larger is out of range by its counts, and stays digits.
fn fits(frame: &Frame) -> bool {
    match frame {
        Frame::Job(draft) => {
            usize::from(draft.machines) <= MAX_MACHINES && usize::from(draft.chares) <= MAX_CHARES
        }
        _ => true,
    }
}

fn as_it_stands(line: &[u8]) -> String {
    match line {
        [] => "raw".to_string(),
        line => format!("raw {}", raw::write(line)),
    }
}

fn job(draft: &Draft) -> Vec<String> {
    let mut first = format!("job {} machines", draft.machines);
    let buddies = &draft.buddies[..draft.machines.into()];
    if buddies.iter().any(|&buddy| buddy != 0) {
        let buddies: Vec<String> = buddies.iter().map(u8::to_string).collect();
        first.push_str(&format!(", buddies {}", buddies.join(" ")));
    }
    let places = (1..=draft.chares).zip(&draft.places);
    let chares = places.map(|(chare, &[machine, one, two])| {
        let ports = match [one, two] {
            [0, 0] => String::new(),
            [one, 0] => format!(" to {one}"),
            [one, two] => format!(" to {one} {two}"),
        };
        format!("chare {chare} on {machine}{ports}")
    });
    [first].into_iter().chain(chares).collect()
}

fn spelt(frame: &Frame) -> Vec<String> {
    let line = match *frame {
        Frame::Job(ref draft) => return job(draft),
        Frame::Inject { chare, value, hops } => format!("inject {chare} value {value} hops {hops}"),
        Frame::Deliver(delivery) => {
            let kind = match Kind::from_byte(delivery.kind) {
                Some(kind) => names::kind(kind).to_string(),
                None => delivery.kind.to_string(),
            };
            format!(
                "deliver {kind} {}>{} #{}",
                delivery.sender, delivery.receiver, delivery.sn
            )
        }
        Frame::Work { chare } => format!("work {chare}"),
        Frame::Checkpoint { machine } => format!("checkpoint {machine}"),
        Frame::Crash { machine } => format!("crash {machine}"),
        Frame::Restart { machine } => format!("restart {machine}"),
        Frame::Show { chare } => format!("show {chare}"),
        Frame::Withdraw { chare } => format!("withdraw {chare}"),
    };
    vec![line]
}
