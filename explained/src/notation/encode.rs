//! From the words of a line to its frame.

use super::scan::{indent, Scan};
use super::{raw, Error};
use crate::names;
use reference::encode::put_digits;
use reference::frame::{Delivery, Draft, Frame};
use reference::limits::{MAX_CHARES, MAX_MACHINES};
use reference::wire::Kind;

/// A frame of one line; its first word, a known one, is taken.
pub fn frame(word: &str, scan: &mut Scan) -> Result<Frame, Error> {
    let chare = |scan: &mut Scan| scan.byte("a chare");
    let machine = |scan: &mut Scan| scan.byte("a machine");
    let frame = match word {
        "inject" => inject(scan)?,
        "deliver" => deliver(scan)?,
        "work" => Frame::Work {
            chare: chare(scan)?,
        },
        "checkpoint" => Frame::Checkpoint {
            machine: machine(scan)?,
        },
        "crash" => Frame::Crash {
            machine: machine(scan)?,
        },
        "restart" => Frame::Restart {
            machine: machine(scan)?,
        },
        "show" => Frame::Show {
            chare: chare(scan)?,
        },
        "withdraw" => Frame::Withdraw {
            chare: chare(scan)?,
        },
        other => return Err(scan.wrong(format!("\"{other}\" begins no frame"))),
    };
    scan.end()?;
    Ok(frame)
}

fn inject(scan: &mut Scan) -> Result<Frame, Error> {
    let chare = scan.byte("a chare")?;
    scan.must(&["value"])?;
    let value = scan.number("a value", u16::MAX)?;
    scan.must(&["hops"])?;
    let hops = scan.byte("hops")?;
    Ok(Frame::Inject { chare, value, hops })
}

const KINDS: &str = "ASK, GRANT, DATA, NOTE or ACK, or a kind's number";

fn deliver(scan: &mut Scan) -> Result<Frame, Error> {
    let named = Kind::ALL
        .into_iter()
        .find(|&kind| scan.take(&[names::kind(kind)]));
    let kind = match (named, scan.meant(&Kind::ALL.map(names::kind))) {
        (Some(kind), _) => kind as u8,
        (None, Some(_)) => return Err(scan.expected_one_of(KINDS, &Kind::ALL.map(names::kind))),
        (None, None) => scan.byte(KINDS)?,
    };
    let sender = scan.byte("a sender")?;
    scan.must(&[">", "→"])?;
    let receiver = scan.byte("a receiver")?;
    let sn = scan.signed('#', "# and an SN without a blank", u16::MAX)?;
    Ok(Frame::Deliver(Delivery {
        kind,
        sender,
        receiver,
        sn,
    }))
}

/// The line of a job, without its chares.
pub fn draft(scan: &mut Scan) -> Result<Draft, Error> {
    let mut draft = Draft {
        machines: scan.byte("how many machines")?,
        ..Draft::default()
    };
    if usize::from(draft.machines) > MAX_MACHINES {
        return Err(scan.wrong(format!(
            "a job in words has at most {MAX_MACHINES} machines"
        )));
    }
    scan.must(&["machines", "machine"])?;
    if scan.take(&["buddies", "buddy"]) {
        for (at, buddy) in draft
            .buddies
            .iter_mut()
            .take(draft.machines.into())
            .enumerate()
        {
            *buddy = scan.byte(&format!(
                "the buddy of machine {} (0: the machine before)",
                at + 1
            ))?;
        }
    }
    scan.end_or(&["buddies"])?;
    Ok(draft)
}

/// A chare under the line of its job. Whatever is wrong with the line, it counts for those that follow.
pub fn put_chare(draft: &mut Draft, scan: &mut Scan) -> Result<(), Error> {
    let next = draft.chares + 1;
    if usize::from(next) > MAX_CHARES {
        return Err(scan.wrong(format!("a job has at most {MAX_CHARES} chares")));
    }
    draft.chares = next;
    let number = scan.byte(&format!("chare {next}"))?;
    if number != next {
        draft.chares = number.min(MAX_CHARES as u8);
        return Err(scan.wrong(format!(
            "expected chare {next}: the chares of a job stand in order"
        )));
    }
    scan.must(&["on"])?;
    let mut place = [scan.byte("a machine")?, 0, 0];
    if scan.take(&["to"]) {
        place[1] = scan.byte("a chare to write to")?;
        if !scan.is_done() {
            place[2] = scan.byte("a second chare to write to")?;
        }
    }
    scan.end()?;
    draft.places[usize::from(next) - 1] = place;
    Ok(())
}

/// Everything after `raw` and one blank, as it stands.
pub fn raw_line(number: usize, line: &[u8]) -> Result<Vec<u8>, Error> {
    let start = indent(&String::from_utf8_lossy(line)) + "raw".len();
    let error = |at: usize, message: &str| Error {
        line: number,
        column: String::from_utf8_lossy(&line[..at]).chars().count() + 1,
        message: message.to_string(),
    };
    let text = match line.get(start) {
        None => &[],
        Some(b' ' | b'\t') => &line[start + 1..],
        Some(_) => return Err(error(start, "expected a blank after \"raw\"")),
    };
    let escape = "expected \\\\ or \\x and two hexadecimal digits, not those of a newline";
    raw::read(text).map_err(|at| error(start + 1 + at, escape))
}

/// The digits of a frame, in capitals.
pub fn digits(frame: &Frame) -> String {
    let mut out = Vec::new();
    put_digits(&mut out, &reference::encode::bytes(frame));
    String::from_utf8_lossy(&out).into_owned()
}
