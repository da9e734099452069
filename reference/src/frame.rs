//! Reading a frame from a line of hexadecimal digits.

use crate::limits::{MAX_CHARES, MAX_MACHINES};
use crate::wire::{Kind, Name};

/// A well-formed frame; its numbers may still be out of range.
#[derive(Clone, Copy, Debug, PartialEq, Eq)]
pub enum Frame {
    Job(Draft),
    Inject { chare: u8, value: u16, hops: u8 },
    Deliver(Delivery),
    Work { chare: u8 },
    Checkpoint { machine: u8 },
    Crash { machine: u8 },
    Restart { machine: u8 },
    Show { chare: u8 },
    Withdraw { chare: u8 },
}

/// By these numbers a delivery names its packet.
#[derive(Clone, Copy, Debug, PartialEq, Eq)]
pub struct Delivery {
    pub kind: u8,
    pub sender: u8,
    pub receiver: u8,
    pub sn: u16,
}

impl Delivery {
    /// The packet's name; none if there is no such kind. The other numbers must be in range.
    pub fn name(self) -> Option<Name> {
        let kind = Kind::from_byte(self.kind)?;
        Some(Name::new(kind, self.sender, self.receiver, self.sn))
    }
}

impl From<Name> for Frame {
    /// The frame that delivers a packet.
    fn from(name: Name) -> Frame {
        Frame::Deliver(Delivery {
            kind: name.kind() as u8,
            sender: name.sender(),
            receiver: name.receiver(),
            sn: name.sn(),
        })
    }
}

/// A job as its frame gives it. What lies beyond six machines or twelve chares is not kept: such a
/// job is out of range by its counts alone.
#[derive(Clone, Copy, Debug, Default, PartialEq, Eq)]
pub struct Draft {
    pub machines: u8,
    pub chares: u8,
    pub buddies: [u8; MAX_MACHINES],
    /// Machine, port, port of each chare.
    pub places: [[u8; 3]; MAX_CHARES],
}

const JOB: u8 = 0x01;
const LONGEST_SHORT: usize = 6;

/// The least length of each kind in bytes, 0 for an unknown kind. Only a job may be longer.
pub const LEAST_LENGTH: [usize; 0x18] = {
    let mut least = [0; 0x18];
    least[0x01] = 3;
    least[0x10] = 5;
    least[0x11] = LONGEST_SHORT;
    least[0x12] = 2;
    least[0x13] = 2;
    least[0x14] = 2;
    least[0x15] = 2;
    least[0x16] = 2;
    least[0x17] = 2;
    least
};

/// The digits of the longest frame, a job with counts of 255. A longer line is no frame.
pub const LONGEST_LINE: usize = 2 * (3 + 255 + 3 * 255);

const NO_DIGIT: u8 = 0xFF;

const DIGITS: [u8; 256] = {
    let mut digits = [NO_DIGIT; 256];
    let mut n = 0;
    while n < 16 {
        digits[b"0123456789ABCDEF"[n] as usize] = n as u8;
        digits[b"0123456789abcdef"[n] as usize] = n as u8;
        n += 1;
    }
    digits
};

fn byte(pair: &[u8]) -> Option<u8> {
    let (high, low) = (DIGITS[pair[0] as usize], DIGITS[pair[1] as usize]);
    ((high | low) & 0xF0 == 0).then_some(high << 4 | low)
}

/// The frame of a line (without its newline), if it is one.
pub fn parse(line: &[u8]) -> Option<Frame> {
    if line.len() < 4 || !line.len().is_multiple_of(2) {
        return None;
    }
    let kind = byte(line)?;
    let least = *LEAST_LENGTH.get(kind as usize)?;
    if least == 0 || line.len() < 2 * least {
        return None;
    }
    if kind == JOB {
        return parse_job(line).map(Frame::Job);
    }
    if line.len() != 2 * least {
        return None;
    }
    // All digits first, then one look whether each was one.
    let mut b = [0; LONGEST_SHORT];
    let mut all = 0;
    for (to, pair) in b.iter_mut().zip(line.chunks_exact(2)) {
        let (high, low) = (DIGITS[pair[0] as usize], DIGITS[pair[1] as usize]);
        *to = high << 4 | low;
        all |= high | low;
    }
    if all & 0xF0 != 0 {
        return None;
    }
    Some(match kind {
        0x10 => Frame::Inject {
            chare: b[1],
            value: u16::from_be_bytes([b[2], b[3]]),
            hops: b[4],
        },
        0x11 => Frame::Deliver(Delivery {
            kind: b[1],
            sender: b[2],
            receiver: b[3],
            sn: u16::from_be_bytes([b[4], b[5]]),
        }),
        0x12 => Frame::Work { chare: b[1] },
        0x13 => Frame::Checkpoint { machine: b[1] },
        0x14 => Frame::Crash { machine: b[1] },
        0x15 => Frame::Restart { machine: b[1] },
        0x16 => Frame::Show { chare: b[1] },
        _ => Frame::Withdraw { chare: b[1] },
    })
}

fn parse_job(line: &[u8]) -> Option<Draft> {
    let (machines, chares) = (byte(&line[2..])?, byte(&line[4..])?);
    let (m, c) = (machines as usize, chares as usize);
    if line.len() != 2 * (3 + m + 3 * c) {
        return None;
    }
    let mut draft = Draft {
        machines,
        chares,
        ..Draft::default()
    };
    let (buddies, places) = line[6..].split_at(2 * m);
    // Every digit is looked at, also where nothing is kept.
    for (i, pair) in buddies.chunks_exact(2).enumerate() {
        let buddy = byte(pair)?;
        if let Some(to) = draft.buddies.get_mut(i) {
            *to = buddy;
        }
    }
    for (i, pair) in places.chunks_exact(2).enumerate() {
        let number = byte(pair)?;
        if let Some(place) = draft.places.get_mut(i / 3) {
            place[i % 3] = number;
        }
    }
    Some(draft)
}
