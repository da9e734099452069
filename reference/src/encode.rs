//! Writing a frame as a line of hexadecimal digits.

use crate::frame::{Draft, Frame};

/// The bytes of a frame. A job's counts must not pass what a draft keeps.
pub fn bytes(frame: &Frame) -> Vec<u8> {
    match *frame {
        Frame::Job(ref draft) => job_bytes(draft),
        Frame::Inject { chare, value, hops } => {
            let [high, low] = value.to_be_bytes();
            vec![0x10, chare, high, low, hops]
        }
        Frame::Deliver(d) => {
            let [high, low] = d.sn.to_be_bytes();
            vec![0x11, d.kind, d.sender, d.receiver, high, low]
        }
        Frame::Work { chare } => vec![0x12, chare],
        Frame::Checkpoint { machine } => vec![0x13, machine],
        Frame::Crash { machine } => vec![0x14, machine],
        Frame::Restart { machine } => vec![0x15, machine],
        Frame::Show { chare } => vec![0x16, chare],
        Frame::Withdraw { chare } => vec![0x17, chare],
    }
}

fn job_bytes(draft: &Draft) -> Vec<u8> {
    let (m, c) = (draft.machines as usize, draft.chares as usize);
    let mut bytes = vec![0x01, draft.machines, draft.chares];
    bytes.extend_from_slice(&draft.buddies[..m]);
    bytes.extend(draft.places[..c].iter().flatten());
    bytes
}

/// Adds the digits of some bytes, in capitals.
pub fn put_digits(out: &mut Vec<u8>, bytes: &[u8]) {
    const HEX: &[u8; 16] = b"0123456789ABCDEF";
    for &byte in bytes {
        out.push(HEX[(byte >> 4) as usize]);
        out.push(HEX[(byte & 15) as usize]);
    }
}

/// Adds a frame as a line, newline included.
pub fn put_line(out: &mut Vec<u8>, frame: &Frame) {
    put_digits(out, &bytes(frame));
    out.push(b'\n');
}
