//! Lines that are no frames, and frames that are out of range or blind.

use crate::encode::{bytes, put_digits};
use crate::frame::{Delivery, Frame, LEAST_LENGTH};
use crate::layout::{random_job, Layout};
use crate::limits::MAX_NUMBER;
use crate::rng::Rng;
use crate::wire::Kind;

/// A garbled line, without its newline.
pub fn put_garbled(rng: &mut Rng, out: &mut Vec<u8>) {
    let start = out.len();
    let frame = blind_frame(rng, 6, 12);
    put_digits(out, &bytes(&frame));
    let at = start + rng.below(out.len() - start);
    match rng.below(13) {
        0 => out.truncate(start),
        1 => out.truncate(out.len() - 1),
        2 => out.truncate(out.len() - 2),
        3 => out.push(b'0'),
        4 => out.extend_from_slice(b"00"),
        5 => out.push(b'\r'),
        6 => out.insert(at, b' '),
        7 => out[at] = *rng.pick(b"ghGxZ:@`/- \r\t\0\x7f\xff"),
        8 => {
            // Any byte but a newline, which would end the line.
            out[at] = match rng.byte() {
                b'\n' => b'g',
                byte => byte,
            }
        }
        9 => {
            // Some kind, mostly an unknown one; often the first behind those that are known.
            out.truncate(start);
            let first_unknown = LEAST_LENGTH.len() as u8;
            let kind = match rng.below(3) {
                0 => first_unknown,
                _ => rng.byte(),
            };
            put_digits(out, &[kind, 1, 1, 0, 1, 1][..rng.between(1, 6)]);
        }
        10 => {
            // A job cut short or with a byte too many.
            out.truncate(start);
            let mut job = bytes(&Frame::Job(random_job(rng, Layout::Any)));
            if rng.one_in(2) {
                job.push(rng.below(3) as u8);
            } else {
                job.truncate(rng.between(1, job.len() - 1));
            }
            put_digits(out, &job);
        }
        11 => {
            // Around the longest line, and far beyond it.
            out.truncate(start);
            let len = match rng.below(4) {
                0 => rng.between(2040, 2052),
                1 => rng.between(2047, 6000),
                _ => rng.between(20, 200),
            };
            let digit = *rng.pick(b"01fF");
            out.resize(start + len, digit);
        }
        _ => {
            for _ in 0..rng.below(20) {
                let byte = rng.byte();
                out.push(if byte == b'\n' { b'0' } else { byte });
            }
        }
    }
}

/// A job that has the right length and a number out of range.
pub fn bad_job(rng: &mut Rng) -> Vec<u8> {
    let mut draft = random_job(rng, Layout::Any);
    let (m, c) = (draft.machines as usize, draft.chares as usize);
    match rng.below(6) {
        0 => {
            let at = rng.below(m);
            draft.buddies[at] = at as u8 + 1;
        }
        1 => draft.buddies[rng.below(m)] = draft.machines + 1,
        2 => draft.places[rng.below(c)][0] = 0,
        3 => draft.places[rng.below(c)][0] = draft.machines + 1,
        4 => draft.places[rng.below(c)][rng.between(1, 2)] = draft.chares + 1,
        _ => {
            // Counts out of range, with as many bytes as they ask for.
            let m = *rng.pick(&[0, 1, 7, 255]);
            let c = *rng.pick(&[0, 1, 12, 13, 255]);
            let mut bytes = vec![0x01, m, c];
            bytes.resize(3 + m as usize + 3 * c as usize, 1);
            return bytes;
        }
    }
    bytes(&Frame::Job(draft))
}

/// A well-formed frame chosen without a look at the state; now and then out of range.
pub fn blind_frame(rng: &mut Rng, machines: u8, chares: u8) -> Frame {
    let number = |rng: &mut Rng, most: u8| match rng.below(16) {
        0 => 0,
        1 => most + 1,
        2 => rng.byte(),
        _ => rng.between(1, most as usize) as u8,
    };
    let chare = number(rng, chares);
    let machine = number(rng, machines);
    match rng.below(17) {
        0..=1 => Frame::Inject {
            chare,
            value: rng.next() as u16,
            hops: rng.below(9) as u8,
        },
        2..=6 => {
            let kind = match rng.below(16) {
                0 => 0,
                1 => 6,
                _ => *rng.pick(&Kind::ALL) as u8,
            };
            let sn = match rng.below(16) {
                0 => 0,
                1 => *rng.pick(&[MAX_NUMBER, MAX_NUMBER + 1, u16::MAX]),
                _ => rng.between(1, 20) as u16,
            };
            let sender = rng.below(chares as usize + 2) as u8;
            Frame::Deliver(Delivery {
                kind,
                sender,
                receiver: chare,
                sn,
            })
        }
        7..=10 => Frame::Work { chare },
        11 => Frame::Checkpoint { machine },
        12 => Frame::Crash { machine },
        13 => Frame::Restart { machine },
        14 => Frame::Job(random_job(rng, Layout::Any)),
        15 => Frame::Show { chare },
        _ => Frame::Withdraw { chare },
    }
}
