//! Random inputs for the count of crash sets: most first lines are no acceptable job, most have more behind them.

use crate::encode::{bytes, put_digits};
use crate::frame::Frame;
use crate::junk::{bad_job, blind_frame, put_garbled};
use crate::layout::{random_job, Layout};
use crate::limits::{MAX_CHARES, MAX_MACHINES};
use crate::rng::Rng;

pub fn random_input(rng: &mut Rng) -> Vec<u8> {
    let mut input = Vec::new();
    match rng.below(8) {
        0 => put_garbled(rng, &mut input),
        1 => put_digits(&mut input, &bad_job(rng)),
        2 => put_blind(rng, &mut input),
        3 => put_job(rng, &mut input),
        _ => {
            put_job(rng, &mut input);
            slip(rng, &mut input);
        }
    }
    if rng.one_in(4) {
        input.make_ascii_lowercase();
    }
    put_rest(rng, &mut input);
    input
}

fn put_job(rng: &mut Rng, out: &mut Vec<u8>) {
    let job = Frame::Job(random_job(rng, Layout::Any));
    put_digits(out, &bytes(&job));
}

/// A well-formed frame, mostly of another kind.
fn put_blind(rng: &mut Rng, out: &mut Vec<u8>) {
    let frame = blind_frame(rng, MAX_MACHINES as u8, MAX_CHARES as u8);
    put_digits(out, &bytes(&frame));
}

/// Spoils a line of digits in one place. Sometimes it stays a job, perhaps an acceptable one.
fn slip(rng: &mut Rng, line: &mut Vec<u8>) {
    const DIGITS: &[u8] = b"0123456789ABCDEF";
    let at = rng.below(line.len());
    match rng.below(8) {
        0 => line[at] = *rng.pick(DIGITS),
        // Small numbers are in range more often.
        1 => line[at] = *rng.pick(&DIGITS[..8]),
        // The kind or a count, so that the length does not fit.
        2 => line[rng.below(6)] = *rng.pick(DIGITS),
        3 => line[at] = *rng.pick(b"gGoOlIxX+-. \r\t\0\x0b\x80\xff"),
        4 => line.truncate(at),
        5 => {
            line.remove(at);
        }
        6 => line.insert(at, *rng.pick(b"0123 \r\t")),
        _ => {
            for _ in 0..rng.between(1, 8) {
                line.push(*rng.pick(b"00001122 \r"));
            }
        }
    }
}

/// What stands behind the first line must not matter.
fn put_rest(rng: &mut Rng, out: &mut Vec<u8>) {
    if rng.one_in(6) {
        return;
    }
    out.push(b'\n');
    for _ in 0..rng.below(4) {
        match rng.below(4) {
            0 => put_job(rng, out),
            1 => put_blind(rng, out),
            2 => put_garbled(rng, out),
            _ => {}
        }
        if !rng.one_in(4) {
            out.push(b'\n');
        }
    }
}

/// Jobs of which every slip is tried: the shortest, one with buddies and ports spelt out, and one with six machines.
pub const SLIPPED: [&str; 3] = [
    "0102010000010000",
    "010302000301020102030000",
    "010601000104030005010000",
];

/// A line with one byte changed into any other, taken out, or put in.
pub fn every_slip(line: &[u8]) -> impl Iterator<Item = Vec<u8>> + '_ {
    let with = |at: usize, end: usize, new: &[u8]| [&line[..at], new, &line[end..]].concat();
    let bytes = || 0..=u8::MAX;
    let changed = (0..line.len()).flat_map(move |at| {
        bytes()
            .filter(move |&new| new != line[at])
            .map(move |new| with(at, at + 1, &[new]))
    });
    let taken_out = (0..line.len()).map(move |at| with(at, at + 1, &[]));
    let put_in = (0..=line.len()).flat_map(move |at| bytes().map(move |new| with(at, at, &[new])));
    changed.chain(taken_out).chain(put_in)
}
