//! Every choice of buddies that a job may make.

use crate::encode::{bytes, put_digits};
use crate::frame::{Draft, Frame};
use crate::limits::{MAX_MACHINES, MIN_MACHINES};

/// So many layouts there are: for M machines M to the power of M.
pub const LAYOUTS: usize = 50_068;

/// Every layout of 2 to 6 machines, as the buddies that a job names.
pub fn layouts() -> impl Iterator<Item = Vec<u8>> {
    (MIN_MACHINES..=MAX_MACHINES).flat_map(layouts_of)
}

/// Every layout of so many machines. Each machine's buddy is a number from 0 to M, without its own.
pub fn layouts_of(machines: usize) -> impl Iterator<Item = Vec<u8>> {
    (0..machines.pow(machines as u32)).map(move |mut number| {
        let mut buddies = Vec::with_capacity(machines);
        for machine in 1..=machines {
            // A digit to the base M, which jumps over the machine itself.
            let digit = number % machines;
            number /= machines;
            buddies.push((digit + usize::from(digit >= machine)) as u8);
        }
        buddies
    })
}

/// A job with these buddies and one chare that writes to nobody, as a line without its newline.
pub fn job_line(buddies: &[u8]) -> Vec<u8> {
    let mut draft = Draft {
        machines: buddies.len() as u8,
        chares: 1,
        ..Draft::default()
    };
    draft.buddies[..buddies.len()].copy_from_slice(buddies);
    draft.places[0] = [1, 0, 0];
    let mut line = Vec::new();
    put_digits(&mut line, &bytes(&Frame::Job(draft)));
    line
}
