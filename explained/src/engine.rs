//! Whose lines a run gives.

use reference::precedes::{Answer, Name, Processing};
#[cfg(not(library))]
use reference::{precedes, reader::answer_all, survivors::answer};

/// Was this built with the proved engine? Its library may be missing, or not asked for.
pub const LINKED: bool = cfg!(library);

/// The proved engine's lines for a list of digits.
#[cfg(library)]
pub fn lines(input: &[u8]) -> Vec<u8> {
    reference::engine::transcript(input)
}

/// Built without the engine, there are the second implementation's alone. The command asks for `--quick` then.
#[cfg(not(library))]
pub fn lines(input: &[u8]) -> Vec<u8> {
    answer_all(input)
}

/// The proved engine's counts of crash sets for the job at the head of a list.
#[cfg(library)]
pub fn survivors(input: &[u8]) -> Vec<u8> {
    reference::engine::survivors(input)
}

/// As above: without the engine, the second implementation's.
#[cfg(not(library))]
pub fn survivors(input: &[u8]) -> Vec<u8> {
    answer(input)
}

/// The proved engine's answer whether one processing of a row precedes another.
#[cfg(library)]
pub fn precedes(row: &[Processing], first: Name, later: Name) -> Answer {
    reference::engine::precedes(row, first, later)
}

/// As above: without the engine, the second implementation's.
#[cfg(not(library))]
pub fn precedes(row: &[Processing], first: Name, later: Name) -> Answer {
    precedes::precedes(row, first, later)
}
