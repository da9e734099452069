//! Each chare's end: the line that a show of it would get after the last frame.

use crate::lines::cut;
use crate::notation::digits_of;
use reference::frame::Frame;
use reference::state::State;

/// The list with a show of each chare of its job at the end. A show changes nothing, so the lines before it stay.
pub fn with_shows(input: &[u8]) -> Vec<u8> {
    let mut state = State::new();
    for line in cut(input) {
        state.line(line);
    }
    let mut whole = input.to_vec();
    let Some(job) = &state.job else {
        return whole;
    };
    if whole.last() != Some(&b'\n') {
        whole.push(b'\n');
    }
    for chare in job.chares() {
        whole.extend(digits_of(&Frame::Show { chare }).bytes());
        whole.push(b'\n');
    }
    whole
}
