//! A frame that is put to a state, and its words.

use explained::play::Step;
use explained::words::words;
use reference::answer::Answer;
use reference::frame::parse;
use reference::state::State;

/// The words for a frame that is put to a state.
pub fn said(before: &State, given: &str, want: Answer) -> String {
    let mut after = before.clone();
    let answer = after.line(given.as_bytes());
    assert_eq!(answer, want, "{given}");
    let mut line = Vec::new();
    answer.print(&mut line);
    let step = Step {
        number: 1,
        given: given.as_bytes(),
        frame: parse(given.as_bytes()),
        answer,
        line: std::str::from_utf8(&line).expect("digits").trim_end(),
        before,
        after: &after,
        lost_at: None,
    };
    words(&step).join("\n")
}

/// The state after a job and some accepted frames.
pub fn played(job: &str, frames: &[&str]) -> State {
    let mut state = State::new();
    for frame in [job].iter().chain(frames) {
        assert!(state.line(frame.as_bytes()).is_accepted(), "{frame}");
    }
    state
}
