//! All that stands after a frame, with what the frame changed.

mod change;
mod facts;

pub use change::{compared, Entry, Mark, Section};

use crate::names::count;
use crate::notation::Places;
use crate::play::{play, Difference, Step};
use crate::words::letter;
use reference::state::State;

/// What stands after frame `number`, 0 being before the first. The state is the second implementation's, compared line by line
/// with the engine up to there.
pub fn after(input: &[u8], engine: &[u8], number: usize, places: &Places) -> Result<String, Wrong> {
    at(input, engine, number, |step| match step {
        Some(step) => of_step(step, places),
        None => {
            let empty = State::new();
            format!(
                "Before the first frame\n{}",
                listed(&compared(&empty, &empty))
            )
        }
    })
}

/// Shows a frame to `see`, none for number 0.
pub fn at<T>(
    input: &[u8],
    engine: &[u8],
    number: usize,
    see: impl Fn(Option<&Step>) -> T,
) -> Result<T, Wrong> {
    let (mut seen, mut frames) = (None, 0);
    if number == 0 {
        seen = Some(see(None));
    }
    play(input, engine, |step| {
        frames = step.number;
        if step.number == number {
            seen = Some(see(Some(step)));
        }
    })
    .map_err(Wrong::Difference)?;
    seen.ok_or_else(|| {
        Wrong::NoFrame(format!(
            "there is no frame {number}: the list has {}",
            count(frames, "frame")
        ))
    })
}

/// Why a moment cannot be shown.
#[derive(Debug)]
pub enum Wrong {
    NoFrame(String),
    Difference(Difference),
}

fn of_step(step: &Step, places: &Places) -> String {
    let sections = compared(step.before, step.after);
    let any = sections
        .iter()
        .flat_map(|s| &s.entries)
        .any(|entry| entry.mark != Mark::Same);
    let note = match any {
        true => "What it changed: * new or other than before, - gone.",
        false => "It changed nothing.",
    };
    let rule = step.answer.rule().map(letter::sentence);
    let rule = rule.map_or_else(String::new, |rule| rule + "\n");
    format!(
        "After frame {}{}:  {}\n{rule}{note}\n{}",
        step.number,
        places.beside(step.number),
        step.head(),
        listed(&sections)
    )
}

fn listed(sections: &[Section]) -> String {
    let mut text = String::new();
    for section in sections {
        text.push_str(&format!("\n{}\n", section.title));
        if section.entries.is_empty() {
            text.push_str("    nothing\n");
        }
        for entry in &section.entries {
            text.push_str(&format!("  {} {}\n", entry.mark.sign(), entry.whole()));
        }
    }
    text
}
