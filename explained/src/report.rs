//! The whole output: the text of a list, its story, and the first difference if there is one.

use crate::lines::wrapped;
use crate::notation::Places;
use crate::picture::{Recorder, Story};
use crate::play::{play, Difference, Step};
use crate::words::{letter, words};
use reference::answer::Rule;
use std::collections::BTreeSet;

/// What the tool makes of a list: the text, and all that a picture shows.
pub struct Report {
    pub text: String,
    pub story: Story,
    pub difference: Option<Difference>,
}

impl Report {
    /// The status with which the command ends.
    pub fn status(&self) -> u8 {
        u8::from(self.difference.is_some())
    }
}

const INDENT: usize = 6;
const WIDTH: usize = 100;

/// Explains a list, given the engine's output for it. A difference ends the text, loudly.
pub fn report(input: &[u8], engine: &[u8], places: &Places) -> Report {
    let mut text = String::new();
    let mut recorder = Recorder::new();
    let mut used = BTreeSet::new();
    let result = play(input, engine, |step| {
        put_step(&mut text, step, places);
        recorder.see(step);
        used.extend(step.answer.rule());
    });
    let difference = result.err();
    match &difference {
        Some(difference) => text.push_str(&difference.to_string()),
        None => put_letters(&mut text, &used),
    }
    Report {
        text,
        story: recorder.story,
        difference,
    }
}

fn put_step(text: &mut String, step: &Step, places: &Places) {
    let Step { number, .. } = *step;
    let place = places.beside(number);
    text.push_str(&format!("{number:>4}{place}  {}\n", step.head()));
    for line in words(step) {
        text.push_str(&wrapped(&line, INDENT, WIDTH));
    }
}

/// The letters that a list's lines end with, each with its meaning, one below another as the frames are.
fn put_letters(text: &mut String, used: &BTreeSet<Rule>) {
    if used.is_empty() {
        return;
    }
    text.push_str(&format!("\n{}\n", letter::HEADING));
    for &rule in used {
        let meaning = wrapped(&format!("{}.", letter::meaning(rule)), INDENT, WIDTH);
        text.push_str(&format!("{:>4}  {}", rule.letter(), &meaning[INDENT..]));
    }
}
