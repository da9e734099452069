//! A list to be handed out: its frames in words, numbered, with a blank for each line and for each chare's end; and the keys to it.

mod ends;
mod html;

pub use ends::with_shows;

use crate::lines::cut;
use crate::notation;
use crate::play::{play, Difference, Step};
use crate::words::words;
use html::Row;

/// What stands where the blanks are.
#[derive(Clone, Copy, Debug, PartialEq, Eq)]
pub enum Sort {
    /// Nothing, for those who sit the exam.
    Blank,
    /// The lines, for those who mark it.
    Key,
    /// The lines and the words for each frame, for tutors.
    Explained,
}

pub struct Handout {
    pub html: String,
    pub difference: Option<Difference>,
}

/// The handout of a list in digits. A key needs the lines of the list with its shows (`with_shows`).
pub fn handout(title: &str, made_by: &str, sort: Sort, input: &[u8], lines: &[u8]) -> Handout {
    let frames = cut(input).len();
    let whole = with_shows(input);
    let mut rows = Vec::new();
    let mut difference = None;
    match sort {
        Sort::Blank => rows.extend(cut(&whole).into_iter().map(asked)),
        _ => {
            let played = play(&whole, lines, |step| rows.push(answered(step, sort)));
            difference = played.err();
        }
    }
    let ends = rows.split_off(frames.min(rows.len()));
    Handout {
        html: html::html(title, made_by, sort, &rows, &ends),
        difference,
    }
}

fn asked(frame: &[u8]) -> Row {
    Row {
        frame: notation::words(frame),
        line: String::new(),
        words: Vec::new(),
    }
}

fn answered(step: &Step, sort: Sort) -> Row {
    Row {
        line: step.line.to_string(),
        words: match sort {
            Sort::Explained => words(step),
            _ => Vec::new(),
        },
        ..asked(step.given)
    }
}
