//! How many crash sets the job at the head of a list survives: the counts compared, and why there are none.

use crate::hints::faults;
use crate::lines::{escaped, shown};
use crate::notation::one_line;
use crate::play::{play, say_loudly, Step};
use crate::words::refusal;
use reference::answer::{Answer, Question};
use reference::reader::answer_all;
use reference::survivors::answer;
use std::fmt;

/// The engine and the second implementation do not count alike.
#[derive(Debug, PartialEq, Eq)]
pub struct Difference {
    pub frame: String,
    pub engine: String,
    pub second: String,
}

impl fmt::Display for Difference {
    fn fmt(&self, f: &mut fmt::Formatter<'_>) -> fmt::Result {
        let what = "THE COUNTS OF CRASH SETS DIFFER";
        let both = [&self.engine, &self.second];
        let frame = ("frame:", self.frame.as_str());
        say_loudly(f, what, frame, both, "No count is printed.")
    }
}

/// Are the engine's lines for a list of digits the second implementation's too?
pub fn compare(digits: &[u8], engine: &[u8]) -> Result<(), Difference> {
    let second = answer(digits);
    if engine == second {
        return Ok(());
    }
    let head = head(digits);
    Err(Difference {
        frame: shown(head.strip_suffix(b"\n").unwrap_or(head)),
        engine: in_one(engine),
        second: in_one(&second),
    })
}

/// The first line, with its newline if it has one; nothing of an empty list.
fn head(digits: &[u8]) -> &[u8] {
    let mut lines = digits.split_inclusive(|&b| b == b'\n');
    lines.next().unwrap_or_default()
}

/// Lines on one line, as they can be told apart.
fn in_one(lines: &[u8]) -> String {
    let Some(whole) = lines.strip_suffix(b"\n") else {
        return match lines {
            b"" => "(no line)".to_string(),
            cut => format!("{} (without a newline)", in_one(&[cut, b"\n"].concat())),
        };
    };
    let lines: Vec<String> = whole.split(|&b| b == b'\n').map(escaped).collect();
    lines.join(", ")
}

/// What to say where the list has no counts: what is odd about it, and why its first line is no acceptable job.
pub fn notes(input: &[u8], digits: &[u8]) -> Vec<String> {
    let head = head(digits);
    let mut why = None;
    // The first line meets no job, and these lines are the second implementation's own: they do not differ.
    let _ = play(head, &answer_all(head), |step| why = reason(step));
    match why {
        None if head.is_empty() => faults(input),
        None => Vec::new(),
        Some(why) => {
            let mut notes = faults(input);
            notes.push(format!(
                "no counts, for the list begins with no acceptable job: {why}"
            ));
            notes
        }
    }
}

/// The line of a refused frame, and what was the matter.
fn reason(step: &Step) -> Option<String> {
    let Answer::Refused(question) = step.answer else {
        return None;
    };
    let why = match (&step.frame, question) {
        (Some(frame), Question::Job) => format!("{} is no job", one_line(frame)),
        _ => refusal::reason(step, question),
    };
    Some(format!("{}, {why}", step.line))
}
