//! Plays a list with the second implementation and compares each line with the engine's.

use crate::lines::{cut, escaped, shown};
use crate::notation::{digits_of, one_line};
use reference::answer::Answer;
use reference::frame::{parse, Frame};
use reference::job::Job;
use reference::state::State;
use std::fmt;

/// One frame, with the state before and after it.
pub struct Step<'a> {
    /// Counted from 1.
    pub number: usize,
    /// The line as given, without its newline.
    pub given: &'a [u8],
    /// None if the line is no frame.
    pub frame: Option<Frame>,
    pub answer: Answer,
    /// The engine's line, without its newline.
    pub line: &'a str,
    pub before: &'a State,
    pub after: &'a State,
    /// The frame that lost the run, if an earlier one did.
    pub lost_at: Option<usize>,
}

impl Step<'_> {
    /// The job as this frame leaves it.
    pub fn job(&self) -> Option<&Job> {
        self.after.job.as_ref()
    }

    /// The frame in digits and in words, with its line.
    pub fn head(&self) -> String {
        let digits = shown(self.given);
        match &self.frame {
            Some(frame) => format!("{digits}  {}  ->  {}", one_line(frame), self.line),
            None => format!("{digits}  ->  {}", self.line),
        }
    }
}

/// The engine and the second implementation do not give the same line.
#[derive(Debug, PartialEq, Eq)]
pub struct Difference {
    pub number: usize,
    pub frame: String,
    pub engine: String,
    pub second: String,
}

impl fmt::Display for Difference {
    fn fmt(&self, f: &mut fmt::Formatter<'_>) -> fmt::Result {
        let what = format!("THE LINES DIFFER AT FRAME {}", self.number);
        let both = [&self.engine, &self.second];
        say_loudly(
            f,
            &what,
            ("frame:", &self.frame),
            both,
            "Nothing after this frame is explained.",
        )
    }
}

/// That the engine and the second implementation differ, and in what they were given.
pub fn say_loudly(
    f: &mut fmt::Formatter<'_>,
    what: &str,
    asked: (&str, &str),
    [engine, second]: [&String; 2],
    then: &str,
) -> fmt::Result {
    let lines = [
        asked,
        ("proved engine:", engine),
        ("second implementation:", second),
    ];
    loud(f, what, &lines, &format!("One of them is wrong. {then}"))
}

/// What must not be, between two rules so that nobody overlooks it.
pub fn loud(
    f: &mut fmt::Formatter<'_>,
    what: &str,
    lines: &[(&str, &str)],
    then: &str,
) -> fmt::Result {
    let rule = "!".repeat(72);
    writeln!(f, "{rule}")?;
    writeln!(f, "!!! {what}")?;
    for (name, text) in lines {
        writeln!(f, "!!! {name:<22} {text}")?;
    }
    writeln!(f, "!!! {then}")?;
    writeln!(f, "{rule}")
}

/// Shows each step to `see`, up to the first line that differs from the engine's.
pub fn play(input: &[u8], engine: &[u8], mut see: impl FnMut(&Step)) -> Result<(), Difference> {
    let mut engine_lines = engine.split_inclusive(|&b| b == b'\n');
    let mut after = State::new();
    let mut lost_at = None;
    let mut own = Vec::new();
    let mut number = 0;
    for given in cut(input) {
        number += 1;
        let before = after.clone();
        let answer = after.line(given);
        own.clear();
        answer.print(&mut own);
        let theirs = engine_lines.next();
        if theirs != Some(&own[..]) {
            return Err(difference(number, shown(given), theirs, Some(&own)));
        }
        see(&Step {
            number,
            given,
            frame: parse(given),
            answer,
            line: std::str::from_utf8(&own).unwrap_or_default().trim_end(),
            before: &before,
            after: &after,
            lost_at,
        });
        if answer == Answer::Lost {
            lost_at = Some(number);
        }
    }
    match engine_lines.next() {
        None => Ok(()),
        more => Err(difference(
            number + 1,
            "(the list is at its end)".to_string(),
            more,
            None,
        )),
    }
}

/// Shows what a frame would do to a state, which stays as it is.
pub fn probe<T>(before: &State, frame: &Frame, see: impl FnOnce(&Step) -> T) -> T {
    let mut after = before.clone();
    let answer = after.step(frame);
    let mut line = Vec::new();
    answer.print(&mut line);
    see(&Step {
        number: 0,
        given: digits_of(frame).as_bytes(),
        frame: Some(*frame),
        answer,
        line: std::str::from_utf8(&line).unwrap_or_default().trim_end(),
        before,
        after: &after,
        lost_at: None,
    })
}

fn difference(
    number: usize,
    frame: String,
    engine: Option<&[u8]>,
    second: Option<&[u8]>,
) -> Difference {
    let text = |line: Option<&[u8]>| match line {
        None => "(no line)".to_string(),
        Some(line) => match line.strip_suffix(b"\n") {
            Some(line) => escaped(line),
            None => format!("{} (without a newline)", escaped(line)),
        },
    };
    Difference {
        number,
        frame,
        engine: text(engine),
        second: text(second),
    }
}
