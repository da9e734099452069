//! A list in words: one frame a line, numbers in decimal, comments after `#`. A line may be in digits too.
//!
//! ```text
//! job 2 machines, buddies 2 1     # not named, or 0: the machine before
//! chare 1 on 1 to 2               # the job's chares, in order; at most two ports
//! chare 2 on 2
//! inject 1 value 3 hops 1
//! deliver ASK 0>1 #1
//! work 1
//! checkpoint 1
//! crash 1
//! restart 1
//! show 1
//! withdraw 1                      # takes the desk's last message to chare 1 back
//! raw 12G1                        (this line as it stands, for what is no frame)
//! 1201                            # a frame in digits
//! ```

mod decode;
mod encode;
mod form;
mod list;
mod near;
mod raw;
mod scan;

pub use decode::{decode, one_line, words};
pub use encode::digits as digits_of;
pub use form::{form, Form, Shape, WORDS};
pub use near::nearest;
pub use scan::{first, BYTE_ORDER_MARK};

use std::fmt;

/// What is wrong with a line in words. Line and column are counted from 1.
#[derive(Clone, Debug, PartialEq, Eq)]
pub struct Error {
    pub line: usize,
    pub column: usize,
    pub message: String,
}

impl fmt::Display for Error {
    fn fmt(&self, f: &mut fmt::Formatter<'_>) -> fmt::Result {
        write!(
            f,
            "line {}, column {}: {}",
            self.line, self.column, self.message
        )
    }
}

/// Every mistake in a list, in order.
#[derive(Clone, Debug, PartialEq, Eq)]
pub struct Mistakes(pub Vec<Error>);

impl fmt::Display for Mistakes {
    fn fmt(&self, f: &mut fmt::Formatter<'_>) -> fmt::Result {
        let lines: Vec<String> = self.0.iter().map(Error::to_string).collect();
        f.write_str(&lines.join("\n"))
    }
}

/// A list as it is played.
#[derive(Clone, Debug, PartialEq, Eq)]
pub struct List {
    /// One frame a line.
    pub digits: Vec<u8>,
    pub places: Places,
}

impl List {
    fn new(digits: Vec<u8>, lines: Vec<usize>) -> List {
        let places = Places::new(lines);
        List { digits, places }
    }
}

/// On which line of what was given a frame stands, where that is not the frame's number.
#[derive(Clone, Debug, Default, PartialEq, Eq)]
pub struct Places(Vec<usize>);

impl Places {
    fn new(lines: Vec<usize>) -> Places {
        let as_numbered = lines.iter().copied().eq(1..=lines.len());
        Places(if as_numbered { Vec::new() } else { lines })
    }

    /// The line of a frame, both counted from 1; none if every frame stands on the line of its number.
    pub fn line(&self, frame: usize) -> Option<usize> {
        self.0.get(frame.checked_sub(1)?).copied()
    }

    /// " (line 8)" beside a frame's number, or nothing.
    pub fn beside(&self, frame: usize) -> String {
        let width = self.0.last().map_or(0, |last| last.to_string().len());
        let shown = |line| format!(" (line {line:>width$})");
        self.line(frame).map_or_else(String::new, shown)
    }
}

/// A list in either form, or in both.
pub fn read(input: &[u8]) -> Result<List, Mistakes> {
    match form(input) {
        Form::Digits => Ok(List::new(input.to_vec(), Vec::new())),
        Form::Words => list::read(input),
    }
}

/// The same as digits alone.
pub fn digits(input: &[u8]) -> Result<Vec<u8>, Mistakes> {
    read(input).map(|list| list.digits)
}
