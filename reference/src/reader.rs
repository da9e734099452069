//! Cutting input into lines with constant memory, and answering each line.

use crate::answer::{Answer, Question};
use crate::frame::LONGEST_LINE;
use crate::state::State;

/// A sitting: frames come in as bytes in pieces of any size, answers go out as bytes.
pub struct Sitting {
    pub state: State,
    /// The beginning of a line whose end has not come yet.
    partial: Vec<u8>,
    /// The line under way is longer than any frame; its digits are not kept.
    too_long: bool,
}

impl Sitting {
    pub fn new() -> Sitting {
        Sitting {
            state: State::new(),
            partial: Vec::with_capacity(LONGEST_LINE),
            too_long: false,
        }
    }

    /// How much memory the line under way may take.
    pub fn line_capacity(&self) -> usize {
        self.partial.capacity()
    }

    /// Takes the next piece of input and writes the answers of the lines that end in it.
    pub fn feed(&mut self, mut piece: &[u8], out: &mut Vec<u8>) {
        while let Some(end) = newline(piece) {
            let line = &piece[..end];
            if self.partial.is_empty() && !self.too_long {
                self.state.line(line).print(out);
            } else {
                self.keep(line);
                self.end_line(out);
            }
            piece = &piece[end + 1..];
        }
        self.keep(piece);
    }

    /// The input has ended: what follows the last newline is a line if it is not empty.
    pub fn finish(&mut self, out: &mut Vec<u8>) {
        if self.too_long || !self.partial.is_empty() {
            self.end_line(out);
        }
    }

    fn keep(&mut self, piece: &[u8]) {
        if self.too_long || self.partial.len() + piece.len() > LONGEST_LINE {
            self.too_long = true;
            self.partial.clear();
        } else {
            self.partial.extend_from_slice(piece);
        }
    }

    fn end_line(&mut self, out: &mut Vec<u8>) {
        let answer = if self.too_long {
            Answer::Refused(Question::Form)
        } else {
            self.state.line(&self.partial)
        };
        answer.print(out);
        self.partial.clear();
        self.too_long = false;
    }
}

impl Default for Sitting {
    fn default() -> Self {
        Sitting::new()
    }
}

/// The place of the first newline. Eight bytes are compared at once: a byte that is equal becomes
/// 0, and the lowest 0 is where a borrow first sets a high bit.
fn newline(bytes: &[u8]) -> Option<usize> {
    const EACH: u64 = 0x0101_0101_0101_0101;
    let words = bytes.chunks_exact(8);
    let rest = words.remainder();
    let mut start = 0;
    for word in words {
        let word = u64::from_le_bytes(word.try_into().expect("eight bytes"));
        let zero = word ^ (EACH * b'\n' as u64);
        let found = zero.wrapping_sub(EACH) & !zero & (EACH << 7);
        if found != 0 {
            return Some(start + found.trailing_zeros() as usize / 8);
        }
        start += 8;
    }
    rest.iter().position(|&b| b == b'\n').map(|at| start + at)
}

/// The answers to a whole input.
pub fn answer_all(input: &[u8]) -> Vec<u8> {
    let mut out = Vec::new();
    let mut state = State::new();
    let mut lines = input.split(|&b| b == b'\n').peekable();
    while let Some(line) = lines.next() {
        if lines.peek().is_some() || !line.is_empty() {
            state.line(line).print(&mut out);
        }
    }
    out
}
