//! One line in words, cut into pieces that know their column.

use super::near::nearest;
use super::Error;
use crate::lines::shortened;

/// Some editors put it in front of a file.
pub const BYTE_ORDER_MARK: &[u8] = b"\xEF\xBB\xBF";

/// So much of a piece is shown in an error.
const SHOWN: usize = 40;

struct Piece<'a> {
    column: usize,
    text: &'a str,
}

fn is_gap(letter: char) -> bool {
    letter.is_whitespace() || letter == ','
}

fn is_arrow(letter: char) -> bool {
    letter == '>' || letter == '→'
}

/// How many bytes stand before the first piece.
pub fn indent(text: &str) -> usize {
    text.len() - text.trim_start_matches(is_gap).len()
}

/// The first piece of a line; none if it is blank or a comment.
pub fn first(text: &str) -> Option<&str> {
    let text = &text[indent(text)..];
    let end = text.find(|letter| is_gap(letter) || is_arrow(letter) || letter == '#');
    // An arrow at the front is a piece by itself.
    let letter = text.chars().next().filter(|&letter| letter != '#')?;
    Some(&text[..end.unwrap_or(text.len()).max(letter.len_utf8())])
}

/// The pieces of a line, taken one after another.
pub struct Scan<'a> {
    line: usize,
    pieces: Vec<Piece<'a>>,
    at: usize,
    /// The column after the last character.
    end: usize,
}

impl<'a> Scan<'a> {
    /// Blanks and commas part the pieces; an arrow is one by itself, and `#` begins one.
    pub fn new(line: usize, text: &'a str) -> Scan<'a> {
        let mut pieces: Vec<Piece> = Vec::new();
        let mut open = false;
        for (before, (at, letter)) in text.char_indices().enumerate() {
            let column = before + 1;
            let whole = &text[at..at + letter.len_utf8()];
            if is_gap(letter) {
                open = false;
            } else if is_arrow(letter) {
                pieces.push(Piece {
                    column,
                    text: whole,
                });
                open = false;
            } else if let (true, Some(last)) = (open && letter != '#', pieces.last_mut()) {
                let from = at - last.text.len();
                last.text = &text[from..at + letter.len_utf8()];
            } else {
                pieces.push(Piece {
                    column,
                    text: whole,
                });
                open = true;
            }
        }
        Scan {
            line,
            pieces,
            at: 0,
            end: text.trim_end().chars().count() + 1,
        }
    }

    /// The next piece that is no comment.
    fn peek(&self) -> Option<&Piece<'a>> {
        self.pieces
            .get(self.at)
            .filter(|piece| !piece.text.starts_with('#'))
    }

    /// Is there nothing but a comment left?
    pub fn is_done(&self) -> bool {
        self.peek().is_none()
    }

    fn found(&self, piece: Option<&Piece>) -> (usize, String) {
        match piece {
            None => (self.end, "the line ends".to_string()),
            Some(piece) => (piece.column, format!("found \"{}\"", printable(piece.text))),
        }
    }

    /// An error at the next piece.
    pub fn expected(&self, what: &str) -> Error {
        let (column, found) = self.found(self.pieces.get(self.at));
        Error {
            line: self.line,
            column,
            message: format!("expected {what}, {found}"),
        }
    }

    /// As above, where one of these words may have been meant.
    pub fn expected_one_of(&self, what: &str, known: &[&str]) -> Error {
        let mut error = self.expected(what);
        if let Some(meant) = self.meant(known) {
            error
                .message
                .push_str(&format!("; did you mean \"{meant}\"?"));
        }
        error
    }

    /// The word that the next piece may have been meant to be.
    pub fn meant<'w>(&self, known: &[&'w str]) -> Option<&'w str> {
        nearest(self.peek()?.text, known)
    }

    /// An error at the piece that was taken last.
    pub fn wrong(&self, message: String) -> Error {
        let column = self
            .pieces
            .get(self.at.saturating_sub(1))
            .map_or(1, |piece| piece.column);
        Error {
            line: self.line,
            column,
            message,
        }
    }

    /// Takes the next piece.
    pub fn word(&mut self) -> Option<&'a str> {
        let word = self.peek()?.text;
        self.at += 1;
        Some(word)
    }

    /// Takes the next piece if it is one of these words.
    pub fn take(&mut self, words: &[&str]) -> bool {
        let is = |piece: &Piece| {
            words
                .iter()
                .any(|word| piece.text.eq_ignore_ascii_case(word))
        };
        let found = self.peek().is_some_and(is);
        self.at += usize::from(found);
        found
    }

    pub fn must(&mut self, words: &[&str]) -> Result<(), Error> {
        match self.take(words) {
            true => Ok(()),
            false => Err(self.expected(&format!("\"{}\"", words[0]))),
        }
    }

    /// A number up to `most`, in decimal or after `0x` in hexadecimal.
    pub fn number(&mut self, what: &str, most: u16) -> Result<u16, Error> {
        let number = self.peek().and_then(|piece| number(piece.text));
        self.within(number, what, most)
    }

    pub fn byte(&mut self, what: &str) -> Result<u8, Error> {
        // At most 255, so nothing is cut off.
        self.number(what, 255).map(|number| number as u8)
    }

    /// A sign and a number behind it without a blank, such as `#1`. Here it begins no comment.
    pub fn signed(&mut self, sign: char, what: &str, most: u16) -> Result<u16, Error> {
        let piece = self.pieces.get(self.at);
        let number = piece.and_then(|piece| number(piece.text.strip_prefix(sign)?));
        self.within(number, what, most)
    }

    fn within(&mut self, number: Option<u32>, what: &str, most: u16) -> Result<u16, Error> {
        match number {
            Some(number) if number <= u32::from(most) => {
                self.at += 1;
                Ok(number as u16)
            }
            _ => Err(self.expected(&format!("{what}, from 0 to {most}"))),
        }
    }

    /// Nothing may follow but a comment.
    pub fn end(&self) -> Result<(), Error> {
        self.end_or(&[])
    }

    /// Nothing may follow but a comment; one of these could have.
    pub fn end_or(&self, known: &[&str]) -> Result<(), Error> {
        match self.is_done() {
            true => Ok(()),
            false => Err(self.expected_one_of("the end of the line or a comment", known)),
        }
    }
}

/// A piece for one line of print, whatever it holds.
fn printable(text: &str) -> String {
    let mut shown = String::new();
    for letter in shortened(text, SHOWN).chars() {
        match letter.is_control() {
            true => shown.extend(letter.escape_default()),
            false => shown.push(letter),
        }
    }
    shown
}

fn number(text: &str) -> Option<u32> {
    match text.strip_prefix("0x").or(text.strip_prefix("0X")) {
        Some(digits) if digits.bytes().all(|b| b.is_ascii_hexdigit()) => {
            u32::from_str_radix(digits, 16).ok()
        }
        Some(_) => None,
        None if text.bytes().all(|b| b.is_ascii_digit()) => text.parse().ok(),
        None => None,
    }
}
