//! What a line is, words or digits, and what that makes of a list.

use super::scan::{first, BYTE_ORDER_MARK};

/// The words with which a line in words begins.
pub const WORDS: [&str; 11] = [
    "job",
    "chare",
    "inject",
    "deliver",
    "work",
    "checkpoint",
    "crash",
    "restart",
    "show",
    "withdraw",
    "raw",
];

#[derive(Clone, Copy, Debug, PartialEq, Eq)]
pub enum Form {
    /// No line is in words: every line is a frame as it stands, the empty ones too.
    Digits,
    /// Some line is in words: there are blank lines and comments, and other lines may be in digits.
    Words,
}

/// In words if any line begins with one of them.
pub fn form(input: &[u8]) -> Form {
    let in_words = |line: &[u8]| Shape::of(line) == Shape::Words;
    let input = without_mark(input);
    match input.split(|&b| b == b'\n').any(in_words) {
        true => Form::Words,
        false => Form::Digits,
    }
}

/// What a line is by itself, from its first word.
#[derive(Clone, Copy, Debug, PartialEq, Eq)]
pub enum Shape {
    /// Blank, or a comment.
    Nothing,
    Words,
    Digits,
    Neither,
}

impl Shape {
    pub fn of(line: &[u8]) -> Shape {
        match first(&String::from_utf8_lossy(line)) {
            None => Shape::Nothing,
            Some(word) if is_word(word) => Shape::Words,
            Some(word) if word.bytes().all(|b| b.is_ascii_hexdigit()) => Shape::Digits,
            Some(_) => Shape::Neither,
        }
    }
}

fn is_word(word: &str) -> bool {
    WORDS.iter().any(|known| known.eq_ignore_ascii_case(word))
}

/// Some editors put a byte-order mark in front of a file.
pub fn without_mark(input: &[u8]) -> &[u8] {
    input.strip_prefix(BYTE_ORDER_MARK).unwrap_or(input)
}

#[cfg(test)]
mod tests {
    use super::*;

    #[test]
    fn words_or_digits() {
        for list in [
            "job 2 machines\n",
            "# a list\n\n  Work 1\r\n",
            "jop 2 machines\nwork 1\n",
            "withdraw 1\n1201\n",
            "1201\n1201\n1201\nwork 1\n",
            "\u{FEFF}work 1\n",
            "work\u{A0}1\n",
            "raw\n",
        ] {
            assert_eq!(form(list.as_bytes()), Form::Words, "{list}");
        }
        for list in [
            "",
            "\n\n",
            "# a list\n1201\n",
            "worked\n",
            "withdrawn\n",
            "\u{1}\u{2}",
        ] {
            assert_eq!(form(list.as_bytes()), Form::Digits, "{list}");
        }
    }

    #[test]
    fn each_line_by_itself() {
        for (line, shape) in [
            ("", Shape::Nothing),
            (" \t\r", Shape::Nothing),
            ("# work 1", Shape::Nothing),
            ("  work 1", Shape::Words),
            ("RAW", Shape::Words),
            ("1201", Shape::Digits),
            ("  1a01# a comment\r", Shape::Digits),
            ("120", Shape::Digits),
            ("12 01", Shape::Digits),
            ("12G1", Shape::Neither),
            ("wrok 1", Shape::Neither),
            ("\u{FF}", Shape::Neither),
        ] {
            assert_eq!(Shape::of(line.as_bytes()), shape, "{line}");
        }
    }
}
