//! Cutting the input into lines, and showing text.

/// The lines of an input. The last one needs no newline, and is none if it is empty.
pub fn cut(input: &[u8]) -> Vec<&[u8]> {
    let mut lines: Vec<&[u8]> = input.split(|&b| b == b'\n').collect();
    if lines.last().is_some_and(|line| line.is_empty()) {
        lines.pop();
    }
    lines
}

/// The most characters of a line that are shown.
const SHOWN: usize = 100;

/// A line as given, on one line of print: bytes that do not print are written out.
pub fn shown(line: &[u8]) -> String {
    if line.is_empty() {
        return "(empty line)".to_string();
    }
    let mut text = escaped(&line[..line.len().min(SHOWN)]);
    if line.len() > SHOWN {
        text.push_str(&format!("... ({} characters)", line.len()));
    }
    text
}

/// Printing characters as they are, all other bytes as `\r`, `\xFF` and so on.
pub fn escaped(bytes: &[u8]) -> String {
    let mut text = String::new();
    for &byte in bytes {
        match byte {
            b'\r' => text.push_str("\\r"),
            b'\t' => text.push_str("\\t"),
            b' '..=b'~' => text.push(byte as char),
            _ => text.push_str(&format!("\\x{byte:02X}")),
        }
    }
    text
}

/// At most so many characters, both ends of the text; a sign stands for what is left out between them.
pub fn shortened(text: &str, most: usize) -> String {
    let letters: Vec<char> = text.chars().collect();
    if letters.len() <= most {
        return text.to_string();
    }
    let kept = most.saturating_sub(1);
    let tail = kept / 2;
    let (first, last) = (&letters[..kept - tail], &letters[letters.len() - tail..]);
    first.iter().chain(&['…']).chain(last).collect()
}

/// Text broken between words at `width` characters, every line indented.
pub fn wrapped(text: &str, indent: usize, width: usize) -> String {
    let mut out = String::new();
    let mut column = 0;
    for word in words(text) {
        let len = word.chars().count();
        if column > 0 && column + 1 + len > width {
            out.push('\n');
            column = 0;
        }
        if column == 0 {
            out.push_str(&" ".repeat(indent));
            column = indent;
        } else {
            out.push(' ');
            column += 1;
        }
        out.push_str(&word);
        column += len;
    }
    out.push('\n');
    out
}

/// Words, but names such as "TN 4", "SN 2" and "0→1 #2" in one piece.
fn words(text: &str) -> Vec<String> {
    let mut words: Vec<String> = Vec::new();
    for word in text.split(' ') {
        match words.last_mut() {
            Some(last) if last.ends_with("TN") || last.ends_with("SN") || word.starts_with('#') => {
                last.push(' ');
                last.push_str(word);
            }
            _ => words.push(word.to_string()),
        }
    }
    words
}

#[cfg(test)]
mod tests {
    use super::*;

    #[test]
    fn cut_as_the_reader_does() {
        assert!(cut(b"").is_empty());
        assert_eq!(cut(b"\n"), [b""]);
        assert_eq!(cut(b"a\nb"), [b"a", b"b"]);
        assert_eq!(cut(b"a\n\nb\n"), [&b"a"[..], b"", b"b"]);
    }

    #[test]
    fn shown_on_one_line() {
        assert_eq!(shown(b""), "(empty line)");
        assert_eq!(shown(b"1201\r"), "1201\\r");
        assert_eq!(shown(b"\xFF0"), "\\xFF0");
        assert!(shown(&[b'0'; 300]).ends_with("0... (300 characters)"));
    }

    #[test]
    fn shortened_with_a_sign() {
        assert_eq!(shortened("→→→", 3), "→→→");
        assert_eq!(shortened("→→→←", 3), "→…←");
        assert_eq!(shortened("abcdefgh", 6), "abc…gh");
        assert_eq!(shortened("", 3), "");
    }

    #[test]
    fn wrapped_between_words() {
        assert_eq!(wrapped("one two three", 2, 9), "  one two\n  three\n");
        assert_eq!(wrapped("of 0→1 #2 TN 4", 0, 6), "of\n0→1 #2\nTN 4\n");
        assert_eq!(wrapped("is SN 2", 0, 5), "is\nSN 2\n");
        assert_eq!(
            wrapped("longer than the width", 0, 3),
            "longer\nthan\nthe\nwidth\n"
        );
    }
}
