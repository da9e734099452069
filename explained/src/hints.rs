//! Words about a whole list of digits that can hardly be meant so.

use crate::lines::cut;
use crate::names::{count, joined};
use crate::notation::{first, form, nearest, Form, BYTE_ORDER_MARK, WORDS};
use reference::frame::parse;

/// What to say about a list besides its lines.
pub fn hints(input: &[u8]) -> Vec<String> {
    let (mut hints, others) = looked(input);
    hints.extend(neither(&cut(input), &others));
    hints
}

/// What is wrong with all of it; single lines are not told.
pub fn faults(input: &[u8]) -> Vec<String> {
    looked(input).0
}

/// What is wrong with all of it, and the places of those lines besides that are neither digits nor words.
fn looked(input: &[u8]) -> (Vec<String>, Vec<usize>) {
    let alone = |hint: String| (vec![hint], Vec::new());
    if input.is_empty() {
        return alone("the list is empty: no frame, no line".to_string());
    }
    if form(input) == Form::Words {
        return (Vec::new(), Vec::new());
    }
    if let Some(how) = utf_16(input) {
        return alone(format!(
            "the list is UTF-16 ({how}), which makes its lines 01; save it as UTF-8, or `iconv -f UTF-16 -t UTF-8` turns it into that"
        ));
    }
    let lines = cut(input);
    let is_list = lines.iter().any(|line| parse(line).is_some());
    if !is_list && !is_text(input) {
        return alone(
            "no line of this is a frame, and it holds bytes that are no text: is it a binary file?"
                .to_string(),
        );
    }
    let number = |of: fn(&[u8]) -> bool| lines.iter().filter(|line| of(line)).count();
    let mut hints = Vec::new();
    let mark = input.starts_with(BYTE_ORDER_MARK);
    if mark {
        hints.push(
            "the list begins with a byte-order mark, EF BB BF; in digits that makes its first line 01 (`tail -c +4` takes it away)"
                .to_string(),
        );
    }
    let returns = number(returns);
    let many_returns = 2 * returns >= lines.len();
    if many_returns {
        hints.push(format!(
            "{returns} of {} end in CR LF; in digits a line ends in LF alone, and the CR makes it 01 (`tr -d '\\r'` takes it away)",
            count(lines.len(), "line")
        ));
    }
    let comments = number(has_comment);
    if comments > 0 {
        hints.push(format!(
            "{} with #; a list in digits has no comments, and such a line gets 01 (a list in words may have them)",
            count(comments, "line")
        ));
    }
    if hints.is_empty() && !is_list {
        return alone(
            "no line of this is a frame, in digits or in words: is it a list?".to_string(),
        );
    }
    let told = |at: usize, line: &[u8]| {
        (mark && at == 0) || (many_returns && self::returns(line)) || has_comment(line)
    };
    let others = (0..lines.len()).filter(|&at| !is_digits(lines[at]) && !told(at, lines[at]));
    (hints, others.collect())
}

fn returns(line: &[u8]) -> bool {
    line.ends_with(b"\r")
}

fn has_comment(line: &[u8]) -> bool {
    line.contains(&b'#')
}

fn is_digits(line: &[u8]) -> bool {
    !line.is_empty() && line.iter().all(u8::is_ascii_hexdigit)
}

/// By what UTF-16 is known: its mark, or that every other byte is 0.
fn utf_16(input: &[u8]) -> Option<&'static str> {
    match input {
        [0xFF, 0xFE, ..] => return Some("it begins with FF FE"),
        [0xFE, 0xFF, ..] => return Some("it begins with FE FF"),
        _ => {}
    }
    let pairs = input.chunks_exact(2);
    let all = pairs.len();
    let (high, low) = pairs.fold((0, 0), |(high, low), pair| {
        let zero = |at: usize| usize::from(pair[at] == 0 && pair[1 - at] != 0);
        (high + zero(0), low + zero(1))
    });
    (all > 0 && high.max(low) * 10 >= all * 9).then_some("every other byte is 00")
}

fn is_text(input: &[u8]) -> bool {
    let is_control = |b: &u8| matches!(b, 0..=8 | 14..=31 | 127);
    std::str::from_utf8(input).is_ok() && !input.iter().any(is_control)
}

/// How many lines are told by their numbers.
const NUMBERS: usize = 5;

/// Lines that are neither digits nor words, by their places.
fn neither(lines: &[&[u8]], places: &[usize]) -> Option<String> {
    let (verb, gets) = match places.len() {
        0 => return None,
        1 => ("is", "gets"),
        _ => ("are", "get"),
    };
    let mut numbers: Vec<String> = places
        .iter()
        .take(NUMBERS)
        .map(|at| (at + 1).to_string())
        .collect();
    if places.len() > NUMBERS {
        numbers.push(format!("{} more", places.len() - NUMBERS));
    }
    let mut note = format!(
        "{} {verb} neither digits nor words, and {gets} 01: {} {}",
        count(places.len(), "line"),
        if places.len() == 1 { "line" } else { "lines" },
        joined(&numbers)
    );
    if places.iter().any(|&at| lines[at].is_empty()) {
        note.push_str("; in digits an empty line is a frame too");
    }
    let meant = places.iter().find_map(|&at| {
        let text = String::from_utf8_lossy(lines[at]);
        Some((at + 1, nearest(first(&text)?, &WORDS)?))
    });
    if let Some((line, word)) = meant {
        note.push_str(&format!("; line {line}: did you mean \"{word}\"?"));
    }
    Some(note)
}
