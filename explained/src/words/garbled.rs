//! What is wrong with a line that is no frame.

use crate::lines::escaped;
use reference::frame::LEAST_LENGTH;

/// The reason for answer 1, as the question asks: digits, pairs, kind, length.
pub fn reason(line: &[u8]) -> String {
    if line.is_empty() {
        return "the line is empty".to_string();
    }
    if let Some(at) = line.iter().position(|b| !b.is_ascii_hexdigit()) {
        let place = at + 1;
        return match line[at] {
            b'\r' if place == line.len() => "the line ends in a carriage return".to_string(),
            b' ' => format!("character {place} is a space, no hexadecimal digit"),
            other => format!(
                "character {place}, '{}', is no hexadecimal digit",
                escaped(&[other])
            ),
        };
    }
    if !line.len().is_multiple_of(2) {
        return format!("{} digits do not make pairs", line.len());
    }
    let bytes: Vec<u8> = line.chunks_exact(2).map(byte).collect();
    match least_length(bytes[0]) {
        None => format!("there is no kind {:02X}", bytes[0]),
        Some(least) => length(&bytes, least),
    }
}

/// Both are digits, so this always finds a byte.
fn byte(pair: &[u8]) -> u8 {
    let digit = |b: u8| (b as char).to_digit(16).unwrap_or(0) as u8;
    digit(pair[0]) << 4 | digit(pair[1])
}

fn least_length(kind: u8) -> Option<usize> {
    LEAST_LENGTH
        .get(kind as usize)
        .copied()
        .filter(|&least| least > 0)
}

fn length(bytes: &[u8], least: usize) -> String {
    let (kind, has) = (bytes[0], bytes.len());
    match *bytes {
        [0x01, machines, chares, ..] => {
            let (m, c) = (usize::from(machines), usize::from(chares));
            let needs = 3 + m + 3 * c;
            format!("a job with M = {m} and C = {c} has {needs} bytes, this one {has}")
        }
        [0x01, ..] => format!("a job has at least {least} bytes, this one {has}"),
        _ => format!("kind {kind:02X} has {least} bytes, this one {has}"),
    }
}

#[cfg(test)]
mod tests {
    use super::reason;

    #[test]
    fn reasons() {
        let cases: [(&[u8], &str); 10] = [
            (b"", "the line is empty"),
            (b"1201\r", "the line ends in a carriage return"),
            (b"12 01", "character 3 is a space, no hexadecimal digit"),
            (b"12G1", "character 3, 'G', is no hexadecimal digit"),
            (b"120", "3 digits do not make pairs"),
            (b"1801", "there is no kind 18"),
            (b"12", "kind 12 has 2 bytes, this one 1"),
            (b"170101", "kind 17 has 2 bytes, this one 3"),
            (b"0102", "a job has at least 3 bytes, this one 2"),
            (
                b"01020101",
                "a job with M = 2 and C = 1 has 8 bytes, this one 4",
            ),
        ];
        for (line, want) in cases {
            assert_eq!(reason(line), want);
        }
    }
}
