//! A line as it stands: printing characters as they are, all other bytes as `\x0D`, a backslash twice.

/// The text after `raw`.
pub fn write(line: &[u8]) -> String {
    let mut text = String::new();
    for (at, &byte) in line.iter().enumerate() {
        // A blank at an end would be lost in many an editor.
        let at_end = at == 0 || at + 1 == line.len();
        match byte {
            b'\\' => text.push_str("\\\\"),
            b' ' if at_end => text.push_str("\\x20"),
            b' '..=b'~' => text.push(byte as char),
            _ => text.push_str(&format!("\\x{byte:02X}")),
        }
    }
    text
}

/// The bytes of a text, or the place of the character, from 0, at which an escape is wrong.
pub fn read(text: &[u8]) -> Result<Vec<u8>, usize> {
    let mut bytes = Vec::new();
    let mut at = 0;
    while at < text.len() {
        let rest = &text[at..];
        let (byte, len) = match rest {
            [b'\\', b'\\', ..] => (b'\\', 2),
            [b'\\', b'x', high, low, ..] => {
                let digit = |b: u8| (b as char).to_digit(16).map(|d| d as u8);
                let (high, low) = (digit(*high).ok_or(at)?, digit(*low).ok_or(at)?);
                (high << 4 | low, 4)
            }
            [b'\\', ..] => return Err(at),
            [byte, ..] => (*byte, 1),
            [] => break,
        };
        // A newline would end the line: there is no such line.
        if byte == b'\n' {
            return Err(at);
        }
        bytes.push(byte);
        at += len;
    }
    Ok(bytes)
}
