//! Writing JSON into a page.

/// A text in quotes. No `<` is left, so that no end of a script can stand in it.
pub fn quoted(text: &str) -> String {
    let mut out = String::from("\"");
    for letter in text.chars() {
        match letter {
            '"' => out.push_str("\\\""),
            '\\' => out.push_str("\\\\"),
            '<' | '\0'..='\u{1F}' => out.push_str(&format!("\\u{:04x}", u32::from(letter))),
            other => out.push(other),
        }
    }
    out.push('"');
    out
}

/// Items that are JSON already.
pub fn array(items: Vec<String>) -> String {
    format!("[{}]", items.join(","))
}

#[cfg(test)]
mod tests {
    use super::*;

    #[test]
    fn texts_and_arrays() {
        assert_eq!(
            quoted("a\"b\\c\n</script>→"),
            "\"a\\\"b\\\\c\\u000a\\u003c/script>→\""
        );
        assert_eq!(array(vec![quoted("a"), "1".to_string()]), "[\"a\",1]");
        assert_eq!(array(Vec::new()), "[]");
    }
}
