//! What is printed: a page of HTML whose style says how its sheets of paper are.

use crate::picture::{escape, shared, Sheets};

/// The style of the paper: A4, upright or lying, with the title and the number at the foot of each sheet.
pub fn style(title: &str, lying: bool) -> String {
    let side = if lying { "landscape" } else { "portrait" };
    format!(
        "@page {{ size: A4 {side}; margin: 10mm 10mm 14mm;
  @bottom-left {{ content: {title}; font: 8pt sans-serif; color: #555; }}
  @bottom-right {{ content: \"page \" counter(page) \" of \" counter(pages); font: 8pt sans-serif; color: #555; }} }}
{}",
        include_str!("paper.css"),
        title = quoted(title),
    )
}

/// A text of a style sheet. All but letters and digits is written by its number, so that nothing can end the text or the style.
fn quoted(text: &str) -> String {
    let letter = |letter: char| match letter {
        letter if letter.is_alphanumeric() || letter == ' ' => letter.to_string(),
        other => format!("\\{:X} ", u32::from(other)),
    };
    let text: String = text.chars().map(letter).collect();
    format!("\"{text}\"")
}

/// A file to print.
pub fn document(title: &str, lying: bool, body: &str) -> String {
    format!(
        "<!DOCTYPE html>
<html lang=\"en\">
<head>
<meta charset=\"utf-8\">
<meta name=\"viewport\" content=\"width=device-width, initial-scale=1\">
<title>{}</title>
<style>
{}</style>
</head>
<body class=\"paper\">
{body}</body>
</html>
",
        escape(title),
        style(title, lying)
    )
}

/// All sheets of a picture in one file.
pub fn picture(title: &str, sheets: &Sheets) -> String {
    let body = shared() + &sheets.inline();
    document(title, sheets.lying, &body)
}

#[cfg(test)]
mod tests {
    use super::*;

    #[test]
    fn nothing_ends_a_text() {
        assert_eq!(quoted("a 1"), "\"a 1\"");
        assert_eq!(quoted("\"</style>"), "\"\\22 \\3C \\2F style\\3E \"");
        assert_eq!(quoted("ü\\\n"), "\"ü\\5C \\A \"");
    }
}
