//! A list as a table: the number of each frame, its words, its line.

use crate::lines::shortened;
use crate::notation::{words, Places};
use crate::play::{play, Difference};

/// Longer words are shortened.
const WIDEST: usize = 60;

/// The rows of a frame: one for its line, and for a job one more for each chare.
struct Row {
    frame: String,
    place: String,
    words: String,
    line: String,
}

/// The table, given the engine's lines.
pub fn table(input: &[u8], engine: &[u8], places: &Places) -> Result<String, Difference> {
    let head = ["frame", "at line", "words", "gives"].map(str::to_string);
    let [frame, place, text, line] = head;
    let mut rows = vec![Row {
        frame,
        place,
        words: text,
        line,
    }];
    play(input, engine, |step| {
        let place = places.line(step.number);
        for (at, words) in words(step.given).iter().enumerate() {
            let first = |text: String| if at == 0 { text } else { String::new() };
            rows.push(Row {
                frame: first(step.number.to_string()),
                place: first(place.map_or_else(String::new, |line| line.to_string())),
                words: shortened(words, WIDEST),
                line: first(step.line.to_string()),
            });
        }
    })?;
    let width = |of: fn(&Row) -> &str| rows.iter().map(|row| of(row).chars().count()).max();
    let frame = width(|row| &row.frame).unwrap_or(0);
    let words = width(|row| &row.words).unwrap_or(0);
    // Where every frame stands on the line of its number, that column would say nothing.
    let has_places = places.line(1).is_some();
    let lines = rows.iter().map(|row| {
        let place = match has_places {
            true => format!("  {:>7}", row.place),
            false => String::new(),
        };
        let text = format!(
            "{:>frame$}{place}  {:<words$}  {}",
            row.frame, row.words, row.line
        );
        text.trim_end().to_string() + "\n"
    });
    Ok(lines.collect())
}
