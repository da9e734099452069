//! The row as a table: each processing, the two that arrows come from, and all that came before it.

use super::order::{Clock, Difference, Order};
use super::row::Work;
use crate::names::{count, message, processing, sent_by};

const HEADS: [&str; 7] = [
    "place",
    "processing",
    "frame",
    "message",
    "sent by",
    "follows",
    "came before it",
];

const KEY: &str = "
A processing is called by its chare and TN: 3:2 is chare 3's work of TN 2. One that was done again after
a restart is the same, and stands where it was first done. Arrows come to it from the one that sent its
message and from the one that it follows on its chare; all from which arrows lead to it came before it.
";

pub fn text(order: &Order) -> Result<String, Difference> {
    if order.works.is_empty() {
        return Ok("No processing: the list has no accepted work.\n".to_string());
    }
    let mut rows = vec![HEADS.map(str::to_string)];
    for place in 0..order.works.len() {
        rows.push(cells(&order.works[place], place, order.clock(place)?));
    }
    let head = count(order.works.len(), "processing");
    Ok(format!(
        "{head}, in the order in which they were first done\n\n{}{KEY}",
        aligned(&rows)
    ))
}

fn cells(work: &Work, place: usize, clock: Clock) -> [String; HEADS.len()] {
    let m = work.message;
    [
        (place + 1).to_string(),
        processing(work.name()),
        frames(work),
        message(m.sender, m.receiver, m.sn),
        sent_by(&work.record),
        work.previous().map_or_else(|| "-".to_string(), processing),
        before(clock),
    ]
}

/// "10", "10, again 23, 31".
pub fn frames(work: &Work) -> String {
    let again: Vec<String> = work.frames[1..].iter().map(usize::to_string).collect();
    let first = work.frames[0];
    match again[..] {
        [] => first.to_string(),
        _ => format!("{first}, again {}", again.join(", ")),
    }
}

/// All that came before, chare by chare.
pub fn before(clock: Clock) -> String {
    let chares = (1..).zip(clock).filter(|&(_, last)| last > 0);
    let spans: Vec<String> = chares.map(|(chare, last)| span(chare, 1, last)).collect();
    match spans[..] {
        [] => "-".to_string(),
        _ => spans.join(", "),
    }
}

/// "1:1", "1:1, 1:2", "1:1 to 1:3".
pub fn span(chare: u8, first: u16, last: u16) -> String {
    let [low, high] = [first, last].map(|tn| processing((chare, tn)));
    match last - first {
        0 => low,
        1 => format!("{low}, {high}"),
        _ => format!("{low} to {high}"),
    }
}

/// Columns two blanks apart; the places stand to the right.
fn aligned(rows: &[[String; HEADS.len()]]) -> String {
    let width = |column: usize| rows.iter().map(|row| row[column].chars().count()).max();
    let widths: Vec<usize> = (0..HEADS.len())
        .map(|column| width(column).unwrap_or(0))
        .collect();
    let mut text = String::new();
    for row in rows {
        let mut line = format!("{:>1$}", row[0], widths[0]);
        for (cell, width) in row.iter().zip(&widths).skip(1) {
            line.push_str(&format!("  {cell:<width$}"));
        }
        text.push_str(line.trim_end());
        text.push('\n');
    }
    text
}
