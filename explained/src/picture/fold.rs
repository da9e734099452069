//! Folds stretches that repeat: the first and the last round stay, those between become one row.

use super::record::{End, Row, Story};
use crate::names::count;
use std::collections::HashMap;

/// The longest round that is looked for.
const LONGEST: usize = 24;
/// Fewer hidden rows are not worth a fold.
const LEAST: usize = 6;

/// The folded story, and for each row of the whole one its row there.
pub fn fold(story: &Story) -> (Story, Vec<usize>) {
    let folds = stretches(story);
    let mut rows: Vec<Row> = Vec::new();
    let mut places = Vec::new();
    let mut left = folds.iter().peekable();
    let mut at = 0;
    while at < story.rows.len() {
        let to = match left.next_if(|stretch| stretch.from == at) {
            Some(stretch) => {
                rows.push(folded(story, stretch));
                stretch.to
            }
            None => {
                rows.push(story.rows[at].clone());
                at + 1
            }
        };
        places.resize(to, rows.len() - 1);
        at = to;
    }
    (with_flights(story, rows, &places), places)
}

/// Rows that are hidden: `from` up to and without `to`.
#[derive(Debug, PartialEq, Eq)]
struct Stretch {
    from: usize,
    to: usize,
    round: usize,
}

fn stretches(story: &Story) -> Vec<Stretch> {
    let rows = Rows::new(story);
    let mut found = Vec::new();
    let mut at = 0;
    while at < story.rows.len() {
        match (1..=LONGEST).find_map(|round| rows.stretch(at, round)) {
            Some(stretch) => {
                at = stretch.to;
                found.push(stretch);
            }
            None => at += 1,
        }
    }
    found
}

/// What folding needs of each row, in numbers.
struct Rows {
    /// Rows of one shape have one number.
    shapes: Vec<usize>,
    /// The last row in which a packet ends that went out here.
    ends: Vec<usize>,
    /// The first row in which a packet went out that ends here.
    begins: Vec<usize>,
}

impl Rows {
    fn new(story: &Story) -> Rows {
        let mut numbers: HashMap<&str, usize> = HashMap::new();
        let mut number = |shape| {
            let next = numbers.len();
            *numbers.entry(shape).or_insert(next)
        };
        let mut rows = Rows {
            shapes: story
                .rows
                .iter()
                .map(|row| number(row.shape.as_str()))
                .collect(),
            ends: (0..story.rows.len()).collect(),
            begins: (0..story.rows.len()).collect(),
        };
        for flight in &story.flights {
            if let Some(end) = flight.end.row() {
                rows.ends[flight.sent] = rows.ends[flight.sent].max(end);
                rows.begins[end] = rows.begins[end].min(flight.sent);
            }
        }
        rows
    }

    /// The stretch whose first round begins at a row, if rounds of this length repeat from there on.
    fn stretch(&self, at: usize, round: usize) -> Option<Stretch> {
        let shapes = &self.shapes[at..];
        let same = shapes.iter().zip(shapes.get(round..)?);
        let same = same.take_while(|(one, two)| one == two).count();
        let hidden = (same / round).checked_sub(1)? * round;
        let (from, to) = (at + round, at + round + hidden);
        let stretch = Stretch { from, to, round };
        (hidden >= LEAST && self.is_closed(&stretch)).then_some(stretch)
    }

    /// Does no packet go in or out? One that stays on the wire may.
    fn is_closed(&self, stretch: &Stretch) -> bool {
        let Stretch { from, to, .. } = *stretch;
        self.begins[from..to].iter().all(|&begin| begin >= from)
            && self.ends[from..to].iter().rev().all(|&end| end < to)
    }
}

/// The row that stands for a stretch.
fn folded(story: &Story, stretch: &Stretch) -> Row {
    let rows = &story.rows[stretch.from..stretch.to];
    let (first, last) = (&rows[0], &rows[rows.len() - 1]);
    let rounds = rows.len() / stretch.round;
    let mut headline = match stretch.round {
        1 => format!("folded: {rounds} more frames like the one above"),
        round => format!("folded: {rounds} more rounds of {round} frames like those above"),
    };
    let inside = |row: usize| (stretch.from..stretch.to).contains(&row);
    let waiting = story
        .flights
        .iter()
        .filter(|f| f.end == End::OnWire && inside(f.sent))
        .count();
    if waiting > 0 {
        headline.push_str(&format!(
            "; {} not delivered by the end",
            count(waiting, "packet")
        ));
    }
    Row {
        numbers: (first.numbers.0, last.numbers.1),
        given: format!("{}-{}", first.numbers.0, last.numbers.1),
        line: String::new(),
        headline,
        marks: Vec::new(),
        arrival: None,
        sent: Vec::new(),
        caught_up: None,
        ..last.clone()
    }
}

/// The flights that are not hidden, at their new rows.
fn with_flights(story: &Story, mut rows: Vec<Row>, places: &[usize]) -> Story {
    let hidden = |row: usize| rows[places[row]].is_folded();
    let mut flights = Vec::new();
    let mut moved = vec![None; story.flights.len()];
    for (at, flight) in story.flights.iter().enumerate() {
        if hidden(flight.sent) {
            continue;
        }
        moved[at] = Some(flights.len());
        let mut flight = flight.clone();
        flight.sent = places[flight.sent];
        flight.end = match flight.end {
            End::OnWire => End::OnWire,
            End::Delivered(row) => End::Delivered(places[row]),
            End::Lost(row) => End::Lost(places[row]),
            End::Withdrawn(row) => End::Withdrawn(places[row]),
        };
        flights.push(flight);
    }
    for row in &mut rows {
        row.sent = row.sent.iter().filter_map(|&at| moved[at]).collect();
        row.arrival = row
            .arrival
            .take()
            .and_then(|(at, remark)| Some((moved[at]?, remark)));
    }
    Story {
        job: story.job.clone(),
        rows,
        flights,
    }
}
