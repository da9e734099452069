//! The way of each packet through the picture.

use super::layout::{Layout, BAND};
use super::record::{End, Flight, Story};
use super::svg::Point;

/// How far a packet that never ends is drawn.
const STUB: f64 = 50.0;

/// 1 for a flight to the right, -1 for one to the left.
pub fn side(flight: &Flight) -> f64 {
    if flight.to > flight.from {
        1.0
    } else {
        -1.0
    }
}

/// The way of every flight, from its tail on.
///
/// A packet leaves its lane level, beneath its label, goes down on a track between two lanes, and reaches its end level, in the row
/// of its delivery; one that was taken back comes back to its lane so. So it meets no mark and no label of other rows, and lies on no
/// other packet's way.
pub fn routes(story: &Story, layout: &Layout) -> Vec<Vec<Point>> {
    (0..story.flights.len())
        .map(|at| route(story, layout, at))
        .collect()
}

fn route(story: &Story, layout: &Layout, at: usize) -> Vec<Point> {
    let flight = &story.flights[at];
    let side = side(flight);
    let tail = tail(story, layout, at);
    let Some(row) = flight.end.row() else {
        // Level, so that it keeps clear of the next row.
        return vec![tail, Point::new(tail.x + side * STUB, tail.y)];
    };
    let moment = layout.moment(row);
    let head = Point::new(layout.lane(flight.to) - side * (BAND + 1.0), moment);
    let track = layout.track(story, at);
    let down = [Point::new(track, tail.y), Point::new(track, moment)];
    match flight.end {
        End::Delivered(_) if is_straight(story, at) => vec![tail, head],
        End::Delivered(_) => vec![tail, down[0], down[1], head],
        End::Withdrawn(_) => {
            let back = Point::new(layout.beside_mark(&story.rows[row], side), moment);
            vec![tail, down[0], down[1], back]
        }
        End::Lost(_) | End::OnWire => vec![tail, down[0], down[1]],
    }
}

fn tail(story: &Story, layout: &Layout, at: usize) -> Point {
    let flight = &story.flights[at];
    let row = &story.rows[flight.sent];
    let order = row.sent.iter().position(|&f| f == at).unwrap_or(0);
    let y = layout.departure(row, flight.sent, order);
    Point::new(layout.lane(flight.from), y)
}

/// Delivered in the next row, with nothing between: it goes straight there.
pub fn is_straight(story: &Story, at: usize) -> bool {
    let flight = &story.flights[at];
    let row = &story.rows[flight.sent];
    let is_last = row.caught_up.is_none() && row.sent.last() == Some(&at);
    flight.end == End::Delivered(flight.sent + 1) && is_last
}
