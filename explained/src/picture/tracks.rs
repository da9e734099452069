//! Between two lanes packets go down on tracks, each on its own where it would meet another.

use super::record::{End, Flight, Story};
use super::routes::{is_straight, side};

/// The track of each flight that goes down between two lanes, and how many tracks stand there.
pub struct Tracks {
    of: Vec<Option<usize>>,
    counts: Vec<usize>,
}

/// The gutter right of its own number's lane.
pub fn gutter(flight: &Flight) -> usize {
    usize::from(if side(flight) > 0.0 {
        flight.from
    } else {
        flight.from - 1
    })
}

impl Tracks {
    pub fn new(story: &Story, lanes: u8) -> Tracks {
        let mut of = vec![None; story.flights.len()];
        // For each track of each gutter, the row in which it is free again.
        let mut free: Vec<Vec<usize>> = vec![Vec::new(); usize::from(lanes)];
        for (at, flight) in story.flights.iter().enumerate() {
            let end = match flight.end {
                End::OnWire => continue,
                End::Delivered(_) if is_straight(story, at) => continue,
                End::Delivered(row) | End::Lost(row) | End::Withdrawn(row) => row,
            };
            let here = &mut free[gutter(flight)];
            // What ends in a row does so above what goes out in it.
            let track = here.iter().position(|&row| row <= flight.sent);
            let track = track.unwrap_or_else(|| {
                here.push(0);
                here.len() - 1
            });
            here[track] = end;
            of[at] = Some(track);
        }
        let counts = free.iter().map(Vec::len).collect();
        Tracks { of, counts }
    }

    /// How many tracks a gutter has.
    pub fn count(&self, gutter: usize) -> usize {
        self.counts.get(gutter).copied().unwrap_or(0)
    }

    pub fn of(&self, flight: usize) -> usize {
        self.of[flight].unwrap_or(0)
    }
}
