//! The space-time picture: a lane for the desk and for each machine, time running down by frame.

mod arrows;
mod columns;
mod draw;
mod fold;
mod lanes;
mod layout;
mod legend;
mod marked;
mod marks;
mod record;
mod roll;
mod routes;
mod sheets;
mod svg;
mod title;
mod tracks;

pub use draw::{check_length, Drawing, MOST_FRAMES, MOST_ROWS};
pub use layout::ANSWERS_AT;
pub use record::{Recorder, Story};
pub use roll::{signs, Place, Roll, Stand};
pub use sheets::Sheets;
pub use svg::{escape, shared};
