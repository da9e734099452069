//! The command for people: lists in words, played, explained and drawn; what stands where, and what can come next.

// The list and its lines.
pub mod before;
pub mod engine;
pub mod hints;
pub mod lines;
pub mod notation;
pub mod play;
pub mod report;
pub mod survivors;
pub mod variants;

// What a frame did, from the state before and after it.
pub mod names;
pub mod outcome;
pub mod traffic;
pub mod words;

// What stands, and what can come next.
pub mod ahead;
pub mod state;

pub mod data;
pub mod handout;
pub mod page;
pub mod paper;
pub mod picture;
pub mod table;

pub mod command;
pub mod version;
