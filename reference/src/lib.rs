//! A second implementation of the rule book for sender-based message logging on up to six
//! machines, written apart from the proved engine and compared with it.

// The protocol.
pub mod answer;
pub mod chare;
pub mod deliver;
pub mod frame;
pub mod job;
pub mod limits;
pub mod list;
pub mod message;
pub mod precedes;
pub mod reader;
pub mod recovery;
pub mod seen;
pub mod send;
pub mod state;
pub mod survivors;
pub mod table;
pub mod wire;
pub mod withdraw;
pub mod world;

// Lists of frames to play.
pub mod choice;
pub mod encode;
pub mod exam;
pub mod generator;
pub mod hold;
pub mod junk;
pub mod layout;
pub mod load;
pub mod long;
pub mod mistake;
pub mod mood;
pub mod outlook;
pub mod promise;
pub mod rng;
pub mod values;

// Layouts and lines whose crash sets to count.
pub mod buddies;
pub mod odd;
pub mod same;
pub mod slip;

// Rows of processings and questions what came before what.
pub mod asked;
pub mod faults;
pub mod hard;
pub mod pairs;
pub mod rows;
pub mod samples;

// Demand 3, checked on those lists.
pub mod census;
pub mod check;
pub mod event;
pub mod history;
pub mod reuse;
pub mod run;

// The proved engine, to compare with.
#[cfg(feature = "engine")]
pub mod engine;
