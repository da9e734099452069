//! The sizes that the rule book fixes.

pub const MIN_MACHINES: usize = 2;
pub const MAX_MACHINES: usize = 6;
pub const MAX_CHARES: usize = 12;
/// The desk, number 0, and every chare.
pub const MAX_SENDERS: usize = MAX_CHARES + 1;
pub const MAX_PORTS: usize = 2;
pub const MAX_HOPS: u8 = 7;

/// No SN and no TN passes this.
pub const MAX_NUMBER: u16 = 60_000;

pub const LOG_SIZE: usize = 16;
pub const TABLE_SIZE: usize = 16;
pub const NOTES_SIZE: usize = 64;
pub const WIRE_SIZE: usize = 128;
pub const WINDOW_BITS: u16 = 128;
/// Where the window is held in two words, they meet here.
pub const HALF_WINDOW: u16 = WINDOW_BITS / 2;

/// The desk's number as a sender.
pub const DESK: u8 = 0;
