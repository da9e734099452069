//! Which messages of one sender a receiver has worked.

use crate::limits::WINDOW_BITS;

/// Every SN up to the mark is worked; the window's lowest bit stands for the SN just above.
#[derive(Clone, Copy, Debug, Default, PartialEq, Eq)]
pub struct Seen {
    pub mark: u16,
    pub window: u128,
}

/// What the lookup of an SN replies.
#[derive(Clone, Copy, Debug, PartialEq, Eq)]
pub enum Reply {
    Worked,
    /// Not worked, and in the window.
    Open,
    /// Above the window's last SN, by so many.
    Beyond(u16),
}

impl Seen {
    pub fn look(&self, sn: u16) -> Reply {
        match sn.saturating_sub(self.mark) {
            0 => Reply::Worked,
            above if above > WINDOW_BITS => Reply::Beyond(above - WINDOW_BITS),
            above if self.window >> (above - 1) & 1 == 1 => Reply::Worked,
            _ => Reply::Open,
        }
    }

    /// Marks an SN as worked. One that is not open changes nothing.
    pub fn add(&mut self, sn: u16) {
        if self.look(sn) != Reply::Open {
            return;
        }
        self.window |= 1 << (sn - self.mark - 1);
        let run = (!self.window).trailing_zeros();
        self.mark += run as u16;
        // A run of all 128 ones empties the window.
        self.window = self.window.checked_shr(run).unwrap_or(0);
    }
}
