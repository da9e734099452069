//! Moods: what a stretch of a random list likes to do.

use crate::layout::Layout;
use crate::rng::Rng;

/// What a list is about: it fixes the job and the mood that comes back most often.
#[derive(Clone, Copy, Debug, PartialEq, Eq)]
pub enum Theme {
    Steady,
    /// Few deliveries, so that the wire fills.
    Stingy,
    /// Local traffic, so that tables and note lists fill.
    Local,
    /// Many crashes.
    Crashing,
    /// One packet is held back for long.
    Holding,
    /// No checkpoints, so that logs and tables fill.
    Careless,
    /// Frames chosen without a look at the state.
    Blind,
}

impl Theme {
    pub const ALL: [Theme; 7] = [
        Theme::Steady,
        Theme::Stingy,
        Theme::Local,
        Theme::Crashing,
        Theme::Holding,
        Theme::Careless,
        Theme::Blind,
    ];

    pub fn layout(self, rng: &mut Rng) -> Layout {
        match self {
            _ if rng.one_in(4) => Layout::Any,
            Theme::Stingy => Layout::Wide,
            Theme::Local => Layout::Crowded,
            Theme::Holding => Layout::Narrow,
            Theme::Crashing if rng.one_in(2) => Layout::Narrow,
            _ => *rng.pick(&[Layout::Any, Layout::Narrow, Layout::Wide, Layout::Crowded]),
        }
    }
}

/// The things a list can do next.
#[derive(Clone, Copy, Debug, PartialEq, Eq)]
pub enum Act {
    Inject,
    Deliver,
    Work,
    Checkpoint,
    Crash,
    Restart,
    Show,
    Blind,
    Junk,
    Withdraw,
}

pub const ACTS: [Act; 10] = [
    Act::Inject,
    Act::Deliver,
    Act::Work,
    Act::Checkpoint,
    Act::Crash,
    Act::Restart,
    Act::Show,
    Act::Blind,
    Act::Junk,
    Act::Withdraw,
];

/// Which packet of the wire comes first.
#[derive(Clone, Copy, Debug, PartialEq, Eq)]
pub enum Order {
    Oldest,
    Newest,
    Any,
}

#[derive(Clone, Debug)]
pub struct Mood {
    /// Weights in the order of `ACTS`. Restart counts only while a machine is down.
    pub acts: [u32; ACTS.len()],
    /// How gladly a packet of each kind is delivered, from 0 to 8.
    pub kinds: [u32; 5],
    pub order: Order,
    /// Only packets about the desk's messages, until the wire is full.
    pub desk_only: bool,
    /// Holds one packet back.
    pub holds: bool,
    /// No checkpoint of a crowded machine until its note list is full.
    pub spares_crowd: bool,
    /// No checkpoints unless there is no way on.
    pub careless: bool,
    /// The largest number of hops of an injection.
    pub hops: u8,
    /// How many works may be outstanding before nothing more is injected.
    pub budget: usize,
    /// One injection in so many is a mistake, taken back at once.
    pub errs: usize,
    /// How many frames in a row may be refused for want of space before checkpoints follow.
    pub patience: usize,
    /// How many frames the mood lasts.
    pub lasts: usize,
}

impl Mood {
    pub fn random(rng: &mut Rng, theme: Theme) -> Mood {
        let mut mood = Mood {
            //     inject deliver work check crash restart show blind junk withdraw
            acts: [12, 50, 25, 4, 1, 12, 2, 2, 1, 2],
            kinds: [8; 5],
            order: *rng.pick(&[Order::Oldest, Order::Newest, Order::Any, Order::Any]),
            desk_only: false,
            holds: false,
            spares_crowd: false,
            careless: false,
            hops: *rng.pick(&[0, 1, 2, 7, 7]),
            budget: *rng.pick(&[4, 8, 12, 12, 24]),
            errs: *rng.pick(&[6, 30, 100]),
            patience: *rng.pick(&[1, 2, 4, 8]),
            lasts: rng.between(100, 700),
        };
        if rng.one_in(60) {
            mood.budget = usize::MAX;
        }
        match theme {
            Theme::Steady => {}
            Theme::Stingy => {
                mood.acts = [20, 40, 25, 5, 1, 6, 1, 1, 1, 1];
                mood.desk_only = true;
                mood.hops = *rng.pick(&[1, 1, 1, 2]);
                mood.budget = 400;
                mood.patience = 20;
                mood.lasts = rng.between(600, 1500);
            }
            Theme::Local => {
                mood.acts = [10, 45, 35, 2, 1, 12, 1, 1, 1, 1];
                mood.acts[4] = rng.below(2) as u32;
                mood.spares_crowd = true;
                mood.hops = 7;
                mood.budget = *rng.pick(&[12, 24, 48]);
                mood.patience = 40;
                mood.lasts = rng.between(300, 900);
            }
            Theme::Crashing => {
                mood.acts = [12, 45, 25, 8, 11, 12, 2, 2, 1, 4];
                // A packet kind that lags is lost with its giver, which leaves holes.
                mood.kinds[*rng.pick(&[0, 1, 1, 1, 2, 3, 3, 4])] = rng.between(1, 3) as u32;
                mood.order = *rng.pick(&[Order::Newest, Order::Any]);
                mood.budget = *rng.pick(&[8, 12, 24]);
                mood.hops = *rng.pick(&[0, 1, 2, 7]);
            }
            Theme::Holding => {
                mood.acts = [16, 55, 30, 4, 1, 20, 1, 1, 1, 1];
                mood.holds = true;
                mood.hops = u8::from(rng.one_in(3));
                mood.budget = 8;
                // The 128 messages of a window take some 700 frames, those of a chare twice as many.
                mood.lasts = rng.between(1000, 3000) * (1 + mood.hops as usize);
            }
            Theme::Careless => {
                mood.acts = [14, 45, 30, 0, 1, 12, 2, 3, 1, 2];
                mood.careless = true;
                mood.patience = 30;
            }
            Theme::Blind => mood.acts = [10, 30, 15, 3, 1, 8, 5, 40, 10, 4],
        }
        mood
    }
}
