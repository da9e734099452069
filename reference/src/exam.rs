//! Lists for examiners: a random list with so many machines, chares and frames in which certain things happen.

use crate::answer::{Answer, Question};
use crate::encode::put_line;
use crate::frame::Frame;
use crate::generator::{whole, Bounds, Generator};
use crate::promise::{self, Promise};
use crate::rng::Rng;
use crate::state::State;
use crate::values::{values, with_values};

/// What an examiner asks for.
#[derive(Clone, Debug, Default)]
pub struct Wish {
    pub machines: Option<usize>,
    pub chares: Option<usize>,
    pub frames: usize,
    /// What has to happen.
    pub with: Vec<Promise>,
    /// What must not happen.
    pub without: Vec<Promise>,
    /// No line gets 01, 02 or 03.
    pub clean: bool,
    /// A show of each chare follows on the frames. Unless the run is lost each is answered, and some chare has worked.
    pub shows: bool,
    /// Injected values are from 1 to 9.
    pub small_values: bool,
}

impl Wish {
    fn is_lost(&self) -> bool {
        self.with.iter().any(|promise| promise.loses())
    }
}

/// So many lists are tried.
pub const TRIES: u64 = 200_000;

/// They are tried in rounds of so many.
const ROUND: u64 = 20_000;

const SMALL: std::ops::RangeInclusive<usize> = 1..=9;

/// The first list, from this seed on, that is as asked for. A run is lost only where that is asked for; every other list has
/// exactly the frames.
pub fn wished(wish: &Wish, seed: u64) -> Option<Vec<u8>> {
    let bounds = Bounds {
        machines: wish.machines,
        chares: wish.chares,
        clean: wish.clean,
        crashing: wish
            .with
            .iter()
            .any(|&promise| promise != Promise::Withdraw),
        may_be_lost: Some(wish.is_lost()),
    };
    let lists = (0..TRIES).map(|tried| {
        let own = try_seed(seed, tried);
        let list = whole(Generator::within(bounds.clone(), own, wish.frames));
        match wish.small_values {
            true => small(&list, own),
            false => list,
        }
    });
    lists.into_iter().find_map(|list| finished(wish, list))
}

/// The seed of one try. Neighbouring seeds share no list, and the rounds of a seed lie far from each other.
fn try_seed(seed: u64, tried: u64) -> u64 {
    let (round, within) = (tried / ROUND, tried % ROUND);
    let first = seed.wrapping_mul(ROUND).wrapping_add(within);
    first.wrapping_add(round << 48)
}

/// The same list with small values.
fn small(list: &[u8], seed: u64) -> Vec<u8> {
    let mut rng = Rng::new(seed);
    let new = values(list)
        .iter()
        .map(|_| rng.between(*SMALL.start(), *SMALL.end()) as u16)
        .collect::<Vec<u16>>();
    with_values(list, new)
}

/// The list with its shows, if it is as asked for.
fn finished(wish: &Wish, mut list: Vec<u8>) -> Option<Vec<u8>> {
    let mut state = State::new();
    let mut seen = Vec::new();
    let (mut frames, mut clean) = (0, true);
    for line in list.trim_ascii_end().split(|&b| b == b'\n') {
        let answer = promise::play(&mut state, line, &mut seen);
        frames += 1;
        clean &= !matches!(
            answer,
            Answer::Refused(Question::Form | Question::Job | Question::Range)
        );
    }
    let job = state.job.clone()?;
    let (machines, chares) = (job.machine_count() as usize, job.chare_count() as usize);
    let fits = (clean || !wish.clean)
        && state.lost == wish.is_lost()
        && (state.lost || frames == wish.frames)
        && wish.machines.is_none_or(|wanted| wanted == machines)
        && wish.chares.is_none_or(|wanted| wanted == chares)
        && wish.with.iter().all(|promise| seen.contains(promise))
        && !wish.without.iter().any(|promise| seen.contains(promise));
    if !fits {
        return None;
    }
    if wish.shows {
        let shows = job.chares().map(|chare| Frame::Show { chare });
        let mut heights = Vec::new();
        for show in shows {
            put_line(&mut list, &show);
            match state.step(&show) {
                Answer::Shown { height, .. } => heights.push(height),
                _ if state.lost => {}
                _ => return None,
            }
        }
        if !state.lost && heights.iter().all(|&height| height == 0) {
            return None;
        }
    }
    Some(list)
}
