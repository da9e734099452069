//! Random lists that look at the running state to get somewhere.

use crate::answer::{Answer, Question};
use crate::encode::{bytes, put_digits};
use crate::frame::{parse, Frame};
use crate::hold::Held;
use crate::job::{ix, Job};
use crate::junk::{bad_job, blind_frame, put_garbled};
use crate::layout::sized_job;
use crate::limits::MAX_HOPS;
use crate::load::Load;
use crate::mistake::Mistake;
use crate::mood::{Act, Mood, Theme, ACTS};
use crate::outlook::asks_again;
use crate::rng::Rng;
use crate::state::State;
use crate::world::Phase;

/// How the digits of a list are written.
#[derive(Clone, Copy, PartialEq)]
enum Letters {
    Capital,
    Small,
    Mixed,
}

/// What a list is held to, besides its seed.
#[derive(Clone, Debug, Default)]
pub struct Bounds {
    pub machines: Option<usize>,
    pub chares: Option<usize>,
    /// No garbled frame and none out of range, in capitals.
    pub clean: bool,
    /// Many crashes, and DATA that comes twice after them.
    pub crashing: bool,
    /// The run may be lost in the last third, or never; not said, in every second list.
    pub may_be_lost: Option<bool>,
}

pub struct Generator {
    pub(crate) rng: Rng,
    pub(crate) bounds: Bounds,
    theme: Theme,
    pub(crate) mood: Mood,
    letters: Letters,
    /// Frames still to come.
    left: usize,
    /// Frames still to come in this mood.
    mood_left: usize,
    /// When so few frames are left, the run may be lost.
    doom: usize,
    pub(crate) held: Option<Held>,
    load: Option<Load>,
    /// Frames refused for want of space since the last one that was accepted.
    pub(crate) cramped: usize,
    /// The last frame, if it was one.
    pub(crate) last: Option<Frame>,
    pub(crate) mistake: Option<Mistake>,
    /// The machine to crash next: the last checkpoint was made for this crash.
    pub(crate) struck: Option<u8>,
    /// Frames since an inject, a delivery or a work was accepted.
    pub(crate) stuck: usize,
}

impl Generator {
    pub fn new(seed: u64, frames: usize) -> Generator {
        Generator::within(Bounds::default(), seed, frames)
    }

    pub fn crashing(seed: u64, frames: usize) -> Generator {
        let bounds = Bounds {
            crashing: true,
            ..Bounds::default()
        };
        Generator::within(bounds, seed, frames)
    }

    pub fn within(bounds: Bounds, seed: u64, frames: usize) -> Generator {
        let mut rng = Rng::new(seed);
        let theme = match bounds.crashing {
            true => Theme::Crashing,
            false => *rng.pick(&Theme::ALL),
        };
        let mood = Mood::random(&mut rng, theme);
        // Every second list may be lost, in its last third, so that lists go deep first.
        let may_be_lost = bounds.may_be_lost.unwrap_or_else(|| rng.one_in(2));
        let doom = if may_be_lost {
            rng.below(frames / 3 + 1)
        } else {
            0
        };
        Generator {
            theme,
            letters: match bounds.clean {
                true => Letters::Capital,
                false => *rng.pick(&[Letters::Capital, Letters::Small, Letters::Mixed]),
            },
            bounds,
            left: frames,
            mood_left: mood.lasts,
            doom,
            held: None,
            load: None,
            cramped: 0,
            last: None,
            mistake: None,
            struck: None,
            stuck: 0,
            mood,
            rng,
        }
    }

    /// Tells the list how its last frame was answered.
    pub fn heard(&mut self, answer: Answer) {
        self.stuck += 1;
        match answer {
            Answer::Accepted(_) => {
                self.cramped = 0;
                let moves = |frame: &Frame| {
                    matches!(
                        frame,
                        Frame::Inject { .. } | Frame::Deliver(_) | Frame::Work { .. }
                    )
                };
                if self.last.as_ref().is_some_and(moves) {
                    self.stuck = 0;
                }
                self.look_back();
            }
            Answer::Refused(Question::LogSpace | Question::Space | Question::WireSpace) => {
                self.cramped += 1;
            }
            _ => {}
        }
    }

    /// The works that one more injection may lead to.
    pub(crate) fn load_left(&self, job: &Job, state: &State) -> usize {
        let load = self.load.as_ref();
        let outstanding = load.map_or(0, |load| load.outstanding(job, &state.world));
        self.mood.budget.saturating_sub(outstanding)
    }

    /// The most hops up to `hops` with which an injection stays within `works`.
    pub(crate) fn fitting_hops(&self, chare: u8, hops: u8, works: usize) -> Option<u8> {
        let Some(load) = &self.load else {
            return Some(hops);
        };
        (0..=hops).rev().find(|&h| load.of(chare, h) <= works)
    }

    /// Adds the next line, newline included, to `out`; says false when the list is at its end.
    pub fn next(&mut self, state: &State, out: &mut Vec<u8>) -> bool {
        if self.left == 0 {
            return false;
        }
        if state.lost {
            // Nothing but 04 can follow: some more frames, then the end.
            self.left = self.left.min(12);
        }
        if self.stuck > 100 {
            // Choked for good on full logs and tables.
            self.left = self.left.min(10);
        }
        self.left -= 1;
        self.change_mood();
        if self.load.is_none() {
            self.load = state.job.as_ref().map(Load::new);
        }
        let start = out.len();
        match &state.job {
            None => self.put_before_job(out),
            Some(job) => self.put_frame(job, state, out),
        }
        self.keep_alive(state, start, out);
        self.write_letters(&mut out[start..]);
        out.push(b'\n');
        true
    }

    /// May the run be lost from now on?
    pub(crate) fn is_doomed(&self) -> bool {
        self.left < self.doom
    }

    fn change_mood(&mut self) {
        if self.mood_left == 0 {
            let theme = if self.rng.one_in(3) {
                *self.rng.pick(&Theme::ALL)
            } else {
                self.theme
            };
            self.mood = Mood::random(&mut self.rng, theme);
            self.mood_left = self.mood.lasts;
            self.held = None;
        }
        self.mood_left -= 1;
    }

    fn put_before_job(&mut self, out: &mut Vec<u8>) {
        let choice = match self.bounds.clean {
            true => 3,
            false => self.rng.below(12),
        };
        match choice {
            0 => put_garbled(&mut self.rng, out),
            1 => put_digits(out, &bad_job(&mut self.rng)),
            2 => put_digits(out, &bytes(&blind_frame(&mut self.rng, 6, 12))),
            _ => {
                let layout = self.theme.layout(&mut self.rng);
                let Bounds {
                    machines, chares, ..
                } = self.bounds;
                let job = Frame::Job(sized_job(&mut self.rng, layout, machines, chares));
                put_digits(out, &bytes(&job));
            }
        }
    }

    fn put_frame(&mut self, job: &Job, state: &State, out: &mut Vec<u8>) {
        if self.cramped > self.mood.patience && self.rng.one_in(2) {
            if let Some(frame) = self.relief(job, state) {
                return put_digits(out, &bytes(&frame));
            }
        }
        if let Some(frame) = self.stale_ask(state) {
            return put_digits(out, &bytes(&frame));
        }
        let act = self.correction().unwrap_or_else(|| self.act(state));
        let frame = match act {
            Act::Junk => {
                return match self.rng.below(8) {
                    0 => put_digits(out, &bad_job(&mut self.rng)),
                    _ => put_garbled(&mut self.rng, out),
                }
            }
            Act::Blind => self.blind(job, state),
            Act::Show => Frame::Show {
                chare: self.rng.between(1, job.chare_count() as usize) as u8,
            },
            Act::Inject => self.inject(job, state),
            Act::Deliver => self.deliver(job, state),
            Act::Work => self.work(job, state),
            Act::Checkpoint => self.checkpoint(job, state),
            Act::Crash => self.crash(job, state),
            Act::Restart => self.restart(job, state),
            Act::Withdraw => self.withdraw(job, state),
        };
        put_digits(out, &bytes(&frame));
    }

    fn blind(&mut self, job: &Job, state: &State) -> Frame {
        let frame = blind_frame(&mut self.rng, job.machine_count(), job.chare_count());
        match frame {
            Frame::Inject { chare, value, hops } if hops <= MAX_HOPS && job.has_chare(chare) => {
                let left = self.load_left(job, state);
                let hops = self.fitting_hops(chare, hops, left).unwrap_or(0);
                Frame::Inject { chare, value, hops }
            }
            _ => frame,
        }
    }

    fn act(&mut self, state: &State) -> Act {
        if self.is_doomed() && !state.lost && self.rng.one_in(8) {
            return Act::Crash;
        }
        if self.struck.is_some() {
            return Act::Crash;
        }
        let down = state.world.phases.contains(&Phase::Down);
        if down && self.stuck > 12 && self.rng.one_in(3) {
            return Act::Restart;
        }
        // A crash empties much of the wire, so a stingy list fills it first.
        let wire = state.world.wire.len();
        let trap = asks_again(&state.world).is_some();
        let mut weights = self.mood.acts;
        for (act, weight) in ACTS.iter().zip(&mut weights) {
            match act {
                Act::Blind | Act::Junk if self.bounds.clean => *weight = 0,
                Act::Restart if !down => *weight = 0,
                Act::Crash if !state.world.all_well() => *weight = 0,
                Act::Crash if self.mood.desk_only => *weight = 8 * u32::from(wire > 120),
                Act::Crash => *weight = self.crash_weight(&state.world, *weight),
                Act::Withdraw if trap => *weight *= 8,
                _ => {}
            }
        }
        ACTS[self.rng.weighted(&weights)]
    }

    /// Turns a crash without cover into a show, unless the list is near its end.
    fn keep_alive(&mut self, state: &State, start: usize, out: &mut Vec<u8>) {
        self.last = parse(&out[start..]);
        let (Some(job), Some(Frame::Crash { machine })) = (&state.job, self.last) else {
            return;
        };
        let safe = !job.has_machine(machine)
            || state.world.phases[ix(machine)] == Phase::Down
            || state.world.has_cover(machine);
        if !safe && !self.is_doomed() && !self.rng.one_in(4096) {
            let show = Frame::Show { chare: 1 };
            out.truncate(start);
            put_digits(out, &bytes(&show));
            self.last = Some(show);
        }
    }

    fn write_letters(&mut self, line: &mut [u8]) {
        match self.letters {
            Letters::Capital => {}
            Letters::Small => line.make_ascii_lowercase(),
            Letters::Mixed => {
                for byte in line {
                    if self.rng.one_in(2) {
                        byte.make_ascii_lowercase();
                    }
                }
            }
        }
    }
}

/// A whole list. Every fourth ends without a newline.
pub fn list(seed: u64, frames: usize) -> Vec<u8> {
    let mut out = whole(Generator::new(seed, frames));
    if seed % 4 == 3 {
        out.pop();
    }
    out
}

/// All that a generator gives, each line with its newline.
pub fn whole(mut generator: Generator) -> Vec<u8> {
    let mut state = State::new();
    let mut out = Vec::new();
    let mut start = 0;
    while generator.next(&state, &mut out) {
        let answer = state.line(&out[start..out.len() - 1]);
        generator.heard(answer);
        start = out.len();
    }
    out
}
