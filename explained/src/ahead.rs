//! What can come next: each packet, work and withdrawal that would be accepted, and what is blocked and why.

use crate::lines::cut;
use crate::names::{capital, count, packet};
use crate::notation::{digits_of, one_line, Places};
use crate::play::{probe, Step};
use crate::state::{self, Wrong};
use crate::words::{crash, refusal, words};
use reference::answer::Answer;
use reference::frame::Frame;
use reference::job::ix;
use reference::state::State;

/// One frame that could come next.
pub struct Try {
    pub digits: String,
    pub words: String,
    /// The line it would get.
    pub line: String,
    pub accepted: bool,
    /// What it would do, or why it would not be accepted.
    pub why: String,
}

/// Where what can come next is asked.
pub struct Moment {
    /// How many frames stand before it, and how many the list has.
    pub frames: usize,
    pub all: usize,
    /// The last of these frames in digits and words, with its line.
    head: Option<String>,
    pub lost_at: Option<usize>,
    state: State,
}

impl Moment {
    /// After so many frames, or else after all of the list, given the engine's output for it.
    pub fn new(input: &[u8], engine: &[u8], after: Option<usize>) -> Result<Moment, Wrong> {
        let all = cut(input).len();
        let frames = after.unwrap_or(all);
        state::at(input, engine, frames, |step| Moment {
            frames,
            all,
            head: step.map(Step::head),
            lost_at: step.and_then(|step| match step.answer {
                Answer::Lost => Some(step.number),
                _ => step.lost_at,
            }),
            state: step.map_or_else(State::new, |step| step.after.clone()),
        })
    }

    pub fn has_job(&self) -> bool {
        self.state.job.is_some()
    }

    /// All frames that are worth trying, by kinds; none without a job or after a lost run.
    pub fn groups(&self) -> Vec<Group> {
        if !self.has_job() || self.lost_at.is_some() {
            return Vec::new();
        }
        let state = &self.state;
        let inject = Frame::Inject {
            chare: 1,
            value: 3,
            hops: 0,
        };
        let group = |name, heads, tries| Group { name, heads, tries };
        let desk = "The desk, for instance";
        vec![
            group(
                "packets",
                ["Packets that can be delivered", "Packets that are blocked"],
                packets(state),
            ),
            group(
                "works",
                ["Works that can be done", "Works that are blocked"],
                works(state),
            ),
            group(
                "machines",
                [
                    "What machines can do",
                    "What machines cannot do, or not without losing the run",
                ],
                machines(state),
            ),
            group(
                "withdrawals",
                [
                    "Injections that can be withdrawn",
                    "Injections that cannot be withdrawn",
                ],
                withdrawals(state),
            ),
            group("desk", [desk, desk], vec![tried(state, inject, first_line)]),
        ]
    }
}

/// Frames of one kind.
pub struct Group {
    pub name: &'static str,
    /// Over those that would be accepted, and over the others.
    heads: [&'static str; 2],
    pub tries: Vec<Try>,
}

/// What can come next, after so many frames or after all of the list.
pub fn next(
    input: &[u8],
    engine: &[u8],
    after: Option<usize>,
    places: &Places,
) -> Result<String, Wrong> {
    let moment = Moment::new(input, engine, after)?;
    let mut text = match (after, &moment.head) {
        (None, _) => format!("After {}.\n", count(moment.frames, "frame")),
        (Some(_), None) => "Before the first frame.\n".to_string(),
        (Some(number), Some(head)) => {
            let (all, place) = (moment.all, places.beside(number));
            format!("After frame {number} of {all}{place}:  {head}\n")
        }
    };
    match moment.lost_at {
        _ if !moment.has_job() => text.push_str(NO_JOB),
        Some(frame) => text.push_str(&format!(
            "The run was lost at frame {frame}: no frame is accepted any more.\n"
        )),
        None => {}
    }
    for group in moment.groups() {
        let (open, blocked): (Vec<&Try>, Vec<&Try>) =
            group.tries.iter().partition(|one| one.accepted);
        put(&mut text, group.heads[0], &open);
        put(&mut text, group.heads[1], &blocked);
    }
    Ok(text)
}

const NO_JOB: &str = "\
No job is set: nothing but a job would be accepted, such as
job 2 machines
chare 1 on 1
";

fn put(text: &mut String, title: &str, tries: &[&Try]) {
    if tries.is_empty() {
        return;
    }
    text.push_str(&format!("\n{title}\n"));
    for one in tries {
        let Try {
            digits,
            words,
            line,
            why,
            ..
        } = *one;
        text.push_str(&match one.accepted {
            true => format!("  {words:<24} {digits}  {why}\n"),
            false => format!("  {words:<24} {digits}  {line}: {}.\n", capital(why)),
        });
    }
}

/// Each name on the wire once: the oldest packet of a name is the one that is delivered.
pub fn packets(state: &State) -> Vec<Try> {
    let mut tries: Vec<Try> = Vec::new();
    let mut seen = Vec::new();
    for (name, content) in state.world.wire.packets() {
        if seen.contains(&name) {
            continue;
        }
        seen.push(name);
        tries.push(tried(state, name.into(), |step| {
            let what = words(step);
            // The first line says that it arrives, the second what comes of it.
            what.get(1)
                .cloned()
                .unwrap_or_else(|| packet(name, content))
        }));
    }
    tries
}

pub fn works(state: &State) -> Vec<Try> {
    let chares = state.job.iter().flat_map(|job| job.chares());
    let work = |chare| tried(state, Frame::Work { chare }, first_line);
    chares.map(work).collect()
}

pub fn machines(state: &State) -> Vec<Try> {
    let mut tries = Vec::new();
    for machine in state.job.iter().flat_map(|job| job.machines()) {
        tries.push(tried(state, Frame::Checkpoint { machine }, first_line));
        tries.push(tried(state, Frame::Crash { machine }, first_line));
        // A restart is no matter for a machine that is up.
        if !state.world.is_up(machine) {
            tries.push(tried(state, Frame::Restart { machine }, first_line));
        }
    }
    tries
}

/// The last injection to each chare that has one.
pub fn withdrawals(state: &State) -> Vec<Try> {
    let chares = state.job.iter().flat_map(|job| job.chares());
    let chares = chares.filter(|&chare| state.world.desk.sent[ix(chare)] > 0);
    let withdraw = |chare| tried(state, Frame::Withdraw { chare }, first_line);
    chares.map(withdraw).collect()
}

fn first_line(step: &Step) -> String {
    words(step).swap_remove(0)
}

fn tried(state: &State, frame: Frame, effect: impl FnOnce(&Step) -> String) -> Try {
    probe(state, &frame, |step| Try {
        digits: digits_of(&frame),
        words: one_line(&frame),
        line: step.line.to_string(),
        accepted: step.answer.is_accepted(),
        why: match step.answer {
            Answer::Accepted(_) | Answer::Shown { .. } => effect(step),
            Answer::Refused(question) => refusal::told(step, question),
            Answer::Lost => format!(
                "the run would be lost, for {}",
                crash::no_cover(step).join(", and ")
            ),
        },
    })
}
