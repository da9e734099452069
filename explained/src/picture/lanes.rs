//! The lanes: up, down, catching up, and the end of a run that is lost.

use super::layout::{Layout, BAND};
use super::record::Story;
use super::svg::{Anchor, Area, Point, Svg};
use reference::answer::Answer;
use reference::job::{ix, Job};
use reference::limits::DESK;
use reference::world::Phase;

/// How a lane looks over a stretch.
#[derive(Clone, Copy, PartialEq)]
pub enum Look {
    /// Before the job, and once the run is lost.
    Idle,
    In(Phase),
}

/// The height that the names of the lanes take.
pub const HEADS: f64 = 62.0;

pub fn put_heads(svg: &mut Svg, story: &Story, layout: &Layout, y: f64) {
    for lane in layout.lanes() {
        let lines = match (lane, &story.job) {
            (DESK, _) | (_, None) => ["desk".to_string(), String::new(), String::new()],
            (machine, Some(job)) => [
                format!("machine {machine}"),
                chares(job, machine),
                format!("buddy: machine {}", job.buddy_of(machine)),
            ],
        };
        let classes = ["lane", "quiet", "quiet"];
        for (at, (line, class)) in lines.iter().zip(classes).enumerate() {
            let place = Point::new(layout.lane(lane), y + 16.0 * at as f64);
            let class = format!("class=\"{class}\"");
            svg.text(place, Anchor::Middle, &class, line);
        }
    }
}

/// The chares of a machine, runs of three and more as "1-3".
fn chares(job: &Job, machine: u8) -> String {
    let mut runs: Vec<(u8, u8)> = Vec::new();
    for chare in job.chares_on(machine) {
        match runs.last_mut() {
            Some((_, last)) if *last + 1 == chare => *last = chare,
            _ => runs.push((chare, chare)),
        }
    }
    let run = |&(first, last): &(u8, u8)| match last - first {
        0 => first.to_string(),
        1 => format!("{first}, {last}"),
        _ => format!("{first}-{last}"),
    };
    let text: Vec<String> = runs.iter().map(run).collect();
    match runs[..] {
        [] => "no chare".to_string(),
        [(first, last)] if first == last => format!("chare {first}"),
        _ => format!("chares {}", text.join(", ")),
    }
}

pub fn put_lanes(svg: &mut Svg, story: &Story, layout: &Layout) {
    for lane in layout.lanes() {
        let (mut look, mut from) = (Look::Idle, layout.top());
        for (y, next) in changes(story, layout, lane) {
            if next != look {
                put_band(svg, layout.lane(lane), from, y, look);
                (look, from) = (next, y);
            }
        }
        put_band(svg, layout.lane(lane), from, layout.bottom(), look);
    }
    for (at, row) in story.rows.iter().enumerate() {
        let y = layout.moment(at);
        let last = layout.lanes().last().unwrap_or(0);
        let from = Point::new(layout.lane(0) - 40.0, y);
        let to = Point::new(layout.lane(last) + 40.0, y);
        if row.answer == Answer::Lost {
            svg.line(from, to, "stroke=\"#b3261e\" stroke-width=\"2\"");
        }
        if row.is_folded() {
            put_fold(svg, layout, at);
        }
    }
}

/// A folded stretch: the lanes are broken.
fn put_fold(svg: &mut Svg, layout: &Layout, at: usize) {
    let area = layout.row(at);
    for lane in layout.lanes() {
        let x = layout.lane(lane);
        let gap = Area {
            x: x - 2.0 * BAND,
            y: area.y + 8.0,
            width: 4.0 * BAND,
            height: area.height - 16.0,
        };
        svg.rect(gap, 0.0, "fill=\"#fff\"");
        for y in [area.y + 8.0, area.y + area.height - 8.0] {
            let (from, to) = (Point::new(x - 9.0, y + 3.0), Point::new(x + 9.0, y - 3.0));
            svg.line(from, to, "stroke=\"#666\" stroke-width=\"1.6\"");
        }
    }
}

/// How a lane looks from each height on.
fn changes(story: &Story, layout: &Layout, lane: u8) -> Vec<(f64, Look)> {
    let mut changes = Vec::new();
    for (at, row) in story.rows.iter().enumerate() {
        let moment = layout.moment(at);
        let phase = match lane {
            DESK => Phase::Up,
            machine => row.phases[ix(machine)],
        };
        if !row.running {
            changes.push((moment, Look::Idle));
        } else if lane != DESK && row.caught_up == Some(lane) {
            // A restart that ends its own catching up shows both.
            changes.push((moment, Look::In(Phase::CatchingUp)));
            changes.push((layout.caught_up(row, at), Look::In(phase)));
        } else {
            changes.push((moment, Look::In(phase)));
        }
    }
    changes
}

/// One stretch of a lane.
pub fn put_band(svg: &mut Svg, x: f64, from: f64, to: f64, look: Look) {
    let area = Area {
        x: x - BAND,
        y: from,
        width: 2.0 * BAND,
        height: to - from,
    };
    match look {
        Look::Idle => {
            let more = "stroke=\"#999\" stroke-width=\"2\" stroke-dasharray=\"2 4\"";
            svg.line(Point::new(x, from), Point::new(x, to), more);
        }
        Look::In(Phase::Up) => svg.rect(area, 0.0, "fill=\"#d5d9de\""),
        Look::In(Phase::Down) => svg.rect(area, 0.0, "fill=\"#222\""),
        Look::In(Phase::CatchingUp) => {
            svg.rect(area, 0.0, "fill=\"url(#hatch)\" stroke=\"#2f6fb5\"");
        }
    }
}
