//! The legend: a sample and a word for everything that the picture uses.

use super::arrows::{colour, put_arrow};
use super::columns::put_refusal;
use super::lanes::{put_band, Look};
use super::layout::pill_width;
use super::marked::MarkKind;
use super::marks::put_pill;
use super::record::End;
use super::svg::{text_width, Anchor, Point, Svg};
use crate::lines::wrapped;
use crate::names;
use crate::words::letter;
use reference::answer::Rule;
use reference::wire::Kind;
use reference::world::Phase;

#[derive(Clone, Copy)]
enum Sample {
    Packet(Kind, End),
    Pill(MarkKind, &'static str),
    Lane(Look),
    Refusal,
    /// An accepted line with its letter.
    Letter(Rule),
}

const SAMPLES: [(Sample, &str); 21] = [
    (Sample::Packet(Kind::Ask, End::Delivered(0)), ""),
    (Sample::Packet(Kind::Grant, End::Delivered(0)), ""),
    (Sample::Packet(Kind::Data, End::Delivered(0)), ""),
    (Sample::Packet(Kind::Note, End::Delivered(0)), ""),
    (Sample::Packet(Kind::Ack, End::Delivered(0)), ""),
    (
        Sample::Packet(Kind::Ask, End::Lost(0)),
        "taken off the wire",
    ),
    (
        Sample::Packet(Kind::Ask, End::Withdrawn(0)),
        "taken back by the desk",
    ),
    (
        Sample::Packet(Kind::Ask, End::OnWire),
        "not delivered by the end",
    ),
    (Sample::Lane(Look::In(Phase::Up)), "up"),
    (Sample::Lane(Look::In(Phase::Down)), "down"),
    (Sample::Lane(Look::In(Phase::CatchingUp)), "catching up"),
    (Sample::Lane(Look::Idle), "no job, or run lost"),
    (Sample::Pill(MarkKind::Work, "work"), ""),
    (Sample::Pill(MarkKind::Local, "local message"), ""),
    (Sample::Pill(MarkKind::Show, "show"), ""),
    (Sample::Pill(MarkKind::Checkpoint, "checkpoint"), ""),
    (Sample::Pill(MarkKind::Kept, "kept by the buddy"), ""),
    (Sample::Pill(MarkKind::Crash, "crash"), ""),
    (Sample::Pill(MarkKind::Restart, "restart, caught up"), ""),
    (Sample::Pill(MarkKind::Withdrawal, "withdrawn"), ""),
    (Sample::Refusal, "refused: the question's number"),
];

pub const NAMES: &str = "a→b #n: the message from sender a (0 is the desk) to chare b with SN n";
const LEFT: f64 = 16.0;
const ROW: f64 = 24.0;
const GAP: f64 = 22.0;

fn sample_width(sample: Sample) -> f64 {
    match sample {
        Sample::Packet(..) => 44.0,
        Sample::Pill(_, text) => pill_width(text),
        Sample::Lane(_) => 12.0,
        Sample::Refusal => 26.0,
        Sample::Letter(_) => 22.0,
    }
}

fn word(sample: Sample, word: &str) -> String {
    match sample {
        Sample::Packet(kind, End::Delivered(_)) => names::kind(kind).to_string(),
        Sample::Letter(rule) => letter::title(rule),
        _ => word.to_string(),
    }
}

/// Draws the legend from `top` down and returns where it ends.
pub fn put_legend(svg: &mut Svg, width: f64, top: f64) -> f64 {
    let y = put_samples(svg, &SAMPLES, width, top);
    let letters = Rule::ALL.map(|rule| (Sample::Letter(rule), ""));
    let mut y = put_samples(svg, &letters, width, y);
    let characters = (width - 2.0 * LEFT) / text_width("a");
    let names = wrapped(NAMES, 0, characters as usize);
    for line in names.lines() {
        svg.text(Point::new(LEFT, y + 4.0), Anchor::Start, "", line);
        y += ROW;
    }
    y
}

/// Samples with their words, in as many rows as they need, from `top` down; returns where the next row stands.
fn put_samples(svg: &mut Svg, samples: &[(Sample, &str)], width: f64, top: f64) -> f64 {
    let (mut x, mut y) = (LEFT, top);
    for &(sample, text) in samples {
        let text = word(sample, text);
        let wide = sample_width(sample);
        let whole = wide + 6.0 + text_width(&text);
        if x > LEFT && x + whole > width - LEFT {
            (x, y) = (LEFT, y + ROW);
        }
        put_sample(svg, sample, x, y, wide);
        let place = Point::new(x + wide + 6.0, y + 4.0);
        svg.text(place, Anchor::Start, "", &text);
        x += whole + GAP;
    }
    y + ROW
}

fn put_sample(svg: &mut Svg, sample: Sample, x: f64, y: f64, wide: f64) {
    let middle = Point::new(x + wide / 2.0, y);
    match sample {
        Sample::Packet(kind, end) => {
            let (tail, head) = (Point::new(x + 3.0, y), Point::new(x + wide - 5.0, y));
            put_arrow(svg, &[tail, head], colour(kind), end);
        }
        Sample::Pill(kind, text) => put_pill(svg, middle, kind, text),
        Sample::Lane(look) => put_band(svg, middle.x, y - 9.0, y + 9.0, look),
        Sample::Refusal => put_refusal(svg, middle, "05"),
        Sample::Letter(rule) => {
            let (place, line) = (Point::new(x, y + 4.0), format!("00{}", rule.letter()));
            svg.text(place, Anchor::Start, "class=\"code\"", &line);
        }
    }
}
