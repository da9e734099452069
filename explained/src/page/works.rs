//! The processings as the page shows them: in words, and as numbers from which it marks the picture.

use super::json::{array, quoted};
use crate::before::order::{Clock, Difference, Order};
use crate::before::row::Work;
use crate::before::table::{frames, span};
use crate::names::{capital, message, processing, sent_by};
use crate::picture::Place;
use reference::job::ix;
use reference::precedes::Name;

/// All processings in the order of the row. `places` has the mark of each frame that is a work.
pub fn works(order: &Order, places: &[Option<Place>]) -> Result<String, Difference> {
    let clocks = (0..order.works.len()).map(|place| order.clock(place));
    let clocks = clocks.collect::<Result<Vec<Clock>, _>>()?;
    let work = |(at, work): (usize, &Work)| {
        let text = words(order, &clocks, at);
        let text = text.iter().map(|line| quoted(line)).collect();
        // The page counts frames from 0.
        let frames = work.frames.iter().map(|frame| frame - 1);
        let marks = frames.clone().filter_map(|frame| places[frame].map(mark));
        let frames = frames.map(|frame| frame.to_string());
        let from = arrows(order, work).iter().map(usize::to_string).collect();
        let clock = clocks[at].map(|count| count.to_string());
        let clock = &clock[..usize::from(highest(order))];
        format!(
            "{{\"chare\":{},\"tn\":{},\"text\":{},\"frames\":{},\"marks\":{},\"from\":{},\"clock\":{}}}",
            work.record.chare,
            work.record.tn,
            array(text),
            array(frames.collect()),
            array(marks.collect()),
            array(from),
            array(clock.to_vec())
        )
    };
    Ok(array(order.works.iter().enumerate().map(work).collect()))
}

/// The middle of a mark, and how wide it is.
fn mark(Place { x, y, width }: Place) -> String {
    array([x, y, width].map(|number| format!("{number:.1}")).to_vec())
}

/// The highest chare of the row: clocks need no more.
fn highest(order: &Order) -> u8 {
    let chares = order.works.iter().map(|work| work.record.chare);
    chares.max().unwrap_or(0)
}

/// The places in the row from which arrows come: the one that it follows on its chare, the one that sent its message.
fn arrows(order: &Order, work: &Work) -> Vec<usize> {
    let place = |name: Name| order.works.iter().position(|other| other.name() == name);
    let mut from: Vec<usize> = [work.previous(), work.sender()]
        .into_iter()
        .flatten()
        .filter_map(place)
        .collect();
    from.dedup();
    from
}

/// What it is, what came before it, what after it, and what neither.
fn words(order: &Order, clocks: &[Clock], at: usize) -> Vec<String> {
    let work = &order.works[at];
    let m = work.message;
    let spans = Spans::new(order, clocks, at);
    vec![
        format!(
            "Processing {}, place {} of {} in the row: {}, sent by {}. Frame {}.",
            processing(work.name()),
            at + 1,
            order.works.len(),
            message(m.sender, m.receiver, m.sn),
            sent_by(&work.record),
            frames(work)
        ),
        listed("came before it", spans.before),
        listed("came after it", spans.after),
        listed("neither before nor after it", spans.neither),
    ]
}

fn listed(what: &str, spans: Vec<String>) -> String {
    match spans[..] {
        [] => format!("{}: nothing.", capital(what)),
        _ => format!("{}: {}.", capital(what), spans.join(", ")),
    }
}

/// The other processings, chare by chare: those that came before are its lowest, those that came after its highest.
#[derive(Default)]
struct Spans {
    before: Vec<String>,
    after: Vec<String>,
    neither: Vec<String>,
}

impl Spans {
    fn new(order: &Order, clocks: &[Clock], at: usize) -> Spans {
        let (own, own_tn) = order.works[at].name();
        let mut spans = Spans::default();
        for chare in 1..=highest(order) {
            let last = order.last(chare);
            let before = clocks[at][ix(chare)];
            let after = order
                .works
                .iter()
                .zip(clocks)
                .find(|(work, clock)| work.record.chare == chare && clock[ix(own)] >= own_tn);
            let after = after.map_or(last + 1, |(work, _)| work.record.tn);
            // Between the two on its own chare stands the processing itself.
            let first = before + 1 + u16::from(chare == own);
            put(&mut spans.before, chare, 1, before);
            put(&mut spans.neither, chare, first, after - 1);
            put(&mut spans.after, chare, after, last);
        }
        spans
    }
}

fn put(spans: &mut Vec<String>, chare: u8, first: u16, last: u16) {
    if first <= last {
        spans.push(span(chare, first, last));
    }
}
