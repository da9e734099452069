//! Where rows, lanes and pages stand.

use super::arrows::RING;
use super::lanes::HEADS;
use super::marked::{Mark, MarkKind};
use super::record::{Row, Story};
use super::routes::side;
use super::svg::{text_width, Area};
use super::tracks::{gutter, Tracks};
use crate::lines::wrapped;

/// The height of one line of text in a row.
pub const SLOT: f64 = 20.0;
/// Every row has at least so many slots, so that frames are spaced evenly.
const LEAST_SLOTS: usize = 2;
const ROW_GAP: f64 = 3.0;

/// The columns at the left: frame number (its right end), frame, line.
pub const NUMBER_AT: f64 = 36.0;
pub const FRAME_AT: f64 = 48.0;
pub const LINE_AT: f64 = 162.0;
/// From here on to the right a row shows what became of its frame.
pub const ANSWERS_AT: f64 = LINE_AT - 6.0;
/// Where they end, and the lanes begin.
pub const LANES_FROM: f64 = 284.0;

/// Each side of a lane has room for half its name.
const LEAST_SIDE: f64 = 66.0;
/// From a lane to a text beside it.
pub const FROM_LANE: f64 = 9.0;
/// Between two tracks, if there is room for all.
const TRACK: f64 = 14.0;
const WIDEST_GUTTER: f64 = 240.0;

/// From a mark to the middle of the ring beside it.
const BESIDE: f64 = RING + 3.0;

/// Half the width of a lane's band.
pub const BAND: f64 = 5.0;

/// The words at the margin are broken at so many characters.
const HEADLINE: usize = 44;
pub const HEADLINE_STEP: f64 = 15.0;

const LEAST_WIDTH: f64 = 900.0;
/// The shape of a sheet of A4, upright unless the picture is wider than this.
const SHORT: f64 = 210.0;
const LONG: f64 = 297.0;
const UPRIGHT: f64 = 1600.0;
const FOOT: f64 = 16.0;
/// At the bottom stands what made the picture.
pub const MADE_BY: f64 = 20.0;

pub struct Layout {
    /// Top and height of each row.
    rows: Vec<(f64, f64)>,
    /// The middle of each lane, and how far its texts reach to the left and to the right.
    lanes: Vec<f64>,
    reaches: Vec<[f64; 2]>,
    pub tracks: Tracks,
    pub width: f64,
    /// The height of a page, and where each page begins and its rows do.
    pub page: f64,
    pub pages: Vec<(f64, f64)>,
}

impl Layout {
    /// One sheet below another. `head` is how high the title and the legend are for a width.
    pub fn sheets(story: &Story, head: impl Fn(f64) -> f64) -> Layout {
        let mut layout = Layout::across(story);
        let (wide, high) = layout.sheet();
        layout.page = (layout.width * high / wide).ceil();
        layout.put_rows(story, head(layout.width) + HEADS);
        layout
    }

    /// The rows alone, without an end of a sheet.
    pub fn roll(story: &Story) -> Layout {
        let mut layout = Layout::across(story);
        layout.page = f64::INFINITY;
        layout.put_rows(story, 0.0);
        layout
    }

    /// From the left to the right; no row stands yet.
    fn across(story: &Story) -> Layout {
        let count = story.job.as_ref().map_or(1, |job| job.machine_count() + 1);
        let tracks = Tracks::new(story, count);
        let reaches = reaches(story, count);
        let mut lanes = vec![LANES_FROM + reaches[0][0] + FROM_LANE];
        for lane in 1..usize::from(count) {
            let before = lanes[lane - 1] + reaches[lane - 1][1];
            lanes.push(before + gutter_width(tracks.count(lane - 1)) + reaches[lane][0]);
        }
        let mut layout = Layout {
            rows: Vec::new(),
            lanes,
            reaches,
            tracks,
            width: 0.0,
            page: 0.0,
            pages: Vec::new(),
        };
        let headlines = story.rows.iter().flat_map(headline);
        let headlines = headlines.map(|line| text_width(&line));
        let width = (layout.headlines_at() + headlines.fold(220.0, f64::max)).ceil() + 12.0;
        layout.width = width.max(LEAST_WIDTH);
        layout
    }

    fn put_rows(&mut self, story: &Story, mut top: f64) {
        self.pages.push((0.0, top));
        for row in &story.rows {
            let lines = headline(row).len() as f64 * HEADLINE_STEP + 5.0;
            let height = (slots(row).max(LEAST_SLOTS) as f64 * SLOT).max(lines) + ROW_GAP;
            let (begins, first) = self.pages[self.pages.len() - 1];
            // A row is never cut; one that is higher than a page stands first on its own.
            if top > first && top + height + FOOT > begins + self.page {
                let page = (begins + self.page).max(top + FOOT);
                top = page + PAGE_TITLE + HEADS;
                self.pages.push((page, top));
            }
            self.rows.push((top, height));
            top += height;
        }
    }

    /// All lanes, the desk's first.
    pub fn lanes(&self) -> impl Iterator<Item = u8> {
        0..self.lanes.len() as u8
    }

    /// The middle of a lane.
    pub fn lane(&self, lane: u8) -> f64 {
        self.lanes[usize::from(lane)]
    }

    /// Where a flight goes down.
    pub fn track(&self, story: &Story, at: usize) -> f64 {
        let gutter = gutter(&story.flights[at]);
        let count = self.tracks.count(gutter);
        let step = gutter_width(count) / (count + 1) as f64;
        let left = self.lanes[gutter] + self.reaches[gutter][1];
        left + step * (self.tracks.of(at) + 1) as f64
    }

    pub fn headlines_at(&self) -> f64 {
        let last = self.lanes.len() - 1;
        self.lanes[last] + self.reaches[last][1] + 2.0 * FROM_LANE
    }

    /// Where the first row begins.
    pub fn top(&self) -> f64 {
        self.pages[0].1
    }

    /// Where the last row ends.
    pub fn bottom(&self) -> f64 {
        self.rows
            .last()
            .map_or(self.top(), |(top, height)| top + height)
    }

    /// The height of the whole picture.
    pub fn height(&self) -> f64 {
        self.bottom() + FOOT + MADE_BY
    }

    /// Width and height of a sheet, in any measure.
    fn sheet(&self) -> (f64, f64) {
        if self.width > UPRIGHT {
            (LONG, SHORT)
        } else {
            (SHORT, LONG)
        }
    }

    /// Where the picture can be cut from top to bottom: no text lies over such a place, only packets on their way.
    pub fn cuts(&self) -> Vec<f64> {
        let lanes = self.lanes.iter().zip(&self.reaches).skip(1);
        let lanes = lanes.map(|(lane, reach)| lane - reach[0]);
        let headlines = self.headlines_at() - FROM_LANE;
        [LANES_FROM]
            .into_iter()
            .chain(lanes)
            .chain([headlines, self.width])
            .collect()
    }

    pub fn row(&self, row: usize) -> Area {
        let (y, height) = self.rows[row];
        Area {
            x: 0.0,
            y,
            width: self.width,
            height,
        }
    }

    /// The middle of a row's first slot, where packets arrive and marks stand.
    pub fn moment(&self, row: usize) -> f64 {
        self.rows[row].0 + SLOT / 2.0 + 1.0
    }

    /// The middle of the slot of a row's mark.
    pub fn mark(&self, row: &Row, at: usize, mark: usize) -> f64 {
        self.moment(at) + SLOT * above(&row.marks, mark) as f64
    }

    /// Right beside the first mark of a row, where a packet that was taken back ends.
    pub fn beside_mark(&self, row: &Row, side: f64) -> f64 {
        row.marks.first().map_or(0.0, |mark| {
            self.lane(mark.machine) + side * (pill_width(&mark.text) / 2.0 + BESIDE)
        })
    }

    /// The middle of the slot in which a row says that a machine has caught up.
    pub fn caught_up(&self, row: &Row, at: usize) -> f64 {
        // A little lower, to keep clear of a departure above it.
        self.moment(at) + (slots(row) - 1) as f64 * SLOT + 2.0
    }

    /// Where the packet that a row sends as its `order`-th goes out: under its label, which has a
    /// slot of its own.
    pub fn departure(&self, row: &Row, at: usize, order: usize) -> f64 {
        let slot = first_slots(row) + order;
        self.rows[at].0 + (slot + 1) as f64 * SLOT
    }
}

/// The height of a title on every page but the first.
pub const PAGE_TITLE: f64 = 34.0;

fn gutter_width(tracks: usize) -> f64 {
    (TRACK * (tracks + 1) as f64).min(WIDEST_GUTTER)
}

/// How far the texts of each lane reach to its left and to its right.
fn reaches(story: &Story, count: u8) -> Vec<[f64; 2]> {
    let mut reaches = vec![[LEAST_SIDE; 2]; usize::from(count)];
    let mut reach = |lane: u8, side: f64, width: f64| {
        let place = &mut reaches[usize::from(lane)][usize::from(side > 0.0)];
        *place = place.max(width);
    };
    for flight in &story.flights {
        reach(
            flight.from,
            side(flight),
            FROM_LANE + text_width(&flight.label) + 4.0,
        );
    }
    for row in &story.rows {
        for mark in &row.marks {
            for side in [-1.0, 1.0] {
                let beside = match mark.kind {
                    MarkKind::Withdrawal => BESIDE + RING,
                    _ => 0.0,
                };
                let width = pill_width(&mark.text) / 2.0 + beside + 4.0;
                reach(mark.machine, side, width);
            }
        }
        if let Some((flight, remark)) = &row.arrival {
            let flight = &story.flights[*flight];
            reach(
                flight.to,
                side(flight),
                FROM_LANE + text_width(remark) + 6.0,
            );
        }
    }
    reaches
}

/// The words at the margin, line by line.
pub fn headline(row: &Row) -> Vec<String> {
    let text = wrapped(&row.headline, 0, HEADLINE);
    text.lines().map(str::to_string).collect()
}

pub fn pill_width(text: &str) -> f64 {
    text_width(text) + 12.0
}

/// How many marks of the same lane stand above a mark.
fn above(marks: &[Mark], at: usize) -> usize {
    let same = |mark: &&Mark| mark.machine == marks[at].machine;
    marks[..at].iter().filter(same).count()
}

/// The slots in which something stands or arrives; departures come below.
fn first_slots(row: &Row) -> usize {
    let marks = (0..row.marks.len()).map(|at| above(&row.marks, at) + 1);
    marks
        .max()
        .unwrap_or(0)
        .max(usize::from(row.arrival.is_some()))
}

fn slots(row: &Row) -> usize {
    first_slots(row) + row.sent.len() + usize::from(row.caught_up.is_some())
}
