//! The picture as one roll, for the page: its rows without title, legend and sheets, and the names of its lanes apart.

use super::draw::{folded, rows};
use super::layout::{pill_width, Layout, LANES_FROM};
use super::marked::MarkKind;
use super::record::{Row, Story};
use super::svg::{inline, Area, Point, Svg};
use super::{columns, lanes, legend};

/// The rows, and where each frame stands in them.
pub struct Roll {
    pub(super) body: Svg,
    pub(super) story: Story,
    pub(super) layout: Layout,
    /// The row of each frame.
    pub rows: Vec<Stand>,
    /// The mark of each frame that is a work.
    pub works: Vec<Option<Place>>,
}

/// Where a frame stands: top and height of its row, and the middle of what it did there.
#[derive(Clone, Copy, Debug, PartialEq)]
pub struct Stand {
    pub top: f64,
    pub height: f64,
    pub x: f64,
}

/// Where the mark of a work stands: its middle, and how wide it is; 0 if the frame is folded away.
#[derive(Clone, Copy, Debug, PartialEq)]
pub struct Place {
    pub x: f64,
    pub y: f64,
    pub width: f64,
}

impl Roll {
    /// Draws a story; one that is too long is named so.
    pub fn new(whole: &Story) -> Result<Roll, String> {
        let (story, places) = folded(whole)?;
        let layout = Layout::roll(&story);
        let stand = |&at: &usize| {
            let area = layout.row(at);
            Stand {
                top: area.y,
                height: area.height,
                x: middle(&story, &story.rows[at], &layout),
            }
        };
        let work = |(row, &at): (&Row, &usize)| work(row, &story.rows[at], at, &layout);
        Ok(Roll {
            body: rows(&story, &layout),
            rows: places.iter().map(stand).collect(),
            works: whole.rows.iter().zip(&places).map(work).collect(),
            story,
            layout,
        })
    }

    /// The rows; the columns at their left are a group of their own, which a page keeps in view.
    pub fn picture(&self) -> String {
        let (width, height) = (self.layout.width, self.layout.bottom());
        let mut ground = ground(height);
        for at in (0..self.story.rows.len()).step_by(2) {
            let row = self.layout.row(at);
            ground.rect(
                Area {
                    width: LANES_FROM,
                    ..row
                },
                0.0,
                columns::GROUND,
            );
        }
        inline(&apart("columns", &ground, &self.body), width, height)
    }

    /// The names of columns and lanes, as wide as the rows.
    pub fn heads(&self) -> String {
        let ground = ground(lanes::HEADS);
        let body = apart("names", &ground, &self.names());
        inline(&body, self.layout.width, lanes::HEADS)
    }

    pub(super) fn names(&self) -> Svg {
        const DOWN: f64 = 18.0;
        let mut svg = Svg::new();
        columns::put_heads(&mut svg, &self.layout, DOWN);
        lanes::put_heads(&mut svg, &self.story, &self.layout, DOWN);
        svg
    }
}

/// What lies under the columns at the left, and hides what is moved there.
fn ground(height: f64) -> Svg {
    let mut svg = Svg::new();
    let area = Area {
        x: 0.0,
        y: 0.0,
        width: LANES_FROM,
        height,
    };
    svg.rect(area, 0.0, "fill=\"#fff\"");
    svg
}

/// All shapes, those of the columns at the left in a group, over its own ground.
fn apart(name: &str, ground: &Svg, body: &Svg) -> String {
    let is_left = |area: &Area| area.x + area.width <= LANES_FROM;
    format!(
        "{}<g id=\"{name}\">\n{}{}</g>\n",
        body.shapes(|area| !is_left(area)),
        ground.body(),
        body.shapes(is_left)
    )
}

/// The legend, so wide.
pub fn signs(width: f64) -> String {
    let mut svg = Svg::new();
    let height = legend::put_legend(&mut svg, width, 14.0);
    inline(&svg.body(), width, height)
}

/// The middle of the first thing that a row did: a mark, an arrival, a departure. What did nothing, or something everywhere as a job
/// does, is read from the left.
fn middle(story: &Story, row: &Row, layout: &Layout) -> f64 {
    let mark = row.marks.first().filter(|mark| mark.kind != MarkKind::Kept);
    let mark = mark.map(|mark| mark.machine);
    let arrival = row.arrival.as_ref().map(|(at, _)| story.flights[*at].to);
    let sent = row.sent.first().map(|&at| story.flights[at].from);
    match arrival.or(mark).or(sent) {
        Some(lane) => layout.lane(lane),
        None => 0.0,
    }
}

/// The place of a frame's mark, if it is a work; its row in the picture may stand for a stretch.
fn work(frame: &Row, row: &Row, at: usize, layout: &Layout) -> Option<Place> {
    let mark = frame.marks.first()?;
    let width = match row.is_folded() {
        true => 0.0,
        false => pill_width(&mark.text),
    };
    let Point { x, y } = Point::new(layout.lane(mark.machine), layout.moment(at));
    (mark.kind == MarkKind::Work).then_some(Place { x, y, width })
}
