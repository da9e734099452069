//! The picture on paper: sheets of A4 with type that can be read. A picture that is too wide for one sheet is folded: each stretch of
//! its rows stands on several sheets side by side, with the columns of the frames on each.

use super::layout::{Layout, LANES_FROM, SLOT};
use super::roll::Roll;
use super::svg::{file, inline, Anchor, Area, Point, Svg};
use super::{lanes, legend};

/// A4, in millimetres, lying unless the picture is narrow.
const LONG: f64 = 297.0;
const SHORT: f64 = 210.0;
/// Free on all sides, and a little more at the bottom, where a page has its number.
const MARGIN: f64 = 10.0;
const BOTTOM: f64 = 16.0;

const POINTS_OF_MM: f64 = 72.0 / 25.4;
/// The type of a picture, in its own measure and on paper. The least leaves room for paper a little smaller than A4.
const TYPE: f64 = 12.0;
const LEAST_POINTS: f64 = 6.5;
const MOST_POINTS: f64 = 9.0;

const TITLE_AT: f64 = 18.0;
const LEGEND_AT: f64 = 62.0;
/// Where the names of the lanes stand on a sheet without a legend.
const NAMES_AT: f64 = 46.0;
const FOOT: f64 = 22.0;

/// All sheets of a picture, of one size.
pub struct Sheets {
    pub lying: bool,
    /// How much of the picture's measure goes into a millimetre.
    scale: f64,
    bodies: Vec<String>,
}

/// From where to where a strip or a stretch goes.
type Span = (f64, f64);

impl Sheets {
    /// `made_by` says what made the picture, and from which list.
    pub fn new(title: &str, made_by: &str, roll: &Roll) -> Sheets {
        let (lying, strips) = strips(&roll.layout.cuts());
        let widest = strips.iter().map(|(from, to)| to - from);
        let widest = LANES_FROM + widest.fold(0.0, f64::max);
        let (wide, high) = room(lying);
        let scale = (widest / wide).max(TYPE * POINTS_OF_MM / MOST_POINTS);
        let (width, height) = (wide * scale, high * scale);
        let mut signs = Svg::new();
        let heads = [legend::put_legend(&mut signs, width, LEGEND_AT), NAMES_AT];
        let free = heads.map(|head| height - head - lanes::HEADS - FOOT);
        let stretches = stretches(&roll.layout, roll.story.rows.len(), free);
        let count = stretches.len() * strips.len();
        let mut bodies = Vec::new();
        for &stretch in &stretches {
            for (part, &strip) in (1..).zip(&strips) {
                let number = bodies.len() + 1;
                let (mut body, head) = match number {
                    1 => (signs.body(), heads[0]),
                    _ => (String::new(), heads[1]),
                };
                let mut sheet = format!("sheet {number} of {count}");
                if strips.len() > 1 {
                    sheet += &format!(", part {part} of {} from the left", strips.len());
                }
                let place = Place {
                    stretch,
                    strip,
                    head,
                };
                body += &titles(title, made_by, &sheet, (width, height));
                body += &place.body(roll);
                bodies.push(body);
            }
        }
        Sheets {
            lying,
            scale,
            bodies,
        }
    }

    /// A file for each sheet.
    pub fn files(&self) -> Vec<String> {
        let (wide, high) = sheet(self.lying);
        let area = Area {
            x: -MARGIN * self.scale,
            y: -MARGIN * self.scale,
            width: wide * self.scale,
            height: high * self.scale,
        };
        let file = |body: &String| file(body, area, Some((wide, high)));
        self.bodies.iter().map(file).collect()
    }

    /// Each sheet without its margins, for a page.
    pub fn inline(&self) -> String {
        let (wide, high) = room(self.lying);
        let sheet = |body: &String| inline(body, wide * self.scale, high * self.scale);
        let sheets = self.bodies.iter().map(sheet);
        sheets
            .map(|sheet| format!("<div class=\"sheet\">\n{sheet}</div>\n"))
            .collect()
    }
}

fn sheet(lying: bool) -> (f64, f64) {
    match lying {
        true => (LONG, SHORT),
        false => (SHORT, LONG),
    }
}

/// What a sheet has inside of its margins.
fn room(lying: bool) -> (f64, f64) {
    let (wide, high) = sheet(lying);
    (wide - 2.0 * MARGIN, high - MARGIN - BOTTOM)
}

/// How the sheet lies, and the strips from left to right: one if it can be, and as few as can be, of much the same width.
fn strips(cuts: &[f64]) -> (bool, Vec<Span>) {
    let most = |lying: bool| room(lying).0 * POINTS_OF_MM * TYPE / LEAST_POINTS - LANES_FROM;
    let upright = cut(cuts, most(false));
    if upright.len() == 1 {
        return (false, upright);
    }
    let least = cut(cuts, most(true)).len();
    let mut widths: Vec<f64> = cuts
        .iter()
        .flat_map(|from| cuts.iter().map(move |to| to - from))
        .filter(|&width| 0.0 < width && width <= most(true))
        .collect();
    widths.sort_by(f64::total_cmp);
    let even = widths.into_iter().map(|width| cut(cuts, width));
    let even = even.into_iter().find(|strips| strips.len() <= least);
    (true, even.unwrap_or_else(|| cut(cuts, most(true))))
}

/// From cut to cut, as far as a width goes; what cannot be cut is wider.
fn cut(cuts: &[f64], width: f64) -> Vec<Span> {
    let mut strips: Vec<Span> = Vec::new();
    for pair in cuts.windows(2) {
        match strips.last_mut() {
            Some((from, to)) if pair[1] - *from <= width => *to = pair[1],
            _ => strips.push((pair[0], pair[1])),
        }
    }
    strips
}

/// The stretches of rows that stand on one sheet each, the first with the legend above it. A row is cut only if it is higher than a
/// sheet, and then between two lines of its texts.
fn stretches(layout: &Layout, rows: usize, room: [f64; 2]) -> Vec<Span> {
    let mut stretches = Vec::new();
    let mut from = 0.0;
    for row in (0..rows).map(|row| layout.row(row)) {
        let end = row.y + row.height;
        let mut most = room[usize::from(!stretches.is_empty())];
        if end - from > most && from < row.y {
            stretches.push((from, row.y));
            (from, most) = (row.y, room[1]);
        }
        while end - from > most {
            let to = from + (most / SLOT).floor() * SLOT;
            stretches.push((from, to));
            (from, most) = (to, room[1]);
        }
    }
    stretches.push((from, layout.bottom()));
    stretches
}

/// What stands over the picture and under it.
fn titles(title: &str, made_by: &str, sheet: &str, (width, height): (f64, f64)) -> String {
    let mut svg = Svg::new();
    let mut put = |y: f64, class: &str, text: &str| {
        let class = format!("class=\"{class}\"");
        svg.text(Point::new(0.0, y), Anchor::Start, &class, text);
    };
    put(
        TITLE_AT,
        "title",
        &shortened(title, (width / TYPE) as usize),
    );
    let what = "who sent what to whom, frame by frame, time running down";
    put(TITLE_AT + 20.0, "", &format!("{what}; {sheet}"));
    put(height - 6.0, "quiet", made_by);
    svg.body()
}

/// A title that is too long ends with a sign of it.
fn shortened(title: &str, most: usize) -> String {
    match title.chars().count() > most {
        true => title.chars().take(most - 1).chain(['…']).collect(),
        false => title.to_string(),
    }
}

/// What one sheet shows, and how far down its lanes' names stand.
struct Place {
    stretch: Span,
    strip: Span,
    head: f64,
}

impl Place {
    fn body(&self, roll: &Roll) -> String {
        let columns = self.part(roll, (0.0, LANES_FROM), 0.0);
        columns + &self.part(roll, self.strip, LANES_FROM)
    }

    /// Names and rows from one place of the picture to another, put so far from the left.
    fn part(&self, roll: &Roll, (left, right): Span, x: f64) -> String {
        let area = |y: f64, height: f64| Area {
            x: left,
            y,
            width: right - left,
            height,
        };
        let (top, bottom) = self.stretch;
        let heads = Point::new(x, self.head);
        let heads = roll.names().part("names", area(0.0, lanes::HEADS), heads);
        let rows = Point::new(x, self.head + lanes::HEADS);
        heads + &roll.body.part("rows", area(top, bottom - top), rows)
    }
}
