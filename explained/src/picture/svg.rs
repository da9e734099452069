//! Writing SVG.

use std::fmt::Write;

/// Shapes in the order in which they are drawn.
#[derive(Default)]
pub struct Svg {
    items: Vec<Item>,
}

enum Item {
    /// A shape as it is written, and where it stands.
    Shape(String, Area),
    /// What follows, up to the end, belongs to a packet, explained by this text.
    Packet(String),
    EndOfPacket,
}

/// A place in the picture, in pixels from its top left corner.
#[derive(Clone, Copy, Debug, PartialEq)]
pub struct Point {
    pub x: f64,
    pub y: f64,
}

impl Point {
    pub fn new(x: f64, y: f64) -> Point {
        Point { x, y }
    }
}

/// An upright rectangle by its top left corner.
#[derive(Clone, Copy, Debug, PartialEq)]
pub struct Area {
    pub x: f64,
    pub y: f64,
    pub width: f64,
    pub height: f64,
}

impl Area {
    /// The least area round some points, with room for strokes and arrowheads.
    fn round(points: &[Point]) -> Area {
        const ROOM: f64 = 7.0;
        let least = |of: fn(&Point) -> f64| points.iter().map(of).fold(f64::INFINITY, f64::min);
        let most = |of: fn(&Point) -> f64| points.iter().map(of).fold(f64::NEG_INFINITY, f64::max);
        let (x, y) = (least(|p| p.x) - ROOM, least(|p| p.y) - ROOM);
        Area {
            x,
            y,
            width: most(|p| p.x) + ROOM - x,
            height: most(|p| p.y) + ROOM - y,
        }
    }

    fn meets(&self, other: &Area) -> bool {
        self.x < other.x + other.width
            && other.x < self.x + self.width
            && self.y < other.y + other.height
            && other.y < self.y + self.height
    }
}

#[derive(Clone, Copy, Debug, PartialEq, Eq)]
pub enum Anchor {
    Start,
    Middle,
    End,
}

const STYLE: &str =
    "text{font-family:'DejaVu Sans',Verdana,Helvetica,Arial,sans-serif;font-size:12px;fill:#222}
.code{font-family:'DejaVu Sans Mono',Menlo,Consolas,monospace}
.halo{paint-order:stroke;stroke:#fff;stroke-width:4px;stroke-linejoin:round}
.title{font-size:18px;font-weight:bold}
.lane{font-size:13px;font-weight:bold}
.quiet{fill:#666}
.light{fill:#fff;font-weight:bold}";

/// The slanted lines of a lane that is catching up.
const HATCH: &str = "<pattern id=\"hatch\" width=\"6\" height=\"6\" \
                    patternUnits=\"userSpaceOnUse\" patternTransform=\"rotate(45)\">\
                    <rect width=\"6\" height=\"6\" fill=\"#fff\"/>\
                    <rect width=\"3\" height=\"6\" fill=\"#2f6fb5\"/></pattern>";

/// Numbers with one decimal at most, so that a picture is the same everywhere.
pub fn number(value: f64) -> String {
    let text = format!("{value:.1}");
    match text.strip_suffix(".0") {
        Some("-0") => "0".to_string(),
        Some(whole) => whole.to_string(),
        None => text,
    }
}

pub fn escape(text: &str) -> String {
    text.replace('&', "&amp;")
        .replace('<', "&lt;")
        .replace('>', "&gt;")
        .replace('"', "&quot;")
}

/// How wide a text is at 12 pixels, with something to spare.
pub fn text_width(text: &str) -> f64 {
    text.chars().count() as f64 * 7.4
}

/// The point at a distance from one towards another, at most half way.
fn towards(from: Point, to: Point, distance: f64) -> Point {
    let (dx, dy) = (to.x - from.x, to.y - from.y);
    let part = (distance / dx.hypot(dy).max(1.0)).min(0.5);
    Point::new(from.x + part * dx, from.y + part * dy)
}

impl Svg {
    pub fn new() -> Svg {
        Svg::default()
    }

    /// `more` holds attributes: colours, widths, dashes.
    pub fn line(&mut self, from: Point, to: Point, more: &str) {
        let [x1, y1, x2, y2] = [from.x, from.y, to.x, to.y].map(number);
        self.put(
            Area::round(&[from, to]),
            format!("<line x1=\"{x1}\" y1=\"{y1}\" x2=\"{x2}\" y2=\"{y2}\" {more}/>"),
        );
    }

    /// A line through points, its corners rounded.
    pub fn path(&mut self, points: &[Point], more: &str) {
        const ROUND: f64 = 10.0;
        let pair = |p: Point| format!("{} {}", number(p.x), number(p.y));
        let mut way = String::new();
        for (at, &point) in points.iter().enumerate() {
            match (at.checked_sub(1), points.get(at + 1)) {
                (None, _) => way.push_str(&format!("M{}", pair(point))),
                (_, None) => way.push_str(&format!("L{}", pair(point))),
                (Some(last), Some(&next)) => {
                    let from = towards(point, points[last], ROUND);
                    let to = towards(point, next, ROUND);
                    let [from, corner, to] = [from, point, to].map(pair);
                    way.push_str(&format!("L{from}Q{corner} {to}"));
                }
            }
        }
        self.put(Area::round(points), format!("<path d=\"{way}\" {more}/>"));
    }

    pub fn rect(&mut self, area: Area, round: f64, more: &str) {
        let [x, y, w, h, r] = [area.x, area.y, area.width, area.height, round].map(number);
        self.put(
            area,
            format!("<rect x=\"{x}\" y=\"{y}\" width=\"{w}\" height=\"{h}\" rx=\"{r}\" {more}/>"),
        );
    }

    pub fn circle(&mut self, centre: Point, radius: f64, more: &str) {
        let [x, y, r] = [centre.x, centre.y, radius].map(number);
        self.put(
            Area::round(&[centre]),
            format!("<circle cx=\"{x}\" cy=\"{y}\" r=\"{r}\" {more}/>"),
        );
    }

    pub fn polygon(&mut self, points: &[Point], more: &str) {
        let corners: Vec<String> = points
            .iter()
            .map(|p| format!("{},{}", number(p.x), number(p.y)))
            .collect();
        self.put(
            Area::round(points),
            format!("<polygon points=\"{}\" {more}/>", corners.join(" ")),
        );
    }

    /// `at` is a point of the text's base line. Nothing is put for an empty text.
    pub fn text(&mut self, at: Point, anchor: Anchor, more: &str, text: &str) {
        if text.is_empty() {
            return;
        }
        let [x, y] = [at.x, at.y].map(number);
        let width = text_width(text);
        let (anchor, left) = match anchor {
            Anchor::Start => ("start", at.x),
            Anchor::Middle => ("middle", at.x - width / 2.0),
            Anchor::End => ("end", at.x - width),
        };
        let ends = [Point::new(left, at.y - 4.0), Point::new(left + width, at.y)];
        let text = escape(text);
        self.put(
            Area::round(&ends),
            format!("<text x=\"{x}\" y=\"{y}\" text-anchor=\"{anchor}\" {more}>{text}</text>"),
        );
    }

    fn put(&mut self, area: Area, shape: String) {
        self.items.push(Item::Shape(shape, area));
    }

    /// What follows belongs to a packet, explained by this text.
    pub fn open_packet(&mut self, title: &str) {
        self.items.push(Item::Packet(escape(title)));
    }

    pub fn close_packet(&mut self) {
        self.items.push(Item::EndOfPacket);
    }

    /// All of it, a shape on each line.
    pub fn body(&self) -> String {
        self.shapes(|_| true)
    }

    /// The shapes that stand where they are to.
    pub fn shapes(&self, here: impl Fn(&Area) -> bool) -> String {
        let mut out = String::new();
        for item in &self.items {
            let _ = match item {
                Item::Shape(_, area) if !here(area) => Ok(()),
                Item::Shape(shape, _) => writeln!(out, "{shape}"),
                Item::Packet(title) => {
                    writeln!(out, "<g class=\"packet\"><title>{title}</title>")
                }
                Item::EndOfPacket => writeln!(out, "</g>"),
            };
        }
        out
    }

    /// What can be seen of it in an area, for paper, where nobody points at a packet: put at `at`, and cut at the area's edges.
    pub fn part(&self, class: &str, area: Area, at: Point) -> String {
        let mut out = String::new();
        let [x, y, left, top, width, height] =
            [at.x, at.y, area.x, area.y, area.width, area.height].map(number);
        let _ = writeln!(
            out,
            "<svg class=\"{class}\" x=\"{x}\" y=\"{y}\" width=\"{width}\" height=\"{height}\" viewBox=\"{left} {top} {width} {height}\">"
        );
        for item in &self.items {
            match item {
                Item::Shape(shape, place) if place.meets(&area) => {
                    let _ = writeln!(out, "{shape}");
                }
                _ => {}
            }
        }
        out + "</svg>\n"
    }
}

/// A file of its own: what stands in an area of a body. `size` is the size on paper, else pixels.
pub fn file(body: &str, area: Area, size: Option<(f64, f64)>) -> String {
    let [x, y, w, h] = [area.x, area.y, area.width, area.height].map(number);
    let (wide, high) = match size {
        Some((wide, high)) => (format!("{wide}mm"), format!("{high}mm")),
        None => (w.clone(), h.clone()),
    };
    let ground = match x.as_str() {
        "0" => String::new(),
        x => format!("x=\"{x}\" "),
    };
    format!(
        "<svg xmlns=\"http://www.w3.org/2000/svg\" \
                    width=\"{wide}\" height=\"{high}\" viewBox=\"{x} {y} {w} {h}\">
<style>{STYLE}</style>
<defs>{HATCH}</defs>
<rect {ground}y=\"{y}\" width=\"{w}\" height=\"{h}\" fill=\"#fff\"/>
{body}</svg>
"
    )
}

/// A picture inside of a page that has what all its pictures share.
pub fn inline(body: &str, width: f64, height: f64) -> String {
    let [w, h] = [width, height].map(number);
    format!("<svg width=\"{w}\" height=\"{h}\" viewBox=\"0 0 {w} {h}\">\n{body}</svg>\n")
}

/// What the pictures inside of a page share. It is not seen, but it must not be left out of what is drawn.
pub fn shared() -> String {
    format!("<svg class=\"shared\" width=\"0\" height=\"0\"><style>{STYLE}</style><defs>{HATCH}</defs></svg>\n")
}
