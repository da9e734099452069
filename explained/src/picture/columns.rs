//! The columns at the margins: frame number, frame, answer line; what happened, in few words.

use super::layout::{headline, Layout, FRAME_AT, HEADLINE_STEP, LINE_AT, NUMBER_AT};
use super::record::{Row, Story};
use super::svg::{Anchor, Area, Point, Svg};
use reference::answer::Answer;

pub fn put_heads(svg: &mut Svg, layout: &Layout, y: f64) {
    let class = "class=\"lane\"";
    svg.text(Point::new(FRAME_AT, y), Anchor::Start, class, "frame");
    svg.text(Point::new(LINE_AT, y), Anchor::Start, class, "line");
    let x = layout.headlines_at();
    svg.text(Point::new(x, y), Anchor::Start, class, "what happened");
}

pub const GROUND: &str = "fill=\"#f6f7f8\"";

/// Every second row has a light ground, to lead the eye from one margin to the other.
pub fn put_grounds(svg: &mut Svg, story: &Story, layout: &Layout) {
    for at in (0..story.rows.len()).step_by(2) {
        svg.rect(layout.row(at), 0.0, GROUND);
    }
}

pub fn put_columns(svg: &mut Svg, story: &Story, layout: &Layout) {
    for (at, row) in story.rows.iter().enumerate() {
        let y = layout.moment(at) + 4.0;
        if !row.is_folded() {
            let number = row.numbers.0.to_string();
            let place = Point::new(NUMBER_AT, y);
            svg.text(place, Anchor::End, "class=\"quiet\"", &number);
            put_line(svg, row, y);
        }
        svg.text(
            Point::new(FRAME_AT, y),
            Anchor::Start,
            "class=\"code\"",
            &row.given,
        );
        let more = match row.answer {
            Answer::Refused(_) | Answer::Lost => "style=\"fill:#b3261e\"",
            _ if row.is_folded() => "class=\"quiet\"",
            _ => "",
        };
        for (step, line) in headline(row).iter().enumerate() {
            let place = Point::new(layout.headlines_at(), y + HEADLINE_STEP * step as f64);
            svg.text(place, Anchor::Start, more, line);
        }
    }
}

/// The answer line; a refusal is a mark with its number.
fn put_line(svg: &mut Svg, row: &Row, y: f64) {
    if row.answer.is_accepted() {
        let place = Point::new(LINE_AT, y);
        return svg.text(place, Anchor::Start, "class=\"code\"", &row.line);
    }
    put_refusal(svg, Point::new(LINE_AT + 10.0, y - 4.0), &row.line);
}

/// The mark of a refused frame, or of a run that is lost.
pub fn put_refusal(svg: &mut Svg, middle: Point, line: &str) {
    let area = Area {
        x: middle.x - 13.0,
        y: middle.y - 8.5,
        width: 26.0,
        height: 17.0,
    };
    svg.rect(area, 4.0, "fill=\"#b3261e\"");
    let place = Point::new(middle.x, middle.y + 4.5);
    svg.text(place, Anchor::Middle, "class=\"light\"", line);
}
