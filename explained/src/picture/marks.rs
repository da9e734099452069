//! Draws the marks on the lanes, the end of catching up, and what a delivery led to.

use super::arrows::colour;
use super::layout::{pill_width, Layout, FROM_LANE};
use super::marked::MarkKind;
use super::record::Story;
use super::routes::side;
use super::svg::{Anchor, Area, Point, Svg};
use reference::wire::Kind;

const PILL_HEIGHT: f64 = 17.0;

/// Frame colour, ground and class of the text.
fn look(kind: MarkKind) -> (&'static str, &'static str, &'static str) {
    match kind {
        MarkKind::Work => ("#222", "#fff6cf", ""),
        MarkKind::Local => ("#222", "#fff", ""),
        MarkKind::Show => ("#999", "#fff", "class=\"quiet\""),
        MarkKind::Checkpoint => ("#16762f", "#dff3e3", ""),
        MarkKind::Kept => ("#16762f", "#fff", ""),
        MarkKind::Crash => ("#8c1d18", "#b3261e", "class=\"light\""),
        MarkKind::Restart => ("#2f6fb5", "#dcebfa", ""),
        MarkKind::Withdrawal => (colour(Kind::Ask), "#fff", ""),
    }
}

/// A mark with its text, its middle at `at`.
pub fn put_pill(svg: &mut Svg, at: Point, kind: MarkKind, text: &str) {
    let width = pill_width(text);
    let (frame, ground, class) = look(kind);
    let area = Area {
        x: at.x - width / 2.0,
        y: at.y - PILL_HEIGHT / 2.0,
        width,
        height: PILL_HEIGHT,
    };
    let round = match kind {
        MarkKind::Work | MarkKind::Local | MarkKind::Show | MarkKind::Withdrawal => {
            PILL_HEIGHT / 2.0
        }
        _ => 2.0,
    };
    svg.rect(
        area,
        round,
        &format!("fill=\"{ground}\" stroke=\"{frame}\""),
    );
    svg.text(Point::new(at.x, at.y + 4.5), Anchor::Middle, class, text);
}

pub fn put_marks(svg: &mut Svg, story: &Story, layout: &Layout) {
    for (at, row) in story.rows.iter().enumerate() {
        for (order, mark) in row.marks.iter().enumerate() {
            let place = Point::new(layout.lane(mark.machine), layout.mark(row, at, order));
            put_pill(svg, place, mark.kind, &mark.text);
        }
        if let Some(machine) = row.caught_up {
            let place = Point::new(layout.lane(machine), layout.caught_up(row, at));
            put_pill(svg, place, MarkKind::Restart, "caught up");
        }
        if let Some((flight, remark)) = &row.arrival {
            // On the far side of the lane, where the arriving arrow is not.
            let flight = &story.flights[*flight];
            let side = side(flight);
            let x = layout.lane(flight.to) + side * FROM_LANE;
            let anchor = if side > 0.0 {
                Anchor::Start
            } else {
                Anchor::End
            };
            let place = Point::new(x, layout.moment(at) + 4.0);
            svg.text(place, anchor, "class=\"halo quiet\"", remark);
        }
    }
}
