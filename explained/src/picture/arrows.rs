//! The packets as arrows, with their labels.

use super::layout::FROM_LANE;
use super::record::{End, Flight, Story};
use super::routes::side;
use super::svg::{Anchor, Point, Svg};
use reference::wire::Kind;

/// How long an arrowhead is.
const ARROWHEAD: f64 = 10.0;
/// The radius of the ring with a cross in it, at the end of a packet that was taken back.
pub const RING: f64 = 6.0;

pub fn colour(kind: Kind) -> &'static str {
    match kind {
        Kind::Ask => "#1b5fc1",
        Kind::Grant => "#16762f",
        Kind::Data => "#6a2c9c",
        Kind::Note => "#b35300",
        Kind::Ack => "#a01d63",
    }
}

pub fn put_arrows(svg: &mut Svg, story: &Story, routes: &[Vec<Point>]) {
    for (flight, route) in story.flights.iter().zip(routes) {
        svg.open_packet(&explained(story, flight));
        put_arrow(svg, route, colour(flight.kind), flight.end);
        svg.close_packet();
    }
}

/// One arrow; its end tells what became of the packet.
pub fn put_arrow(svg: &mut Svg, route: &[Point], colour: &str, end: End) {
    let [tail, .., last, head] = *route else {
        return put_straight(svg, route, colour, end);
    };
    put_end(svg, last, head, colour, end);
    svg.path(&shortened(route, end), &stroke(colour, end));
    put_tail(svg, tail, colour);
}

fn put_straight(svg: &mut Svg, route: &[Point], colour: &str, end: End) {
    let [tail, head] = *route else { return };
    svg.path(&shortened(route, end), &stroke(colour, end));
    put_end(svg, tail, head, colour, end);
    put_tail(svg, tail, colour);
}

fn stroke(colour: &str, end: End) -> String {
    let dashes = match end {
        End::OnWire => " stroke-dasharray=\"4 3\"",
        End::Delivered(_) | End::Lost(_) | End::Withdrawn(_) => "",
    };
    format!("fill=\"none\" stroke=\"{colour}\" stroke-width=\"1.6\"{dashes}")
}

fn put_tail(svg: &mut Svg, tail: Point, colour: &str) {
    svg.circle(tail, 3.0, &format!("fill=\"{colour}\" stroke=\"#fff\""));
}

/// The route without the length of the arrowhead, which would blunt its tip, and not into a ring.
fn shortened(route: &[Point], end: End) -> Vec<Point> {
    let mut points = route.to_vec();
    let back = match end {
        End::Delivered(_) => ARROWHEAD,
        End::Withdrawn(_) => RING,
        End::OnWire | End::Lost(_) => return points,
    };
    if let [.., last, head] = *route {
        points.pop();
        points.push(behind(last, head, back));
    }
    points
}

/// The point of an arrow's last stretch that is so far from its head.
fn behind(last: Point, head: Point, distance: f64) -> Point {
    let (dx, dy) = (head.x - last.x, head.y - last.y);
    let long = dx.hypot(dy).max(1.0);
    Point::new(head.x - distance * dx / long, head.y - distance * dy / long)
}

fn put_end(svg: &mut Svg, last: Point, head: Point, colour: &str, end: End) {
    match end {
        End::Delivered(_) => {
            svg.polygon(&arrowhead(last, head), &format!("fill=\"{colour}\""));
        }
        End::Lost(_) => put_cross(svg, head, 5.0, colour, 2.6),
        End::Withdrawn(_) => {
            put_ring(svg, head, RING, colour);
            put_cross(svg, head, 3.6, colour, 1.6);
        }
        End::OnWire => put_ring(svg, head, 3.0, colour),
    }
}

fn put_cross(svg: &mut Svg, middle: Point, half: f64, colour: &str, thick: f64) {
    let look = format!("stroke=\"{colour}\" stroke-width=\"{thick}\"");
    for slant in [-half, half] {
        let from = Point::new(middle.x - half, middle.y - slant);
        let to = Point::new(middle.x + half, middle.y + slant);
        svg.line(from, to, &look);
    }
}

fn put_ring(svg: &mut Svg, middle: Point, radius: f64, colour: &str) {
    let look = format!("fill=\"#fff\" stroke=\"{colour}\" stroke-width=\"1.6\"");
    svg.circle(middle, radius, &look);
}

/// Tip and both corners at the back.
fn arrowhead(last: Point, head: Point) -> [Point; 3] {
    const HALF: f64 = 4.0;
    let back = behind(last, head, ARROWHEAD);
    let (ux, uy) = ((head.x - back.x) / ARROWHEAD, (head.y - back.y) / ARROWHEAD);
    let left = Point::new(back.x - HALF * uy, back.y + HALF * ux);
    let right = Point::new(back.x + HALF * uy, back.y - HALF * ux);
    [head, left, right]
}

/// Each label stands over the beginning of its arrow, where no other passes.
pub fn put_labels(svg: &mut Svg, story: &Story, routes: &[Vec<Point>]) {
    for (flight, route) in story.flights.iter().zip(routes) {
        let (tail, side) = (route[0], side(flight));
        let anchor = if side > 0.0 {
            Anchor::Start
        } else {
            Anchor::End
        };
        let place = Point::new(tail.x + side * FROM_LANE, tail.y - 6.0);
        let more = format!("class=\"halo\" style=\"fill:{}\"", colour(flight.kind));
        svg.open_packet(&explained(story, flight));
        svg.text(place, anchor, &more, &flight.label);
        svg.close_packet();
    }
}

/// The packet in words: what it says, when it went out and what became of it.
fn explained(story: &Story, flight: &Flight) -> String {
    let number = |row: usize| story.rows[row].numbers.0;
    let end = match flight.end {
        End::OnWire => "not delivered by the end".to_string(),
        End::Delivered(row) => format!("delivered at frame {}", number(row)),
        End::Lost(row) => format!("taken off the wire at frame {}", number(row)),
        End::Withdrawn(row) => format!("withdrawn at frame {}", number(row)),
    };
    format!(
        "{}: {}; sent at frame {}, {end}",
        flight.label,
        flight.meaning,
        number(flight.sent)
    )
}
