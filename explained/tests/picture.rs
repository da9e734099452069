//! Nothing in a picture lies over something else.

mod common;

use common::svg::{attribute, number, said, shapes};
use common::{drawn, explained, list, names, widest_lists};
use reference::generator;
use std::fmt;
use std::sync::OnceLock;

struct Area {
    what: String,
    left: f64,
    right: f64,
    top: f64,
    bottom: f64,
}

impl Area {
    fn meets(&self, other: &Area) -> bool {
        self.left < other.right
            && other.left < self.right
            && self.top < other.bottom
            && other.top < self.bottom
    }
}

impl fmt::Display for Area {
    fn fmt(&self, f: &mut fmt::Formatter<'_>) -> fmt::Result {
        write!(f, "\"{}\" at {}, {}", self.what, self.left, self.top)
    }
}

/// The place of a text, by the usual widths of its letters.
fn text_area(shape: &str) -> Area {
    let inner = said(shape);
    let class = attribute(shape, "class");
    let letter = match class {
        "title" => 12.0,
        "lane" => 8.4,
        "code" => 7.3,
        "light" => 7.9,
        _ => 6.9,
    };
    let width = letter * inner.chars().count() as f64;
    let (x, y) = (number(shape, "x"), number(shape, "y"));
    let left = match attribute(shape, "text-anchor") {
        "start" => x,
        "end" => x - width,
        _ => x - width / 2.0,
    };
    Area {
        what: inner,
        left,
        right: left + width,
        top: y - 9.0,
        bottom: y + 2.0,
    }
}

/// Marks are rectangles with a frame and round corners.
fn mark_area(shape: &str) -> Option<Area> {
    if number(shape, "rx") == 0.0 || attribute(shape, "stroke").is_empty() {
        return None;
    }
    let (x, y) = (number(shape, "x"), number(shape, "y"));
    Some(Area {
        what: "a mark".to_string(),
        left: x,
        right: x + number(shape, "width"),
        top: y,
        bottom: y + number(shape, "height"),
    })
}

type Way = Vec<(f64, f64)>;

/// The corners of a packet's way.
fn way(shape: &str) -> Way {
    let numbers = attribute(shape, "d").replace(['M', 'L', 'Q'], " ");
    let numbers: Vec<f64> = numbers
        .split_whitespace()
        .map(|n| n.parse().expect("a number"))
        .collect();
    numbers
        .chunks_exact(2)
        .map(|pair| (pair[0], pair[1]))
        .collect()
}

/// Is a point of the way inside the area?
fn passes(way: &[(f64, f64)], area: &Area) -> bool {
    way.windows(2).any(|pair| {
        let [(x1, y1), (x2, y2)] = [pair[0], pair[1]];
        (0..=200).any(|part| {
            let part = f64::from(part) / 200.0;
            let (x, y) = (x1 + part * (x2 - x1), y1 + part * (y2 - y1));
            area.left < x && x < area.right && area.top < y && y < area.bottom
        })
    })
}

/// The pictures that are looked at, with their names: all examples, random lists, and six machines with twelve chares over several pages.
fn pictures() -> &'static [(String, String)] {
    static PICTURES: OnceLock<Vec<(String, String)>> = OnceLock::new();
    PICTURES.get_or_init(|| {
        let draw = |(name, list): (String, Vec<u8>)| {
            let picture = drawn(&name, &explained(&list).story);
            (name, picture)
        };
        let examples = names().into_iter().map(|name| (name.clone(), list(&name)));
        let short = (0..80).map(|seed| (seed, generator::list(seed, 40)));
        let wide: Vec<_> = widest_lists().take(8).collect();
        assert_eq!(wide.len(), 8);
        let random = short
            .chain(wide)
            .map(|(seed, list)| (format!("seed {seed}"), list));
        examples.chain(random).map(draw).collect()
    })
}

fn texts(picture: &str) -> Vec<Area> {
    shapes(picture, "<text").map(text_area).collect()
}

/// The ring with a cross at the end of a packet that was taken back.
fn ring_area(shape: &str) -> Option<Area> {
    let [x, y, radius] = ["cx", "cy", "r"].map(|name| number(shape, name));
    (radius == 6.0).then(|| Area {
        what: "a ring".to_string(),
        left: x - radius,
        right: x + radius,
        top: y - radius,
        bottom: y + radius,
    })
}

fn marks(picture: &str) -> Vec<Area> {
    let rings = shapes(picture, "<circle").filter_map(ring_area);
    let marks = shapes(picture, "<rect x").filter_map(mark_area);
    marks.chain(rings).collect()
}

fn ways(picture: &str) -> Vec<Way> {
    shapes(picture, "<path").map(way).collect()
}

/// The labels of packets.
fn labels(picture: &str) -> impl Iterator<Item = &str> {
    shapes(picture, "<text").filter(|text| attribute(text, "class") == "halo")
}

fn lie_apart(name: &str, areas: &[Area]) {
    for (at, area) in areas.iter().enumerate() {
        for other in &areas[at + 1..] {
            assert!(!area.meets(other), "{name}: {area} meets {other}");
        }
    }
}

#[test]
fn texts_and_marks_lie_apart() {
    for (name, picture) in pictures() {
        let (texts, marks) = (texts(picture), marks(picture));
        lie_apart(name, &texts);
        lie_apart(name, &marks);
        // A mark has its own text inside and no other.
        for text in &texts {
            for mark in marks.iter().filter(|mark| text.meets(mark)) {
                let inside = mark.left < text.left && text.right < mark.right;
                assert!(inside, "{name}: {text} meets {mark}");
            }
        }
    }
}

#[test]
fn no_arrow_crosses_a_mark() {
    let mut withdrawn = 0;
    for (name, picture) in pictures() {
        withdrawn += picture.matches(", withdrawn at frame ").count();
        let marks = marks(picture);
        for way in ways(picture) {
            for mark in &marks {
                assert!(!passes(&way, mark), "{name}: {way:?} meets {mark}");
            }
        }
    }
    // Packets that come back to the desk are among them.
    assert!(withdrawn > 20, "{withdrawn} withdrawn");
}

#[test]
fn no_arrow_crosses_a_label() {
    for (name, picture) in pictures() {
        let ways = ways(picture);
        for label in labels(picture).map(text_area) {
            for way in &ways {
                assert!(!passes(way, &label), "{name}: {way:?} meets {label}");
            }
        }
    }
}

/// A label stands over the beginning of its arrow, on the side to which that goes.
#[test]
fn labels_stand_on_the_side_of_their_arrows() {
    for (name, picture) in pictures() {
        let ways = ways(picture);
        for label in labels(picture) {
            let (x, tail) = (number(label, "x"), number(label, "y") + 6.0);
            let own = |way: &&Way| way[0].1 == tail && (way[0].0 - x).abs() < 12.0;
            let label_goes_right = attribute(label, "text-anchor") == "start";
            let label = text_area(label);
            let own = ways.iter().find(own);
            let own = own.unwrap_or_else(|| panic!("{name}: {label} has no arrow"));
            let goes_right = own[1].0 > own[0].0;
            assert_eq!(
                goes_right, label_goes_right,
                "{name}: {label} is not on its arrow's side"
            );
        }
    }
}

/// Where a way bends, and from where to where it goes down.
struct Bends {
    at: Vec<f64>,
    top: f64,
    bottom: f64,
}

fn bends(shape: &str) -> Option<Bends> {
    let corners = attribute(shape, "d").split('Q').skip(1);
    let corners = corners.map(|corner| {
        let mut numbers = corner.split(' ').map(|n| n.parse().expect("a number"));
        (numbers.next().expect("x"), numbers.next().expect("y"))
    });
    let corners: Way = corners.collect();
    Some(Bends {
        top: corners.first()?.1,
        bottom: way(shape).last()?.1,
        at: corners.into_iter().map(|(x, _)| x).collect(),
    })
}

/// Packets that are under way at the same time bend at different places.
#[test]
fn bends_are_spread() {
    let mut count = 0;
    for (name, picture) in pictures() {
        let all: Vec<Bends> = shapes(picture, "<path").filter_map(bends).collect();
        count += all.len();
        for (at, one) in all.iter().enumerate() {
            let at_once = |two: &&Bends| one.top < two.bottom && two.top < one.bottom;
            for two in all[at + 1..].iter().filter(at_once) {
                let same = one.at.iter().find(|x| two.at.contains(x));
                assert_eq!(
                    same, None,
                    "{name}: from {} and from {} down",
                    one.top, two.top
                );
            }
        }
    }
    assert!(count > 500, "{count} bends");
}
