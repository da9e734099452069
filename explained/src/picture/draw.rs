//! Puts the picture together.

use super::fold::fold;
use super::layout::{Layout, PAGE_TITLE};
use super::record::Story;
use super::routes::routes;
use super::svg::{file, Anchor, Area, Point, Svg};
use super::{arrows, columns, lanes, legend, marks};

const TITLE_AT: f64 = 30.0;
const LEGEND_AT: f64 = 56.0;

/// A longer list is not drawn, and no more rows after folding.
pub const MOST_FRAMES: usize = 5000;
pub const MOST_ROWS: usize = 1000;

/// Can a list of so many frames be drawn, before it is folded?
pub fn check_length(frames: usize) -> Result<(), String> {
    match frames > MOST_FRAMES {
        true => Err(format!(
            "too long to draw: {frames} frames, and a picture has at most {MOST_FRAMES}"
        )),
        false => Ok(()),
    }
}

/// A picture in one file; a long list has the names of its lanes again after each sheet.
pub struct Drawing {
    body: Svg,
    layout: Layout,
}

impl Drawing {
    /// Draws a story; one that is too long is named so. `made_by` says what made it, and from which list.
    pub fn new(title: &str, made_by: &str, story: &Story) -> Result<Drawing, String> {
        let (story, _) = folded(story)?;
        let legend_height = |width| legend::put_legend(&mut Svg::new(), width, LEGEND_AT);
        let layout = Layout::sheets(&story, legend_height);
        let mut body = rows(&story, &layout);
        put_heads(&mut body, title, &story, &layout);
        let foot = Point::new(16.0, layout.height() - 12.0);
        body.text(foot, Anchor::Start, "class=\"quiet\"", made_by);
        Ok(Drawing { body, layout })
    }

    pub fn whole(&self) -> String {
        let whole = Area {
            x: 0.0,
            y: 0.0,
            width: self.layout.width,
            height: self.layout.height(),
        };
        file(&self.body.body(), whole, None)
    }
}

/// The folded story, and for each frame its row there.
pub fn folded(story: &Story) -> Result<(Story, Vec<usize>), String> {
    let frames = story.rows.len();
    check_length(frames)?;
    let (story, places) = fold(story);
    match story.rows.len() {
        rows if rows > MOST_ROWS => Err(format!(
            "too long to draw: {frames} frames, {rows} rows after folding what repeats, and a picture has at most {MOST_ROWS}"
        )),
        _ => Ok((story, places)),
    }
}

/// All that stands in the rows.
pub fn rows(story: &Story, layout: &Layout) -> Svg {
    let mut svg = Svg::new();
    columns::put_grounds(&mut svg, story, layout);
    lanes::put_lanes(&mut svg, story, layout);
    let routes = routes(story, layout);
    arrows::put_arrows(&mut svg, story, &routes);
    marks::put_marks(&mut svg, story, layout);
    arrows::put_labels(&mut svg, story, &routes);
    columns::put_columns(&mut svg, story, layout);
    svg
}

/// Title and names of lanes, on every page. They lie over what goes on from page to page.
fn put_heads(svg: &mut Svg, title: &str, story: &Story, layout: &Layout) {
    let pages = layout.pages.len();
    for (at, &(top, rows)) in layout.pages.iter().enumerate() {
        let area = Area {
            x: 0.0,
            y: top,
            width: layout.width,
            height: rows - top,
        };
        svg.rect(area, 0.0, "fill=\"#fff\"");
        let page = match pages {
            1 => String::new(),
            _ => format!(" (page {} of {pages})", at + 1),
        };
        let text = super::title::title(title, &page, layout.width - 32.0);
        let place = Point::new(16.0, top + TITLE_AT);
        svg.text(place, Anchor::Start, "class=\"title\"", &text);
        let heads = match at {
            0 => legend::put_legend(svg, layout.width, LEGEND_AT),
            _ => top + PAGE_TITLE,
        };
        columns::put_heads(svg, layout, heads + 18.0);
        lanes::put_heads(svg, story, layout, heads + 18.0);
    }
}
