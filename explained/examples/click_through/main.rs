//! Clicks, types and points through the page of a list in a browser, and compares all that it shows with what the list gives.
//! `tools/page-in-browser.sh` starts the browser and this; `tools/type-size.sh` too, to measure type.

mod browser;
mod sizes;
mod tools;

use browser::Browser;
use explained::before::row::{Row, Work};
use explained::names::processing;
use explained::play::play;
use explained::state::compared;
use explained::words::words;
use explained::{engine, notation};
use reference::precedes::{Answer, Chains};
use std::process::ExitCode;

/// What the page shows of one frame.
struct Moment {
    head: String,
    text: String,
    state: String,
    order: Option<Order>,
    /// Is it one that one may jump to?
    refusal: bool,
    crash: bool,
    quiet: bool,
}

/// What it shows of a processing.
#[derive(Clone)]
struct Order {
    name: String,
    /// The frames that did what came before it, and what came after it.
    before: usize,
    after: usize,
    /// The frame, from 0, that first did the one from which its first arrow comes.
    from: Option<usize>,
}

fn moments(list: &[u8]) -> Vec<Moment> {
    let mut moments = Vec::new();
    let mut row = Row::default();
    let result = play(list, &engine::lines(list), |step| {
        row.see(step);
        let mut state = Vec::new();
        for section in compared(step.before, step.after) {
            state.push(section.title.clone());
            if section.entries.is_empty() {
                state.push("  nothing".to_string());
            }
            let entries = section.entries.iter();
            state.extend(entries.map(|entry| format!("{} {}", entry.mark.sign(), entry.whole())));
        }
        moments.push(Moment {
            head: step.head(),
            text: words(step).join("\n"),
            state: state.join("\n"),
            order: None,
            refusal: !step.line.starts_with("00") && step.line != "FF",
            crash: step.head().contains("  crash ") && step.before.world != step.after.world
                || step.line == "FF",
            quiet: step.after.is_quiet() && !step.before.is_quiet(),
        });
    });
    assert!(result.is_ok(), "the lines differ");
    for work in &row.works {
        let order = order(&row, work);
        for frame in &work.frames {
            moments[frame - 1].order = Some(order.clone());
        }
    }
    moments
}

/// Counted with the second implementation.
fn order(row: &Row, work: &Work) -> Order {
    let chains = Chains::of(&row.records());
    let count = |is: &dyn Fn(&Work) -> Answer| -> usize {
        let works = row.works.iter().filter(|other| is(other) == Answer::Yes);
        works.map(|other| other.frames.len()).sum()
    };
    let from = work.previous().or(work.sender());
    let first = row.works.iter().find(|other| Some(other.name()) == from);
    Order {
        name: processing(work.name()),
        before: count(&|other| chains.answer(other.name(), work.name())),
        after: count(&|other| chains.answer(work.name(), other.name())),
        from: first.map(|other| other.frames[0] - 1),
    }
}

/// Is the processing of a frame shown, and all that came before it and after it marked?
fn check_order(browser: &mut Browser, frame: usize, order: Option<&Order>) {
    let marked = |look: &str| {
        let rects = format!("rect[stroke=\"' + {look}.stroke + '\"]");
        format!("String(marks.querySelectorAll('{rects}').length)")
    };
    let [before, after] = ["BEFORE", "AFTER"].map(|look| browser.value(&marked(look)));
    let said = browser.value("document.getElementById('order').firstChild.textContent");
    let (start, counts) = match order {
        Some(order) => (
            format!("Processing {}, ", order.name),
            [order.before, order.after],
        ),
        None => (String::new(), [0, 0]),
    };
    assert_eq!(
        said.starts_with("Processing "),
        order.is_some(),
        "frame {frame}: {said}"
    );
    assert!(said.starts_with(&start), "frame {frame}: {said}");
    same("before", frame, &before, &counts[0].to_string());
    same("after", frame, &after, &counts[1].to_string());
}

/// The titles of the packets that have a label, in the order of the page.
fn titles(page: &str) -> Vec<String> {
    let lines: Vec<&str> = page.lines().collect();
    let start = "<g class=\"packet\"><title>";
    let labels = lines
        .windows(2)
        .filter(|pair| pair[0].starts_with(start) && pair[1].starts_with("<text"));
    let title = |pair: &[&str]| {
        pair[0][start.len()..]
            .replace("</title>", "")
            .replace("&gt;", ">")
    };
    labels.map(title).collect()
}

fn same(what: &str, frame: usize, got: &str, want: &str) {
    assert_eq!(got, want, "frame {frame}: {what}");
}

/// Is this frame shown, and all that belongs to it?
fn check(browser: &mut Browser, moments: &[Moment], at: usize) {
    let (frame, count) = (at + 1, moments.len());
    let lines = |id: &str| {
        format!("[...document.getElementById('{id}').children].map(e => e.textContent).join('\\n')")
    };
    let text = |id: &str| format!("document.getElementById('{id}').textContent");
    same(
        "place",
        frame,
        &browser.value(&text("place")),
        &format!("frame {frame} of {count}"),
    );
    same(
        "head",
        frame,
        &browser.value(&text("head")),
        &moments[at].head,
    );
    same(
        "words",
        frame,
        &browser.value(&lines("text")),
        &moments[at].text,
    );
    same(
        "state",
        frame,
        &browser.value(&lines("state")),
        &moments[at].state,
    );
    let marked =
        browser.value("String(document.querySelectorAll('#state .new, #state .gone').length)");
    let changes = moments[at]
        .state
        .lines()
        .filter(|line| line.starts_with(['*', '-']))
        .count();
    same("marks", frame, &marked, &changes.to_string());
    check_order(browser, frame, moments[at].order.as_ref());
    browser.wait(&format!("location.hash === '#{frame}'"));
    // The row with the frame's number is marked, and in sight below the names of the lanes; a folded frame has no number.
    let seen = browser.value(&format!(
        "(() => {{ const r = row.getBoundingClientRect(), p = picture.getBoundingClientRect(), h = part('heads').getBoundingClientRect(); \
         const number = [...svg.querySelectorAll('text.quiet')].find(t => t.textContent === '{frame}'); \
         const n = number ? number.getBoundingClientRect() : r; \
         return String(r.height > 0 && r.top >= h.bottom - 1 && Math.abs(h.top - p.top) < 1 && r.top < p.bottom && r.top <= n.top && n.bottom <= r.bottom); }})()"
    ));
    same("row in sight", frame, &seen, "true");
}

fn main() -> ExitCode {
    let args: Vec<String> = std::env::args().skip(1).collect();
    let [to, from, page, list] = &args[..] else {
        eprintln!("click_through TO FROM PAGE LIST|--sizes, with the two pipes of a browser");
        return ExitCode::from(2);
    };
    if list == "--sizes" {
        let mut browser = Browser::open(to, from, page);
        sizes::check_all(&mut browser, page);
        browser.close();
        return ExitCode::SUCCESS;
    }
    let given = std::fs::read(list).expect("a list");
    let moments = moments(&notation::digits(&given).expect("a list"));
    let last = moments.len() - 1;
    let html = std::fs::read_to_string(page).expect("a page");
    let mut browser = Browser::open(to, from, page);
    check(&mut browser, &moments, 0);
    // Forward, with button and key in turn.
    for at in 1..=last {
        match at % 2 {
            0 => browser.press("ArrowRight", 39),
            _ => browser.click("document.getElementById('next')"),
        }
        check(&mut browser, &moments, at);
    }
    // At the end there is nothing more; then back.
    browser.press("ArrowRight", 39);
    check(&mut browser, &moments, last);
    for at in (0..last).rev().take(6) {
        match at % 2 {
            0 => browser.press("ArrowLeft", 37),
            _ => browser.click("document.getElementById('back')"),
        }
        check(&mut browser, &moments, at);
    }
    browser.press("End", 35);
    check(&mut browser, &moments, last);
    browser.press("Home", 36);
    check(&mut browser, &moments, 0);
    // A click on the number of a row; the first ones and the last are never folded.
    for at in [1, last] {
        let number = format!(
            "[...svg.querySelectorAll('text.quiet')].find(t => t.textContent === '{}')",
            at + 1
        );
        browser.click(&number);
        check(&mut browser, &moments, at);
    }
    // Back along an arrow, from each processing that one comes to.
    let ways = moments.iter().enumerate();
    let ways: Vec<(usize, usize)> = ways
        .filter_map(|(at, moment)| Some((at, moment.order.as_ref()?.from?)))
        .collect();
    for &(at, from) in &ways {
        browser.go_to(at);
        browser.click("document.querySelector('#order button')");
        check(&mut browser, &moments, from);
    }
    // Every packet with its label.
    let titles = titles(&html);
    for (at, title) in titles.iter().enumerate() {
        browser.point(&format!("document.querySelectorAll('.packet text')[{at}]"));
        let shown = browser.value("document.getElementById('packet').textContent");
        assert_eq!(&shown, title, "packet {}", at + 1);
    }
    let labels = browser.value("String(document.querySelectorAll('.packet text').length)");
    assert_eq!(labels, titles.len().to_string(), "packets");
    tools::check_all(&mut browser, &moments, page);
    browser.close();
    println!(
        "the page shows what the list gives: {} frames by button and key, {} arrows between processings gone along, {} packets pointed at, \
         address, zoom, jumps, search and class mode tried, nothing fetched, no error",
        moments.len(),
        ways.len(),
        titles.len()
    );
    ExitCode::SUCCESS
}
