//! What docs/SURVIVORS.md says of layouts is true of the counts, the engine's and the second implementation's.

mod common;

use common::documents::{blocks, document, flowing, rows};
use common::run::fed;
use explained::engine;
use explained::notation::digits;
use reference::limits::{MAX_MACHINES, MIN_MACHINES};
use reference::reader::answer_all;
use reference::survivors::answer;

const DOCUMENT: &str = "docs/SURVIVORS.md";
const SIZES: std::ops::RangeInclusive<usize> = MIN_MACHINES..=MAX_MACHINES;

/// A layout for any number of machines, and its name in the document.
type Layout = (&'static str, fn(usize) -> Vec<usize>);

const LAYOUTS: [Layout; 4] = [
    ("next", next),
    ("previous", previous),
    ("pairs", pairs),
    ("all on one", all_on_one),
];

fn next(m: usize) -> Vec<usize> {
    (2..=m).chain([1]).collect()
}

/// Not named.
fn previous(m: usize) -> Vec<usize> {
    vec![0; m]
}

/// The last of an odd number has machine 1.
fn pairs(m: usize) -> Vec<usize> {
    let both = (1..=m / 2).flat_map(|pair| [2 * pair, 2 * pair - 1]);
    both.chain((m % 2 == 1).then_some(1)).collect()
}

fn all_on_one(m: usize) -> Vec<usize> {
    [2].into_iter().chain(vec![1; m - 1]).collect()
}

fn job(buddies: &[usize]) -> Vec<u8> {
    let named: String = buddies.iter().map(|buddy| format!("{buddy:02X}")).collect();
    format!("01{:02X}01{named}010000\n", buddies.len()).into_bytes()
}

/// All sets and survived ones for each f, as in these lines.
fn numbers(lines: &[u8]) -> Vec<(usize, usize)> {
    let lines = std::str::from_utf8(lines).expect("digits").lines();
    let numbers = lines.enumerate().map(|(at, line)| {
        let words: Vec<usize> = line
            .split(' ')
            .map(|w| w.parse().expect("a number"))
            .collect();
        assert_eq!((words.len(), words[0]), (3, at + 1), "{line}");
        (words[1], words[2])
    });
    numbers.collect()
}

fn counts(buddies: &[usize]) -> Vec<(usize, usize)> {
    numbers(&answer(&job(buddies)))
}

fn survived(buddies: &[usize]) -> Vec<usize> {
    counts(buddies)
        .into_iter()
        .map(|(_, survived)| survived)
        .collect()
}

/// Every layout of so many machines: each has any other one as its buddy.
fn all_layouts(m: usize) -> Vec<Vec<usize>> {
    let mut all = vec![Vec::new()];
    for machine in 1..=m {
        let others = (1..=m).filter(|&other| other != machine);
        let longer = others.flat_map(|buddy| {
            all.iter()
                .map(move |layout| [&layout[..], &[buddy]].concat())
        });
        all = longer.collect();
    }
    all
}

/// How many sets of k there are of n.
fn choose(n: usize, k: usize) -> usize {
    (0..k).fold(1, |sets, at| sets * n.saturating_sub(at) / (at + 1))
}

/// The rows of the table for a way of counting, as the script writes them.
fn table(lines: fn(&[u8]) -> Vec<u8>) -> String {
    let mut text = String::from("| layout | M | buddies |");
    for f in 1..=MAX_MACHINES {
        text.push_str(&format!(" f = {f} |"));
    }
    text.push_str(&format!("\n{}|\n", "|---".repeat(3 + MAX_MACHINES)));
    for (name, layout) in LAYOUTS {
        for m in SIZES {
            let buddies = layout(m);
            let named: Vec<String> = buddies.iter().map(usize::to_string).collect();
            text.push_str(&format!("| {name} | {m} | `{}` |", named.join(" ")));
            let mut cells: Vec<String> = numbers(&lines(&job(&buddies)))
                .iter()
                .map(|(all, survived)| format!("{survived} of {all}"))
                .collect();
            cells.resize(MAX_MACHINES, String::new());
            for cell in cells {
                text.push_str(&format!(" {cell} |"));
            }
            text.push('\n');
        }
    }
    text
}

/// It is what both count.
#[test]
fn the_table() {
    let text = document(DOCUMENT);
    for (whose, lines) in [
        ("engine", engine::survivors as fn(&[u8]) -> Vec<u8>),
        ("second implementation", answer),
    ] {
        let want = table(lines);
        assert!(text.contains(&format!("\n\n{want}\n")), "{whose}:\n{want}");
    }
}

/// The call, as it is typed, gives what is shown below it.
#[test]
#[cfg_attr(not(library), ignore = "needs the engine's library")]
fn the_call() {
    let text = document(DOCUMENT);
    let ([call], [shown]) = (&blocks(&text, "sh")[..], &blocks(&text, "text")[..]) else {
        panic!("one call and its lines");
    };
    let list = call
        .strip_prefix("tools/satuphir survivors - <<'END'\n")
        .and_then(|rest| rest.strip_suffix("END\n"));
    let (status, out, _) = fed(&["survivors", "-"], list.expect("a call").as_bytes());
    assert_eq!((status, out.as_str()), (0, *shown));
}

/// All sets for f = 1, none for f = M, and no layout beats pairs at f = 2 or all on one above.
#[test]
fn every_layout() {
    for m in SIZES {
        let (of_two, of_more) = (survived(&pairs(m)), survived(&all_on_one(m)));
        let layouts = all_layouts(m);
        assert_eq!(layouts.len(), (m - 1).pow(m as u32));
        for layout in layouts {
            let counts = counts(&layout);
            for (f, &(all, survived)) in (1..).zip(&counts) {
                assert_eq!(all, choose(m, f));
                match f {
                    1 => assert_eq!(survived, m),
                    2 => assert!(survived <= of_two[1], "{layout:?}"),
                    _ => assert!(survived <= of_more[f - 1], "{layout:?}, f = {f}"),
                }
            }
            assert_eq!(counts[m - 1], (1, 0));
        }
    }
    assert_eq!(all_layouts(6).len(), 15_625);
    assert!(flowing(DOCUMENT).contains("six machines have 15,625"));
}

/// Which layout beats which, and where.
#[test]
fn layouts_compared() {
    let compared = |one: &[usize], other: &[usize]| {
        let (one, other) = (survived(one), survived(other));
        let orders = one.into_iter().zip(other).map(|(a, b)| a.cmp(&b) as i8);
        orders.collect::<Vec<i8>>()
    };
    for m in SIZES {
        assert_eq!(survived(&next(m)), survived(&previous(m)));
        let beaten = compared(&pairs(m), &next(m));
        assert!(beaten.iter().all(|&order| order >= 0), "M = {m}");
        assert_eq!(beaten[1], i8::from(m > 2), "M = {m}");
        let inner = |f: usize| (2..m).contains(&f);
        for f in 1..=m {
            let ring = compared(&all_on_one(m), &next(m))[f - 1];
            assert_eq!(ring, i8::from(inner(f)), "M = {m}, f = {f}");
            let paired = compared(&all_on_one(m), &pairs(m))[f - 1];
            let want = match f {
                2 if m > 3 => -1,
                f if inner(f) && m > 3 => 1,
                _ => 0,
            };
            assert_eq!(paired, want, "M = {m}, f = {f}");
        }
    }
    assert_eq!(all_layouts(2).len(), 1);
    assert_eq!(pairs(3), all_on_one(3));
}

/// Document 002's formula for pairs, ours for rings and for all on one.
#[test]
fn the_formulas() {
    let paired = |n: usize, f: usize| {
        let ways = (0..f).map(|at| n.saturating_sub(2 * at)).product::<usize>();
        ways / (1..=f).product::<usize>()
    };
    let ring = |m: usize, f: usize| m * choose(m - f, f) / (m - f);
    for m in SIZES {
        for f in 1..=m {
            let at = f - 1;
            if m % 2 == 0 {
                assert_eq!(survived(&pairs(m))[at], paired(m, f));
            }
            if f < m {
                assert_eq!(survived(&next(m))[at], ring(m, f));
            }
            if f > 1 {
                assert_eq!(survived(&all_on_one(m))[at], choose(m - 1, f));
            }
        }
    }
    // Document 002's example.
    assert_eq!((choose(8, 2), ring(8, 2), paired(8, 2)), (28, 20, 24));
}

/// Document 002's distributions: the probability that a failure takes f machines.
fn geometric(f: usize) -> f64 {
    0.15_f64.powi(f as i32 - 1) * 0.85
}

fn zipf(n: usize, f: usize) -> f64 {
    let weight = |f: usize| (f as f64).powf(-3.2);
    weight(f) / (1..=n).map(weight).sum::<f64>()
}

/// The figures of the second table and of the lines around it.
#[test]
fn survivability() {
    let sum = |layout: &[usize], p: &dyn Fn(usize) -> f64| -> f64 {
        let share = |(all, survived): (usize, usize)| survived as f64 / all as f64;
        (1..)
            .zip(counts(layout))
            .map(|(f, n)| share(n) * p(f))
            .sum()
    };
    let rows = rows(&document(DOCUMENT));
    let of_six: Vec<_> = rows.iter().filter(|row| row.len() == 3).skip(1).collect();
    assert_eq!(of_six.len(), 3);
    for (row, layout) in of_six.into_iter().zip([next(6), pairs(6), all_on_one(6)]) {
        let want = [sum(&layout, &geometric), sum(&layout, &|f| zipf(6, f))];
        assert_eq!(row[1..], want.map(|s| format!("{s:.4}")), "{}", row[0]);
    }
    // The worked line, and the sums for document 002's number of machines.
    assert_eq!(format!("{:.7}", sum(&pairs(6), &geometric)), "0.9596500");
    let n: usize = 1024;
    let share = |f: usize| -> f64 {
        let left = (0..f).map(|at| n.saturating_sub(2 * at) as f64 / (n - at) as f64);
        left.product()
    };
    let [one, other] = [&geometric as &dyn Fn(usize) -> f64, &|f| zipf(n, f)]
        .map(|p| (1..=n).map(|f| share(f) * p(f)).sum::<f64>());
    let said = flowing(DOCUMENT);
    assert!(said.contains(&format!("the same sums are {one:.6} and {other:.6};")));
}

/// The lists that it tells of get the lines it says.
#[test]
fn crashes_in_a_list() {
    let lines = |buddies: &str, frames: &str| {
        let list = format!("job 4 machines, buddies {buddies}\nchare 1 on 1\n{frames}");
        let lines = answer_all(&digits(list.as_bytes()).expect("a list"));
        String::from_utf8(lines).expect("digits")
    };
    let (paired, on_one) = ("2 1 4 3", "2 1 1 1");
    assert_eq!(lines(paired, "crash 1\ncrash 3\n"), "00J\n00J\nFF\n");
    let between = "crash 1\nrestart 1\ncrash 3\n";
    assert_eq!(lines(paired, between), "00J\n00J\n00J\n00J\n");
    assert_eq!(lines(on_one, between), "00J\n00J\n00J\nFF\n");
}

/// The header's room for callers in C is that of as many lines as there may be machines, each as long as the longest.
#[test]
fn the_room_of_the_header() {
    let layouts = SIZES.flat_map(all_layouts);
    let longest = layouts.map(|layout| {
        let lines = answer(&job(&layout));
        lines
            .split_inclusive(|&b| b == b'\n')
            .map(<[u8]>::len)
            .max()
    });
    let longest = longest.max().flatten().expect("a line");
    let want = format!(
        "#define SATUPHIR_SURVIVORS_SPACE {}\n",
        MAX_MACHINES * longest
    );
    assert!(
        document("c/satuphir.h").contains(&want),
        "not there: {want}"
    );
}
