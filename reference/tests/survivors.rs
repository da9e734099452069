//! Point 8: how many crash sets are survived.

use reference::buddies::{job_line, layouts, layouts_of, LAYOUTS};
use reference::encode::{bytes, put_digits};
use reference::frame::{parse, Frame};
use reference::job::Job;
use reference::layout::{random_job, Layout};
use reference::odd::odd_inputs;
use reference::rng::Rng;
use reference::same::compare;
use reference::slip::{every_slip, random_input};
use reference::survivors::answer;
use std::io::{ErrorKind, Write};
use std::process::{Command, Stdio};

fn text(input: &[u8]) -> String {
    String::from_utf8(answer(input)).expect("text")
}

/// The lines of a layout.
fn lines(buddies: &[u8]) -> String {
    text(&job_line(buddies))
}

/// How many sets of 1, 2, ... machines there are, and how many of each are survived.
fn counts(buddies: &[u8]) -> (Vec<usize>, Vec<usize>) {
    let text = lines(buddies);
    let (mut sets, mut survived) = (Vec::new(), Vec::new());
    for (at, line) in text.lines().enumerate() {
        let numbers: Vec<usize> = line
            .split(' ')
            .map(|n| n.parse().expect("number"))
            .collect();
        let [f, all, left] = numbers[..] else {
            panic!("{line}")
        };
        assert_eq!(f, at + 1);
        sets.push(all);
        survived.push(left);
    }
    assert_eq!(sets.len(), buddies.len());
    (sets, survived)
}

fn survived(buddies: &[u8]) -> Vec<usize> {
    counts(buddies).1
}

/// Each machine's buddy as the rule book means it: 00 is the machine before.
fn spelt_out(buddies: &[u8]) -> Vec<u8> {
    let last = buddies.len() as u8;
    let before = |machine: u8| if machine == 1 { last } else { machine - 1 };
    (1..=last)
        .zip(buddies)
        .map(|(machine, &buddy)| if buddy == 0 { before(machine) } else { buddy })
        .collect()
}

#[test]
fn every_layout_once() {
    let mut all: Vec<Vec<u8>> = layouts().collect();
    assert_eq!(all.len(), LAYOUTS);
    assert_eq!(LAYOUTS, 4 + 27 + 256 + 3125 + 46_656);
    for buddies in &all {
        let Some(Frame::Job(draft)) = parse(&job_line(buddies)) else {
            panic!("{buddies:?}");
        };
        assert_eq!(draft.buddies[..buddies.len()], buddies[..]);
        assert!(Job::from_draft(&draft).is_some(), "{buddies:?}");
    }
    all.sort();
    all.dedup();
    assert_eq!(all.len(), LAYOUTS);
}

#[test]
fn two_machines() {
    for buddies in [[2, 1], [0, 1], [2, 0], [0, 0]] {
        assert_eq!(lines(&buddies), "1 2 2\n2 1 0\n");
    }
    // The rule book's sitting.
    assert_eq!(text(b"0102020201010200020000\n"), "1 2 2\n2 1 0\n");
}

/// Every set is one of Pascal's triangle; one machine alone is always survived, all of them never.
#[test]
fn what_holds_of_every_layout() {
    let triangle: [&[usize]; 5] = [
        &[2, 1],
        &[3, 3, 1],
        &[4, 6, 4, 1],
        &[5, 10, 10, 5, 1],
        &[6, 15, 20, 15, 6, 1],
    ];
    for row in triangle {
        for buddies in layouts_of(row.len()) {
            let (sets, survived) = counts(&buddies);
            assert_eq!(sets, row, "{buddies:?}");
            assert_eq!(survived[0], row.len(), "{buddies:?}");
            assert_eq!(survived[row.len() - 1], 0, "{buddies:?}");
            assert!(survived.iter().zip(row).all(|(s, all)| s <= all));
        }
    }
}

/// Document 002's pair map: n(n - 2)...(n - 2(f - 1)) / f! are survived.
#[test]
fn pairs() {
    let by_formula = |n: usize| -> Vec<usize> {
        let product = |f: usize| (0..f).map(|i| n.saturating_sub(2 * i)).product::<usize>();
        let factorial = |f: usize| (1..=f).product::<usize>();
        (1..=n).map(|f| product(f) / factorial(f)).collect()
    };
    assert_eq!(by_formula(6), [6, 12, 8, 0, 0, 0]);
    assert_eq!(survived(&[2, 1]), by_formula(2));
    assert_eq!(survived(&[2, 1, 4, 3]), by_formula(4));
    assert_eq!(survived(&[3, 4, 1, 2]), by_formula(4));
    assert_eq!(survived(&[2, 1, 4, 3, 6, 5]), by_formula(6));
    assert_eq!(survived(&[6, 5, 4, 3, 2, 1]), by_formula(6));
    assert_eq!(survived(&[2, 0, 4, 0, 6, 0]), by_formula(6));
}

/// Document 002's ring map: no two neighbours on a ring, counted by hand.
#[test]
fn rings() {
    let by_hand: [&[usize]; 5] = [
        &[2, 0],
        &[3, 0, 0],
        &[4, 2, 0, 0],
        &[5, 5, 0, 0, 0],
        &[6, 9, 2, 0, 0, 0],
    ];
    for want in by_hand {
        let last = want.len() as u8;
        let next: Vec<u8> = (1..=last).map(|machine| machine % last + 1).collect();
        let before: Vec<u8> = (1..=last)
            .map(|machine| (machine + last - 2) % last + 1)
            .collect();
        assert_eq!(survived(&next), want);
        assert_eq!(survived(&before), want);
        assert_eq!(lines(&vec![0; want.len()]), lines(&before));
    }
}

/// By hand: two rings of three, one machine that backs all others, and a path whose end is a pair.
#[test]
fn other_layouts() {
    // At most one of each ring.
    assert_eq!(survived(&[2, 3, 1, 5, 6, 4]), [6, 9, 0, 0, 0, 0]);
    // Machine 1 alone, or any of the five others.
    assert_eq!(survived(&[2, 1, 1, 1, 1, 1]), [6, 10, 10, 5, 1, 0]);
    assert_eq!(survived(&[3, 1, 1]), [3, 1, 0]);
    // No two neighbours on a path of six, of five and of four.
    assert_eq!(survived(&[2, 3, 4, 5, 6, 5]), [6, 10, 4, 0, 0, 0]);
    assert_eq!(survived(&[2, 0, 2, 3, 4]), [5, 6, 1, 0, 0]);
    assert_eq!(survived(&[2, 1, 0, 0]), [4, 3, 0, 0]);
    assert_eq!(lines(&[2, 1, 0, 0]), "1 4 4\n2 6 3\n3 4 0\n4 1 0\n");
}

#[test]
fn buddy_00_is_the_machine_before() {
    assert_eq!(spelt_out(&[0, 0, 2]), [3, 1, 2]);
    for buddies in layouts() {
        assert_eq!(lines(&buddies), lines(&spelt_out(&buddies)), "{buddies:?}");
    }
}

/// Chares and ports do not count.
#[test]
fn only_the_buddies_matter() {
    let mut rng = Rng::new(8);
    for _ in 0..2000 {
        let draft = random_job(&mut rng, Layout::Any);
        let mut line = Vec::new();
        put_digits(&mut line, &bytes(&Frame::Job(draft)));
        let buddies = &draft.buddies[..draft.machines as usize];
        assert_eq!(text(&line), lines(buddies));
    }
}

#[test]
fn the_number_alone() {
    for (line, number) in [
        ("x", "01\n"),
        ("01020100000100", "01\n"),
        ("010201000001000", "01\n"),
        ("010201000001000000", "01\n"),
        ("1201", "02\n"),
        ("1200", "02\n"),
        ("0102010100010000", "03\n"),
        ("0102010002010000", "03\n"),
        ("0102010000030000", "03\n"),
    ] {
        for end in ["", "\n", "\n0102010000010000\n"] {
            assert_eq!(text(format!("{line}{end}").as_bytes()), number, "{line}");
        }
    }
    assert_eq!(text(b"0102010000010000"), "1 2 2\n2 1 0\n");
}

#[test]
fn odd_inputs_get_their_lines() {
    let all = odd_inputs();
    assert_eq!(all.len(), 78);
    for odd in all {
        assert_eq!(text(&odd.input), odd.lines, "{}", odd.name);
    }
}

/// The first line alone decides, with a newline or without, in digits of either case.
#[test]
fn only_the_first_line_is_read() {
    let mut rng = Rng::new(1);
    for _ in 0..20_000 {
        let input = random_input(&mut rng);
        let want = text(&input);
        let line = input.split(|&b| b == b'\n').next().unwrap();
        if !line.is_empty() {
            assert_eq!(text(line), want);
            assert_eq!(text(&line.to_ascii_lowercase()), want);
            assert_eq!(text(&line.to_ascii_uppercase()), want);
        }
        if !input.is_empty() {
            assert_eq!(text(&[line, b"\n"].concat()), want);
            assert_eq!(text(&[line, b"\n", &input].concat()), want);
        }
    }
}

/// What the inputs for comparisons get is of every kind.
#[test]
fn inputs_of_every_kind() {
    let mut rng = Rng::new(1);
    let answers: Vec<String> = (0..10_000).map(|_| text(&random_input(&mut rng))).collect();
    let number = |what: fn(&str) -> bool| answers.iter().filter(|a| what(a)).count();
    assert!(number(|a| a == "01\n") > 3000);
    assert!(number(|a| a == "02\n") > 800);
    assert!(number(|a| a == "03\n") > 1500);
    assert!(number(|a| a.starts_with("1 ")) > 1500);
    assert!(number(str::is_empty) > 5);
}

#[test]
fn slips_of_every_kind() {
    let job = b"0102010000010000";
    let slips: Vec<Vec<u8>> = every_slip(job).collect();
    assert_eq!(slips.len(), 16 * 255 + 16 + 17 * 256);
    let answers: Vec<String> = slips.iter().map(|slip| text(slip)).collect();
    let number = |what: &str| answers.iter().filter(|a| *a == what).count();
    // Either buddy spelt out, the other machine, a port to itself; a newline behind.
    assert_eq!(number("1 2 2\n2 1 0\n"), 2 + 1 + 2 + 1);
    assert!(number("03\n") > 100);
    assert!(number("01\n") > 8000);
}

/// A wrong way to count.
#[derive(Clone, Copy, Debug, PartialEq, Eq)]
enum Wrong {
    /// Buddy 00 is the machine behind.
    Behind,
    /// A line for no machine too.
    Empty,
    /// The counts of one machine less.
    OneLess,
    /// No line for all machines.
    NotAll,
    /// Only two that are each other's buddies are lost together.
    Mutual,
    /// Only the lowest machine is asked for its buddy.
    Lowest,
    /// Those that are not survived.
    Lost,
}

/// The lines of a job's line by another way: a set is a word with one bit per machine.
fn by_words(line: &[u8], wrong: Option<Wrong>) -> Vec<u8> {
    let is = |what: Wrong| wrong == Some(what);
    let number = |pair: &[u8]| usize::from(pair[1] - b'0');
    let m = number(&line[2..4]);
    let step = if is(Wrong::Behind) { 1 } else { m - 1 };
    let buddy: Vec<usize> = line[6..6 + 2 * m]
        .chunks(2)
        .enumerate()
        .map(|(at, pair)| number(pair).checked_sub(1).unwrap_or((at + step) % m))
        .collect();
    let lost = |set: u32| {
        let mut asked = (0..m).filter(|at| set >> at & 1 == 1);
        let with_buddy = |at: usize| set >> buddy[at] & 1 == 1;
        match wrong {
            Some(Wrong::Lowest) => asked.next().is_some_and(with_buddy),
            Some(Wrong::Mutual) => asked.any(|at| with_buddy(at) && buddy[buddy[at]] == at),
            _ => asked.any(with_buddy),
        }
    };
    let mut rows = vec![(0, 0); m + 1];
    for set in 0..1 << m {
        let row = &mut rows[u32::count_ones(set) as usize];
        row.0 += 1;
        row.1 += u32::from(lost(set) == is(Wrong::Lost));
    }
    let first = usize::from(!is(Wrong::Empty));
    let last = m - usize::from(is(Wrong::NotAll));
    let mut out = String::new();
    for f in first..=last {
        let (all, survived) = rows[f - usize::from(is(Wrong::OneLess))];
        out += &format!("{f} {all} {survived}\n");
    }
    out.into_bytes()
}

fn compare_layouts(wrong: Option<Wrong>) -> Result<usize, Vec<u8>> {
    let lines = layouts().map(|buddies| job_line(&buddies));
    compare(lines, answer, |line| by_words(line, wrong))
}

#[test]
fn every_layout_by_words() {
    assert_eq!(compare_layouts(None), Ok(LAYOUTS));
}

/// That comparison can fail: it tells each wrong way.
#[test]
fn wrong_ways_differ() {
    for (wrong, first) in [
        // Three machines are the first on which the machine behind makes a difference.
        (Wrong::Behind, "010301"),
        (Wrong::Empty, "010201"),
        (Wrong::OneLess, "010201"),
        (Wrong::NotAll, "010201"),
        (Wrong::Mutual, "010301"),
        (Wrong::Lowest, "010301"),
        (Wrong::Lost, "010201"),
    ] {
        let Err(input) = compare_layouts(Some(wrong)) else {
            panic!("{wrong:?} is not told");
        };
        assert!(input.starts_with(first.as_bytes()), "{wrong:?}");
    }
}

/// What the program prints for an input, which it need not read to its end.
fn program(input: &[u8]) -> Vec<u8> {
    let mut child = Command::new(env!("CARGO_BIN_EXE_survivors"))
        .stdin(Stdio::piped())
        .stdout(Stdio::piped())
        .spawn()
        .expect("a run");
    let mut stdin = child.stdin.take().expect("an input");
    match stdin.write_all(input) {
        Err(e) if e.kind() != ErrorKind::BrokenPipe => panic!("{e}"),
        _ => drop(stdin),
    }
    let output = child.wait_with_output().expect("an output");
    assert!(output.status.success());
    output.stdout
}

#[test]
fn the_program() {
    for odd in odd_inputs() {
        assert_eq!(program(&odd.input), odd.lines.as_bytes(), "{}", odd.name);
    }
    let mut rng = Rng::new(2);
    for _ in 0..50 {
        let input = random_input(&mut rng);
        assert_eq!(program(&input), answer(&input));
    }
}
