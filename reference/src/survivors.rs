//! Point 8: how many crash sets a job's buddies survive.

use crate::job::Job;
use crate::state::State;

/// The lines for an input, of which only the first line is read. A job that is accepted gives a line for each number f of machines: f,
/// how many sets of f machines there are, how many of these are survived. Any other line gives its number alone, an empty input nothing.
pub fn answer(input: &[u8]) -> Vec<u8> {
    let mut out = Vec::new();
    if input.is_empty() {
        return out;
    }
    // This looks no further than the first newline: the input may be huge.
    let line = input.split(|&b| b == b'\n').next().unwrap_or_default();
    let mut state = State::new();
    let answer = state.line(line);
    match &state.job {
        Some(job) => put_counts(job, &mut out),
        None => answer.print(&mut out),
    }
    out
}

fn put_counts(job: &Job, out: &mut Vec<u8>) {
    // The sets of f machines, each a list of their numbers in ascending order.
    let mut sets = vec![Vec::new()];
    for f in job.machines() {
        sets = sets.iter().flat_map(|set| longer(job, set)).collect();
        let survived = sets.iter().filter(|set| is_survived(job, set)).count();
        out.extend_from_slice(format!("{f} {} {survived}\n", sets.len()).as_bytes());
    }
}

/// The lists with one machine more, a higher one than all before, so that no set is made twice.
fn longer<'a>(job: &Job, set: &'a [u8]) -> impl Iterator<Item = Vec<u8>> + 'a {
    let last = set.last().copied().unwrap_or(0);
    job.machines()
        .filter(move |&machine| machine > last)
        .map(move |machine| [set, &[machine]].concat())
}

/// Does no machine stand together with its buddy?
fn is_survived(job: &Job, set: &[u8]) -> bool {
    !set.iter()
        .any(|&machine| set.contains(&job.buddy_of(machine)))
}
