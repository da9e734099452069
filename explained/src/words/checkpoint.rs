//! The words for a checkpoint.

use super::Done;
use crate::names::{joined, message, tickets};
use reference::job::ix;
use reference::limits::DESK;
use reference::message::Lookup;

pub fn words(done: &Done, machine: u8) -> Vec<String> {
    let buddy = done.job.buddy_of(machine);
    let mut lines = vec![format!(
        "Checkpoint: machine {buddy}, the buddy, takes a new copy of machine {machine}."
    )];
    lines.extend(done.job.chares_on(machine).map(|chare| table(done, chare)));
    let notes = done.before.backups[ix(machine)].notes.len();
    if notes > 0 {
        let notes = match notes {
            1 => "note".to_string(),
            _ => format!("{notes} notes"),
        };
        lines.push(format!(
            "Machine {buddy} throws away its {notes} for machine {machine}: \
                    the copy has the tickets."
        ));
    }
    lines.push(logs(done, machine));
    lines
}

/// What the checkpoint did to a chare's table.
fn table(done: &Done, chare: u8) -> String {
    let (before, after) = (done.before.chare(chare), done.after.chare(chare));
    let mut parts = Vec::new();
    let worked: Vec<u16> = before
        .table
        .0
        .iter()
        .map(|e| e.tn)
        .filter(|&tn| tn <= before.height)
        .collect();
    if !worked.is_empty() {
        parts.push(format!("{} worked and out of the table", tickets(worked)));
    }
    let fresh = |tn: u16| before.table.find_tn(tn).is_some_and(|e| !e.noted);
    let (now, kept): (Vec<u16>, Vec<u16>) = after
        .table
        .0
        .iter()
        .map(|e| e.tn)
        .partition(|&tn| fresh(tn));
    if !now.is_empty() {
        parts.push(format!("{} kept and now noted", tickets(now)));
    }
    if !kept.is_empty() {
        parts.push(format!("{} kept", tickets(kept)));
    }
    let parts = match parts.len() {
        0 => "the table was empty".to_string(),
        _ => parts.join("; "),
    };
    format!(
        "Chare {chare}, height {}, state {:08X}: {parts}.",
        after.height, after.state
    )
}

/// What left the logs, and what just stayed.
fn logs(done: &Done, machine: u8) -> String {
    let (mut dropped, mut equal) = (Vec::new(), Vec::new());
    for from in DESK..=done.job.chare_count() {
        let log = done.after.log(from);
        let to_it = |receiver| done.job.machine_of(receiver) == machine;
        for m in done.before.log(from).0.iter().filter(|m| to_it(m.receiver)) {
            let Some(tn) = m.tn else { continue };
            let what = format!("{} (TN {tn})", message(from, m.receiver, m.sn));
            if log.look_up(m.receiver, m.sn) == Lookup::Missing {
                dropped.push(what);
            } else if tn == done.after.chare(m.receiver).height {
                equal.push(what);
            }
        }
    }
    let mut text = match dropped.len() {
        0 => "Logs: nothing has a TN below the height, nothing is dropped".to_string(),
        _ => format!(
            "Logs: TN below the height, so dropped: {}",
            joined(&dropped)
        ),
    };
    if !equal.is_empty() {
        text.push_str("; TN equal to the height, so kept: ");
        text.push_str(&joined(&equal));
    }
    text.push('.');
    text
}
