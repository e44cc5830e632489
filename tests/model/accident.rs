//! The accident held against the desk: after each call of a script no two open tickets of different jobs are on one
//! folder; and between a job's opening on a folder and the closing of its last ticket there, as the answers tell them,
//! no other job opens on it.

use crate::calls::{lines, Rehearsal};
use crate::desk::Desk;
use crate::holders::Holders;
use crate::script;

/// What is wrong with the desk, or with the answers that have led to it.
fn fault(desk: &Desk, holders: &Holders) -> Option<String> {
    let mut pairs = desk.tickets.iter().flat_map(|one| desk.tickets.iter().map(move |other| (one, other)));
    let clash =
        pairs.find(|((_, one), (_, other))| one.folder != 0 && one.folder == other.folder && one.job != other.job);
    if let Some(((one, ticket), (other, _))) = clash {
        return Some(format!("folder {} is that of two jobs, on {one} and {other}", ticket.folder));
    }
    let shown = desk.tickets.iter().map(|(address, ticket)| (*address, (ticket.job, ticket.folder)));
    if !shown.eq(holders.tickets.iter().map(|(address, told)| (*address, *told))) {
        return Some("the tickets are not what the answers tell".to_string());
    }
    holders.faults.first().cloned()
}

/// Runs a script of so many calls; tells how many of them were answered 75, or the first fault.
pub fn report(seed: u64, calls: usize) -> (String, bool) {
    let (mut rehearsal, mut holders, mut refused) = (Rehearsal::new(), Holders::new(), 0);
    for (number, line) in (1..).zip(lines(&script::write(seed, calls))) {
        let answer = rehearsal.answer(line);
        if answer != "bad line" {
            holders.hear(&String::from_utf8_lossy(line).split(' ').collect::<Vec<&str>>(), &answer);
        }
        refused += usize::from(answer.starts_with("no 75 "));
        if let Some(fault) = fault(&rehearsal.desk, &holders) {
            return (format!("FAILED folders: seed {seed}, call {number}: {fault}\n"), false);
        }
    }
    (format!("folders: seed {seed}, {calls} calls, {refused} answered 75, no folder of two jobs\n"), refused > 0)
}
