//! The call that expires everything due held against single expiries: the list must be what these answer in their
//! order, and both must leave the same desk, the same box and the same scan behind.

use crate::calls::{Rehearsal, MOST_ENTRIES};
use crate::desk::Ticket;
use crate::random::Random;
use crate::script;

/// How many calls are tried on each desk, each on what the one before left.
const CALLS: usize = 12;
/// Rooms that matter whatever is due.
const ROOMS: [usize; 6] = [0, 1, 94, 95, 96, MOST_ENTRIES];

/// A clock reading for this desk: around the end of a ticket's waiting time, at its opening or just before, or any.
fn clock(random: &mut Random, rehearsal: &Rehearsal) -> u32 {
    let tickets: Vec<&Ticket> = rehearsal.desk.tickets.values().collect();
    if tickets.is_empty() || random.one_in(8) {
        return random.word();
    }
    let Ticket { opened, wait, .. } = random.pick(&tickets);
    let any = random.below(60001) as u32;
    opened.wrapping_add(random.pick(&[*wait, *wait, wait - 1, wait + 1, 0, u32::MAX, 60000, any]))
}

/// A room for a list at this clock: around how many are due, one that matters always, or any.
fn room(random: &mut Random, rehearsal: &Rehearsal, clock: u32) -> usize {
    let due = rehearsal.desk.tickets.values().filter(|ticket| ticket.is_due(clock)).count();
    match random.below(4) {
        0 => random.pick(&ROOMS),
        1 => random.between(0, MOST_ENTRIES),
        _ => random.pick(&[due.saturating_sub(1), due, due + 1, due / 2]),
    }
}

/// All that the desk, the box and the scan show.
fn state(rehearsal: &mut Rehearsal) -> [String; 3] {
    ["desk.dump", "varia.dump", "scan.dump"].map(|line| rehearsal.answer(line.as_bytes()))
}

/// The answer that single expiries at this clock add up to, until the list is full or nothing is due.
fn one_by_one(rehearsal: &mut Rehearsal, clock: u32, room: usize) -> String {
    let mut list: Vec<String> = Vec::new();
    while list.len() < room {
        let answer = rehearsal.answer(format!("desk.expire {clock}").as_bytes());
        match answer.strip_prefix("ok job=") {
            Some(fields) => list.push(fields.replace(" address=", ":").replace(" folder=", ":")),
            None => break,
        }
    }
    let count = list.len();
    list.extend(vec![".".to_string(); room - count]);
    format!("ok n={count} list={}", if room == 0 { "-".to_string() } else { list.join(",") })
}

/// Compares so many desks; tells how many calls and tickets that were, or the first call that made a difference.
pub fn report(seed: u64, desks: u64) -> (String, bool) {
    let mut random = Random::new(seed);
    let (mut calls, mut expired) = (0, 0);
    for _ in 0..desks {
        let crowd = random.bits();
        let mut at_once = script::crowded(crowd);
        for _ in 0..CALLS {
            let mut single = at_once.clone();
            let clock = clock(&mut random, &at_once);
            let room = room(&mut random, &at_once, clock);
            let before = at_once.desk.tickets.len();
            let answer = at_once.answer(format!("desk.expall {clock} {room}").as_bytes());
            let is_same = answer == one_by_one(&mut single, clock, room) && state(&mut at_once) == state(&mut single);
            if !is_same {
                return (
                    format!("FAILED desk {crowd}: desk.expall {clock} {room} is no row of single expiries\n"),
                    false,
                );
            }
            calls += 1;
            expired += before - at_once.desk.tickets.len();
        }
    }
    (format!("expiries: seed {seed}, {desks} desks, {calls} calls, {expired} tickets, no difference\n"), expired > 0)
}
