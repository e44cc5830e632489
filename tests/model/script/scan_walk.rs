//! Walks over the scan: whole ones with all that may come between their turns, whole ones of one result, openings that
//! are refused and tried again, and scans that are given up for another.

use super::desk_walk::Walk;
use super::lane_walk::{grant, join_with, LONGEST_WAIT};
use super::rest_walk;
use super::varia_walk::{book, handed_over, new_box, orderly, wish_with, EDGES};
use super::{buffer, enough, too_little, Script};
use crate::calls::{hex, MOST_ENTRIES};
use crate::desk::{Request, Ticket, HOSTS, REST};
use crate::scan::{Scan, ASKED, TURNS, WAIT};
use crate::telegram::{frame, Message};
use crate::values::KINDS;
use crate::varia::Wish;

/// How a turn ends.
#[derive(Clone, Copy)]
enum End {
    /// A reply of this type is booked, or a datagram without data.
    Reply(u8),
    Empty,
    /// A bench answers: it has the register and the right to read it, or not.
    Bench(bool),
    Cancel,
    Expiry,
    /// With all that is due then.
    All,
}

const ENDS: [End; 10] = [
    End::Reply(8),
    End::Empty,
    End::Reply(0),
    End::Reply(1),
    End::Reply(2),
    End::Bench(true),
    End::Bench(false),
    End::Cancel,
    End::Expiry,
    End::All,
];
/// Ends that give one result.
const PRESENT: [End; 1] = [End::Reply(8)];
const REFUSING: [End; 3] = [End::Reply(0), End::Reply(1), End::Reply(2)];
const LOST: [End; 3] = [End::Cancel, End::Expiry, End::All];
/// The turn, counted from 0, that expires over the clock's wrap in a scan of all results.
const WRAPPED: usize = 1;
/// Jobs of scans; other openings have some of them too.
const JOBS: [u32; 6] = [1, 2, 3, 7, 9, u32::MAX];
/// How many sorts of things may go on while a turn's ticket is out; the one that wants a due ticket below it.
const MEANWHILE: usize = 19;
const BELOW: usize = 16;

/// The start of every script: calls on a scan that was never made, lines that make none between them.
pub fn no_scan_yet(script: &mut Script) {
    for no_new in ["scan.new", "scan.new -", "scan.new 4294967296", "scan.new 5 0"] {
        script.call(no_new);
        for line in ["scan.dump", "scan.step 0 -", "scan.step 400 a1a2a3a4a5a6a7a8a9aaabac"] {
            script.call(line);
        }
    }
}

/// In half of the cases a scan beside what the script has on its desk, its ticket out if there is an address for it.
pub fn beside(script: &mut Script) {
    if script.random.one_in(2) {
        let clocks: Vec<u32> = script.rehearsal.desk.tickets.values().map(|ticket| ticket.opened).chain([0]).collect();
        let (job, clock) = (script.random.pick(&JOBS), script.random.pick(&clocks));
        script.call(format!("scan.new {job}"));
        script.call(format!("scan.step {clock} {}", hex(&buffer(12))));
    }
}

/// Makes a scan for this job.
fn new_scan(walk: &mut Walk, job: u32) {
    walk.add(format!("scan.new {job}"));
}

/// Makes a scan for any of those jobs.
fn any_scan(walk: &mut Walk) {
    let job = walk.random().pick(&JOBS);
    new_scan(walk, job);
}

/// The scan as the walk has it now.
fn the_scan(walk: &Walk) -> Scan {
    walk.scan().cloned().expect("a walk makes its scan first")
}

/// Adds the scan's state to the script.
fn dump(walk: &mut Walk) {
    walk.add("scan.dump");
}

/// Adds a step with a buffer of that length, and hands its answer over.
fn step_with(walk: &mut Walk, room: usize) -> String {
    walk.add(format!("scan.step {} {}", walk.clock, hex(&buffer(room))))
}

/// The length of the telegram that the desk would write for the next turn.
fn needed(walk: &Walk) -> usize {
    walk.telegram_length(&the_scan(walk).request(walk.clock))
}

/// A step with enough room.
fn step(walk: &mut Walk) -> String {
    let needed = needed(walk);
    let room = enough(walk.random(), needed);
    step_with(walk, room)
}

/// A step with too little room: 16 where a turn would be opened.
fn short_step(walk: &mut Walk) {
    let needed = needed(walk);
    let room = too_little(walk.random(), needed);
    step_with(walk, room);
}

/// Steps until a turn's ticket is out: an opening that is refused is tried again at a later clock. Hands the answer to
/// the last step over.
fn next_turn(walk: &mut Walk) -> String {
    let mut answer = step(walk);
    while the_scan(walk).out.is_none() {
        if walk.desk().tickets.len() == usize::from(HOSTS) {
            close_another(walk, true);
        }
        let ahead = walk.random().pick(&[1, REST / 2, REST - 1, REST]);
        walk.clock = walk.clock.wrapping_add(ahead);
        answer = step(walk);
    }
    answer
}

/// The ticket that is out, with its address.
fn out(walk: &Walk) -> Option<(u8, Ticket)> {
    let address = walk.scan()?.out?;
    Some((address, walk.desk().tickets.get(&address)?.clone()))
}

/// A ticket that is open and not the scan's, with its address.
fn another(walk: &mut Walk) -> Option<(u8, Ticket)> {
    let own = walk.scan().and_then(|scan| scan.out);
    let others: Vec<u8> = walk.desk().tickets.keys().copied().filter(|address| Some(*address) != own).collect();
    if others.is_empty() {
        return None;
    }
    let address = walk.random().pick(&others);
    Some((address, walk.desk().tickets[&address].clone()))
}

/// The clock at which a ticket is due, or a little later now and then.
fn due(walk: &mut Walk, ticket: &Ticket) -> u32 {
    let later = walk.random().pick(&[0, 0, 1, 250]);
    ticket.opened.wrapping_add(ticket.wait + later)
}

/// The datagram of two bytes that a read is answered with.
fn datagram(address: u8, ticket: &Ticket) -> Message {
    let Ticket { module, register, .. } = *ticket;
    Message { dest: address, source: module, type_no: 8, register, data: vec![0x34, 0x12] }
}

/// Closes a ticket in this way; a bench has nothing to answer here.
fn close(walk: &mut Walk, address: u8, ticket: &Ticket, way: End) {
    match way {
        End::Reply(type_no) => book(walk, address, ticket, type_no),
        End::Empty => {
            let empty = Message { data: Vec::new(), ..datagram(address, ticket) };
            walk.reply_with(&empty.telegram(), 2);
        }
        End::Bench(_) => rest_walk::book(walk, address),
        End::Cancel => walk.cancel(ticket.job, address),
        End::Expiry => {
            walk.clock = due(walk, ticket);
            while walk.desk().tickets.contains_key(&address) {
                walk.expire(walk.clock);
            }
        }
        End::All => {
            walk.clock = due(walk, ticket);
            let room = walk.random().pick(&[95, 96, MOST_ENTRIES]);
            walk.expire_all(walk.clock, room);
        }
    }
}

/// Ends the turn whose opening was answered so, in this way; tells its address and what its ticket was.
fn end(walk: &mut Walk, way: End, opened: &str) -> Option<(u8, Ticket)> {
    let (address, ticket) = out(walk)?;
    if matches!(way, End::All) && walk.random().one_in(2) {
        twin(walk, 1);
    }
    match way {
        End::Bench(is_readable) => at_the_bench(walk, ticket.module, is_readable, opened),
        way => close(walk, address, &ticket, way),
    }
    Some((address, ticket))
}

/// The turn's telegram goes to a bench on this address, and its reply to the desk.
fn at_the_bench(walk: &mut Walk, module: u8, is_readable: bool, opened: &str) {
    walk.add(format!("bench.new {module}"));
    let (kind, is_there) = (walk.random().pick(&KINDS), walk.random().one_in(2));
    if is_readable || is_there {
        let rights = walk.random().pick(if is_readable { &[1, 3, 5, 7] } else { &[0, 2, 4, 6] });
        walk.add(format!("bench.add {ASKED} {kind} {rights}"));
    }
    let reply = handed_over(opened).and_then(|telegram| {
        let answer = walk.add(format!("bench.tele {} {}", hex(&telegram), hex(&buffer(30))));
        handed_over(&answer)
    });
    walk.reply_with(&reply.unwrap_or_default(), 20);
}

/// Closes a ticket that is not the scan's, opened for it where there is none: by a reply of any type that fits, or by a
/// cancel.
fn close_another(walk: &mut Walk, is_booked: bool) {
    if another(walk).is_none() {
        walk.open();
    }
    match another(walk) {
        Some((address, _)) if is_booked => rest_walk::book(walk, address),
        Some((address, ticket)) => walk.cancel(ticket.job, address),
        None => (),
    }
}

/// Opens a ticket that asks the same of the same module, for the scan's own job or another's, with this waiting time.
fn twin(walk: &mut Walk, wait: u32) {
    let (clock, Scan { job, .. }) = (walk.clock, the_scan(walk));
    let asked = the_scan(walk).request(clock);
    let job = walk.random().pick(&[job.max(1), 4]);
    walk.open_for(&Request { job, wait, ..asked });
}

/// What may go on while a turn's ticket is out: one of so many sorts. The ticket stays out, but for an expiry of others
/// where it is due by then.
fn meanwhile(walk: &mut Walk, sort: usize) {
    let (address, ticket) = match out(walk) {
        Some(out) => out,
        None => return,
    };
    let last = ticket.opened.wrapping_add(WAIT - 1);
    match sort {
        0 => {
            let room = walk.random().pick(&[7, 8, 20]);
            step_with(walk, 0);
            step_with(walk, room);
        }
        1 => {
            let clock = std::mem::replace(&mut walk.clock, due_clock(&ticket));
            step(walk);
            walk.clock = clock;
        }
        2 | 3 => {
            let wait = walk.random().pick(&[1, 3000, LONGEST_WAIT]);
            twin(walk, wait);
        }
        4 => walk.open(),
        5 => close_another(walk, true),
        6 => close_another(walk, false),
        7 | 8 => {
            let (request, job) = (walk.request(), walk.random().pick(&JOBS));
            walk.open_for(&Request { wait: 1, job, folder: 0, ..request });
            walk.clock = walk.clock.wrapping_add(1);
            match sort {
                7 => walk.expire(walk.clock),
                _ => walk.expire_all(walk.clock, MOST_ENTRIES),
            }
        }
        9..=11 => walk.misfit_of(address, &ticket, [18, 19, 20][sort - 9]),
        12 => {
            let ack = Message { type_no: 3, data: Vec::new(), ..datagram(address, &ticket) };
            walk.reply_with(&ack.telegram(), 2);
            step(walk);
        }
        13 => {
            let mut altered = datagram(address, &ticket).bytes();
            altered[5] ^= 1;
            walk.reply_with(&frame(&altered), 4);
            let reply = walk.fitting_reply(address, &ticket);
            walk.unread(reply);
        }
        14 => {
            let job = walk.random().pick(&[0, ticket.job ^ 1, ticket.job.wrapping_add(65536)]);
            walk.cancel(job, address);
        }
        15 => {
            walk.clock = last;
            walk.expire_all(last, MOST_ENTRIES);
            walk.expire(last);
        }
        BELOW => expire_below(walk, address, &ticket),
        17 => {
            for _ in 0..2 {
                let request = walk.request();
                join_with(walk, &request);
            }
            grant(walk);
        }
        _ => {
            new_box(walk);
            let (edge, status) = (walk.random().pick(&EDGES), Wish::Status);
            let value = orderly(walk.random(), edge);
            wish_with(walk, Wish::Set(edge, value), LONGEST_WAIT, 20);
            wish_with(walk, status, LONGEST_WAIT, 20);
        }
    }
}

/// The clock at which a ticket is due.
fn due_clock(ticket: &Ticket) -> u32 {
    ticket.opened.wrapping_add(ticket.wait)
}

/// A list for those that are due below the turn's ticket when it is due too, so that it is left.
fn expire_below(walk: &mut Walk, address: u8, ticket: &Ticket) {
    walk.clock = due_clock(ticket);
    let tickets = walk.desk().tickets.iter();
    let below = tickets.filter(|(other, ticket)| **other < address && ticket.is_due(walk.clock)).count();
    walk.expire_all(walk.clock, below);
}

/// The reply to a turn that has ended, too late for it or once more.
fn late(walk: &mut Walk, address: u8, ticket: &Ticket) {
    let type_no = walk.random().pick(&[8, 8, 0, 1, 2]);
    book(walk, address, ticket, type_no);
}

/// A whole scan: turns that end in every way by turns, other jobs' tickets opened and closed between them, a desk
/// without a free address in between, openings refused for want of room and tried again, replies that come late. Then
/// it is done, however often it is asked, and another begins.
pub fn whole(script: &mut Script) {
    let mut walk = Walk::new(script);
    let (full, job) = (walk.random().between(3, 150), walk.random().pick(&JOBS));
    let request = walk.request_of(job);
    walk.open_for(&Request { wait: LONGEST_WAIT, ..request });
    new_scan(&mut walk, job);
    dump(&mut walk);
    let (mut ends, mut sorts): (Vec<End>, Vec<usize>) = (Vec::new(), Vec::new());
    while !the_scan(&walk).is_done() {
        if the_scan(&walk).shown.len() == full {
            full_desk(&mut walk);
        }
        let turn = the_scan(&walk).shown.len();
        if [0, TURNS - 1].contains(&turn) || walk.random().one_in(12) {
            short_step(&mut walk);
        }
        let sort = (turn % 3 == 0).then(|| drawn(&mut walk, &mut sorts, (0..MEANWHILE).collect()));
        if sort == Some(BELOW) {
            let request = walk.request();
            walk.open_for(&Request { wait: 1, ..request });
        }
        if turn == WRAPPED {
            walk.clock = u32::MAX - walk.random().below(WAIT as usize - 1) as u32;
        }
        let opened = next_turn(&mut walk);
        if let Some(sort) = sort {
            meanwhile(&mut walk, sort);
        }
        let way = if turn == WRAPPED { End::Expiry } else { drawn(&mut walk, &mut ends, ENDS.to_vec()) };
        let ended = end(&mut walk, way, &opened);
        if let Some((address, ticket)) = ended.filter(|_| walk.random().one_in(3)) {
            late(&mut walk, address, &ticket);
        }
        if turn % 16 == 15 {
            dump(&mut walk);
        }
        let ahead = walk.random().pick(&[0, 1, 3, 20, 150]);
        walk.clock = walk.clock.wrapping_add(ahead);
    }
    finish(&mut walk);
    any_scan(&mut walk);
    dump(&mut walk);
}

/// One of the things that are left in the bag, which is filled with all of them when it is empty.
fn drawn<T: Copy>(walk: &mut Walk, bag: &mut Vec<T>, all: Vec<T>) -> T {
    if bag.is_empty() {
        *bag = all;
        walk.random().shuffle(bag);
    }
    bag.pop().expect("there are some")
}

/// The scan is asked on after its last turn, with room and without.
fn finish(walk: &mut Walk) {
    for room in [12, 0, 7] {
        step_with(walk, room);
    }
    dump(walk);
    walk.dump();
}

/// Between two turns no address is free: all are open, then the first one rests, and once a reply is booked elsewhere
/// the turn comes. Then all rest, and the next one waits for the end of that.
fn full_desk(walk: &mut Walk) {
    let is_resting = |walk: &Walk| walk.desk().closed.keys().any(|address| walk.desk().rests(*address, walk.clock));
    while is_resting(walk) {
        walk.clock = walk.clock.wrapping_add(REST);
    }
    walk.fill();
    for _ in 0..2 {
        step(walk);
    }
    dump(walk);
    let first = walk.desk().turn;
    let job = walk.desk().tickets[&first].job;
    walk.cancel(job, first);
    step(walk);
    close_another(walk, true);
    for _ in 0..2 {
        short_step(walk);
    }
    let opened = step(walk);
    walk.dump();
    end(walk, End::Reply(8), &opened);
    all_rest(walk);
}

/// Everything expires, and the next opening is refused until the rest is over.
fn all_rest(walk: &mut Walk) {
    walk.clock = walk.clock.wrapping_add(LONGEST_WAIT + REST);
    let closing = walk.clock;
    walk.expire_all(closing, usize::from(HOSTS));
    for age in [0, REST - 1] {
        walk.clock = closing.wrapping_add(age);
        step(walk);
    }
    walk.clock = closing.wrapping_add(REST);
}

/// A scan on a desk without a free address: for job 0, which is 10 all the same and for ever, then for a job. All rest,
/// and then the turns all give one result. The desk is made anew at last, and there is no scan.
pub fn of_one_result(script: &mut Script) {
    let mut walk = Walk::full(script);
    new_scan(&mut walk, 0);
    for room in [0, 7, 12] {
        step_with(&mut walk, room);
    }
    dump(&mut walk);
    any_scan(&mut walk);
    step(&mut walk);
    step_with(&mut walk, 0);
    all_rest(&mut walk);
    let ends = walk.random().pick(&[&PRESENT[..], &REFUSING[..], &LOST[..]]);
    while !the_scan(&walk).is_done() {
        let opened = next_turn(&mut walk);
        let way = walk.random().pick(ends);
        end(&mut walk, way, &opened);
        let ahead = walk.random().pick(&[0, 1, 12]);
        walk.clock = walk.clock.wrapping_add(ahead);
    }
    finish(&mut walk);
    walk.add("desk.new");
    dump(&mut walk);
    step_of_none(&mut walk);
}

/// A step where there is no scan.
fn step_of_none(walk: &mut Walk) {
    walk.add(format!("scan.step {} {}", walk.clock, hex(&buffer(12))));
}

/// Scans made anew while a turn's ticket is out, in each way that the old ticket may end, and between turns: the desk
/// still has that ticket, and the new scan begins with module 1 and neither waits for it nor learns from it. Job 0 on
/// an empty desk and on one with tickets. A fresh desk has no scan, whether one was out or between turns.
pub fn anew(script: &mut Script) {
    let mut walk = Walk::new(script);
    new_scan(&mut walk, 0);
    for _ in 0..3 {
        step(&mut walk);
    }
    for (way, job) in ENDS.into_iter().zip(JOBS.into_iter().cycle()) {
        new_scan(&mut walk, job);
        let few = walk.random().below(3);
        for _ in 0..few {
            let opened = next_turn(&mut walk);
            end(&mut walk, End::Reply(8), &opened);
        }
        next_turn(&mut walk);
        let old = out(&walk);
        any_scan(&mut walk);
        dump(&mut walk);
        let opened = if walk.random().one_in(2) { next_turn(&mut walk) } else { String::new() };
        if let Some((address, ticket)) = old.filter(|(address, _)| walk.desk().tickets.contains_key(address)) {
            close(&mut walk, address, &ticket, way);
        }
        dump(&mut walk);
        end(&mut walk, End::Reply(2), &opened);
        dump(&mut walk);
    }
    walk.open();
    new_scan(&mut walk, 0);
    step(&mut walk);
    for way in [None, Some(End::Reply(8))] {
        any_scan(&mut walk);
        let opened = next_turn(&mut walk);
        if let Some(way) = way {
            end(&mut walk, way, &opened);
        }
        walk.add("desk.new");
        dump(&mut walk);
        step_of_none(&mut walk);
    }
}

/// Steps of every sort in any order: the scan's, those beside it and those of the desk.
pub fn mixed(script: &mut Script) {
    let mut walk = Walk::new(script);
    any_scan(&mut walk);
    let mut old = None;
    for step_no in 0..100 {
        walk.tick();
        match walk.random().below(16) {
            0..=5 => {
                step(&mut walk);
            }
            6 => short_step(&mut walk),
            7..=10 => {
                let way = walk.random().pick(&[ENDS[0], ENDS[1], ENDS[2], ENDS[3], ENDS[4], End::Cancel, End::Expiry]);
                old = end(&mut walk, way, "").or(old);
            }
            11 | 12 => {
                let sort = walk.random().below(MEANWHILE);
                meanwhile(&mut walk, sort);
            }
            13 => {
                if let Some((address, ticket)) = &old {
                    late(&mut walk, *address, ticket);
                }
            }
            _ => walk.step(),
        }
        if step_no % 10 == 9 {
            dump(&mut walk);
        }
    }
    walk.dump();
}
