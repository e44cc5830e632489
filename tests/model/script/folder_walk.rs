//! Walks over folders that more than one job wants: held and given up in every way, wanted directly and by grants, on
//! full desks and resting ones, by requests that wait, and numbers that are the same in fewer bits.

use super::desk_walk::Walk;
use super::lane_walk::{self, grant, join_with, right_withdrawal, withdraw, LONGEST_WAIT};
use super::rest_walk::book;
use super::varia_walk::{any_wish, new_box, wish};
use super::Script;
use crate::desk::{Request, HOSTS, REST};

/// Jobs that want the same folders; some of them are the same in fewer bits.
const JOBS: [u32; 6] = [1, 2, 3, 257, 65537, u32::MAX];
/// Folders that the walks hold, and one that nobody has.
const HELD: [u32; 4] = [1, 2, 3, u32::MAX];
const FREE: u32 = 500;

/// A way to close a ticket.
#[derive(Clone, Copy)]
enum Way {
    Book,
    Cancel,
    Expire,
    ExpireAll,
}

const WAYS: [Way; 4] = [Way::Book, Way::Cancel, Way::Expire, Way::ExpireAll];

/// Those jobs in any order.
fn jobs(walk: &mut Walk) -> [u32; 6] {
    let mut jobs = JOBS;
    walk.random().shuffle(&mut jobs);
    jobs
}

/// Opens a ticket of this job on this folder, with this waiting time, if no other job holds it.
fn open(walk: &mut Walk, job: u32, folder: u32, wait: u32) {
    let request = Request { folder, wait, ..walk.request_of(job) };
    walk.open_for(&request);
}

/// A request of this job on this folder joins.
fn join(walk: &mut Walk, job: u32, folder: u32) {
    let request = Request { folder, ..walk.request_of(job) };
    join_with(walk, &request);
}

/// Asks for a ticket of this job on this folder, by a grant or directly. Nothing else may wait.
fn ask(walk: &mut Walk, job: u32, folder: u32, is_grant: bool) {
    if is_grant {
        join(walk, job, folder);
        grant(walk);
    } else {
        open(walk, job, folder, LONGEST_WAIT);
    }
}

/// Closes the ticket on this address, if there is one, in this way; where it expires, no lower one may be due.
fn close(walk: &mut Walk, address: u8, way: Way) {
    let ticket = match walk.desk().tickets.get(&address) {
        Some(ticket) => ticket.clone(),
        None => return,
    };
    let due = ticket.opened.wrapping_add(ticket.wait);
    match way {
        Way::Book => book(walk, address),
        Way::Cancel => walk.cancel(ticket.job, address),
        Way::Expire => {
            walk.clock = due;
            walk.expire(due);
        }
        Way::ExpireAll => {
            walk.clock = due;
            walk.expire_all(due, 1);
        }
    }
}

/// The night of the accident: a job has two tickets on a folder, and another wants it too, directly or by grants. It is
/// refused until the last of the two is closed, each of them in this way, and then has the folder at once, though the
/// address may rest; now the first job is refused. What waited for the folder meanwhile is granted too.
fn accident_of(script: &mut Script, way: Way, folder: u32, is_grant: bool) {
    let mut walk = Walk::new(script);
    let [one, other, third, ..] = jobs(&mut walk);
    let first = walk.desk().turn;
    open(&mut walk, third, 0, LONGEST_WAIT);
    for wait in [500, 3000] {
        open(&mut walk, one, folder, wait);
    }
    ask(&mut walk, other, folder, is_grant);
    ask(&mut walk, other, 0, is_grant);
    close(&mut walk, first + 1, way);
    ask(&mut walk, other, folder, is_grant);
    if is_grant {
        join(&mut walk, other, folder);
    }
    close(&mut walk, first + 2, way);
    match is_grant {
        true => drop(grant(&mut walk)),
        false => open(&mut walk, other, folder, LONGEST_WAIT),
    }
    ask(&mut walk, one, folder, is_grant);
    walk.dump();
}

/// That night for each way to close a ticket, on a small folder and on the largest.
pub fn accident(script: &mut Script) {
    for way in WAYS {
        for is_grant in [false, true] {
            let small = script.random.pick(&HELD[..3]);
            accident_of(script, way, small, is_grant);
            accident_of(script, way, u32::MAX, is_grant);
        }
    }
}

/// Folders and jobs that are the same in 16 bits are not the same, directly and by grants; then a desk made anew, where
/// nobody holds anything.
pub fn alike(script: &mut Script) {
    for is_grant in [false, true] {
        let mut walk = Walk::new(script);
        open(&mut walk, 1, 1, LONGEST_WAIT);
        open(&mut walk, 3, 65536, LONGEST_WAIT);
        for (job, folder) in [(2, 65537), (2, 257), (2, 65536), (65537, 1), (257, 1), (2, 0), (2, 1), (1, 131073)] {
            ask(&mut walk, job, folder, is_grant);
        }
        walk.dump();
        walk.add("desk.new");
        ask(&mut walk, 2, 1, is_grant);
        ask(&mut walk, 2, 65536, is_grant);
    }
}

/// A job holds a folder that the requests of others wait for: each grant takes one out and goes on, in a full lane, to
/// the next lane, round past the last and over an empty one; requests on other folders are opened between them. Then
/// requests of several jobs wait for a folder that nobody holds: the first to be opened has it, by a grant or beside
/// the lanes.
pub fn taken_out(script: &mut Script) {
    let mut walk = Walk::new(script);
    let [one, other, third, fourth, fifth, sixth] = jobs(&mut walk);
    let folder = walk.random().pick(&HELD);
    open(&mut walk, one, folder, LONGEST_WAIT);
    for _ in 0..4 {
        join(&mut walk, other, folder);
    }
    for _ in 0..4 {
        grant(&mut walk);
    }
    for (job, folder) in [(other, folder), (third, folder), (fourth, 0), (third, 0), (one, folder)] {
        join(&mut walk, job, folder);
    }
    for _ in 0..5 {
        lane_walk::dump(&mut walk);
        grant(&mut walk);
    }
    for job in [other, third, fourth, fifth] {
        join(&mut walk, job, folder);
    }
    withdraw(&mut walk, fourth, 1);
    for _ in 0..4 {
        grant(&mut walk);
    }
    lane_walk::dump(&mut walk);
    for job in [third, other, fifth] {
        join(&mut walk, job, FREE);
    }
    for _ in 0..2 {
        grant(&mut walk);
    }
    open(&mut walk, sixth, FREE, LONGEST_WAIT);
    join(&mut walk, other, FREE + 1);
    open(&mut walk, sixth, FREE + 1, LONGEST_WAIT);
    for _ in 0..3 {
        grant(&mut walk);
    }
    walk.dump();
}

/// A desk without a free address: a held folder is told 75 all the same, and a grant takes the request out; any other
/// is told 15. A folder that is opened on beside the lanes after a 15 is held at the next grant. Then all addresses
/// rest and hold no folder, until the first that waits has it.
pub fn full_desk(script: &mut Script) {
    let mut walk = Walk::new(script);
    let [one, other, third, ..] = jobs(&mut walk);
    let held = walk.random().pick(&HELD);
    open(&mut walk, one, held, LONGEST_WAIT);
    walk.fill();
    for (job, folder) in [(other, held), (one, held), (other, 0), (other, FREE)] {
        open(&mut walk, job, folder, LONGEST_WAIT);
    }
    for (job, folder) in [(other, held), (third, held), (one, held), (other, 0), (third, FREE)] {
        join(&mut walk, job, folder);
    }
    for _ in 0..4 {
        grant(&mut walk);
    }
    lane_walk::dump(&mut walk);
    for job in [one, other] {
        grant(&mut walk);
        withdraw(&mut walk, job, 1);
    }
    grant(&mut walk);
    if let Some((address, _)) = walk.ticket() {
        book(&mut walk, address);
    }
    open(&mut walk, one, FREE, LONGEST_WAIT);
    grant(&mut walk);
    walk.dump();
    walk.clock = walk.clock.wrapping_add(LONGEST_WAIT);
    walk.expire_all(walk.clock, usize::from(HOSTS));
    for job in [other, third] {
        join(&mut walk, job, held);
    }
    open(&mut walk, other, held, LONGEST_WAIT);
    grant(&mut walk);
    walk.clock = walk.clock.wrapping_add(REST);
    for _ in 0..2 {
        grant(&mut walk);
    }
    walk.dump();
}

/// Few jobs and few folders: openings, joinings, grants, withdrawals and closings of every sort in any order, the box's
/// wishes among them.
pub fn mixed(script: &mut Script) {
    let mut walk = Walk::new(script);
    if walk.random().one_in(2) {
        new_box(&mut walk);
    }
    for step in 0..240 {
        walk.tick();
        let (job, folder) = (walk.random().pick(&JOBS), walk.any_folder());
        match walk.random().below(16) {
            0..=3 => {
                let wait = walk.random().pick(&[1, 500, 3000, LONGEST_WAIT]);
                open(&mut walk, job, folder, wait);
            }
            4..=6 => join(&mut walk, job, folder),
            7..=9 => drop(grant(&mut walk)),
            10 | 11 => walk.close_one(),
            12 => {
                let room = walk.random().between(0, 4);
                walk.expire_all(walk.clock, room);
            }
            13 => right_withdrawal(&mut walk),
            14 if walk.varia().is_some() => {
                let wished = any_wish(&mut walk);
                wish(&mut walk, wished);
            }
            _ => walk.any_refused_open(),
        }
        if step % 10 == 9 {
            walk.dump();
            lane_walk::dump(&mut walk);
        }
    }
}
