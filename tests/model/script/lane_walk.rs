//! Walks over the lanes: lanes filled, given up and taken again, grants that go round them with rooms of all sorts,
//! desks without a free address, withdrawals, data of all lengths, what becomes of granted tickets, and the box beside.

use super::desk_walk::{spoil_request, Walk};
use super::look_walk::rest_before_a_free_one;
use super::rest_walk::{book, late_answer};
use super::varia_walk::{self, any_wish, end, new_box, orderly, the_box, wish, wish_with, ACK, EDGES};
use super::{buffer, Script};
use crate::calls::hex;
use crate::desk::{Request, Ticket, HOSTS, REST};
use crate::faults::data;
use crate::lanes::{LANES, MOST_WAITING};
use crate::telegram::{No, LONGEST_TELEGRAM, MOST_DATA};
use crate::varia::Wish;

/// Rooms that are enough for a grant, and such as are not.
const ROOMS: [usize; 4] = [LONGEST_TELEGRAM, LONGEST_TELEGRAM, LONGEST_TELEGRAM + 1, 500];
const SHORT_ROOMS: [usize; 5] = [0, 1, 40, LONGEST_TELEGRAM - 2, LONGEST_TELEGRAM - 1];
/// Places that are in no lane.
const NO_PLACES: [u64; 7] = [0, 5, 6, 256, 4294967296, 4294967297, u64::MAX];
/// Lengths of data, from none to the most.
const LENGTHS: [usize; 10] = [0, 1, 2, 17, 120, 238, 239, MOST_DATA, MOST_DATA, MOST_DATA];
/// The longest waiting time.
pub const LONGEST_WAIT: u32 = 60000;
/// How many steps a run has before all that waits is granted.
const RUN: usize = 250;

/// The start of every script: calls on the lanes before a desk was made are on fresh ones.
pub fn no_desk_yet(script: &mut Script) {
    let (short, enough) = (hex(&buffer(LONGEST_TELEGRAM - 1)), hex(&buffer(LONGEST_TELEGRAM)));
    script.call("lane.dump");
    script.call("lane.withdraw 7 1");
    for buf in ["-", &short, &enough] {
        script.call(format!("lane.grant 0 {buf}"));
    }
    for line in ["lane.join 7 15 4 102 - 1000 3", "lane.join 8 15 5 48 3412 1000 3", "lane.dump", "lane.withdraw 7 1"] {
        script.call(line);
    }
    for _ in 0..2 {
        script.call(format!("lane.grant 300 {enough}"));
    }
    script.call("lane.dump");
}

/// So many different jobs, at least five of them, in any order; some are the same in fewer bits.
fn jobs(walk: &mut Walk, count: u32) -> Vec<u32> {
    let mut jobs: Vec<u32> = (1..=count - 4).chain([257, 65537, 1 << 31, u32::MAX]).collect();
    walk.random().shuffle(&mut jobs);
    jobs
}

/// How many requests wait.
fn waiting(walk: &Walk) -> usize {
    walk.lanes().lanes.iter().map(Vec::len).sum()
}

/// A job that has something waiting, and how much.
fn waiting_job(walk: &mut Walk) -> Option<(u32, usize)> {
    let held: Vec<(u32, usize)> =
        walk.lanes().lanes.iter().filter_map(|lane| Some((lane.first()?.job, lane.len()))).collect();
    (!held.is_empty()).then(|| walk.random().pick(&held))
}

/// Adds the lanes' state to the script.
pub fn dump(walk: &mut Walk) {
    walk.add("lane.dump");
}

/// Adds a joining of this request.
pub fn join_with(walk: &mut Walk, request: &Request) {
    let Request { job, module, type_no, register, data, wait, folder, .. } = request;
    walk.add(format!("lane.join {job} {module} {type_no} {register} {} {wait} {folder}", hex(data)));
}

/// A right request of this job joins, or is refused for want of a lane or of room in it.
fn join(walk: &mut Walk, job: u32) {
    let request = walk.request_of(job);
    join_with(walk, &request);
}

/// Requests of this job join until its lane is full.
fn fill_lane(walk: &mut Walk, job: u32) {
    let is_own = |lane: &&Vec<Request>| lane.first().map_or(false, |request| request.job == job);
    let held = walk.lanes().lanes.iter().find(is_own).map_or(0, Vec::len);
    for _ in held..MOST_WAITING {
        join(walk, job);
    }
}

/// A request of this job that is refused with this row when it joins, with later ones by chance.
fn refused_join(walk: &mut Walk, job: u32, row: No) {
    let mut request = walk.request_of(job);
    let random = walk.random();
    for no in (row..=14).filter(|no| *no == row || random.one_in(3)).collect::<Vec<No>>() {
        spoil_request(random, &mut request, no);
    }
    join_with(walk, &request);
}

/// The same by each of the rows 10 to 14.
fn refusals(walk: &mut Walk, job: u32) {
    for row in 10..=14 {
        refused_join(walk, job, row);
    }
}

/// Adds a grant with a buffer of that length, and hands its answer over.
fn grant_with(walk: &mut Walk, room: usize) -> String {
    walk.add(format!("lane.grant {} {}", walk.clock, hex(&buffer(room))))
}

/// A grant with enough room.
pub fn grant(walk: &mut Walk) -> String {
    let room = walk.random().pick(&ROOMS);
    grant_with(walk, room)
}

/// Adds a withdrawal.
pub fn withdraw(walk: &mut Walk, job: u32, place: u64) {
    walk.add(format!("lane.withdraw {job} {place}"));
}

/// Withdraws a request that waits, if any.
pub fn right_withdrawal(walk: &mut Walk) {
    if let Some((job, waiting)) = waiting_job(walk) {
        let place = walk.random().between(1, waiting) as u64;
        withdraw(walk, job, place);
    }
}

/// A withdrawal from a place that is in no lane or past the job's last request, or of a job that has none.
fn wrong_withdrawal(walk: &mut Walk) {
    let place = walk.random().pick(&NO_PLACES);
    match waiting_job(walk) {
        Some((job, _)) if walk.random().one_in(2) => withdraw(walk, job, place),
        Some((job, waiting)) if walk.random().one_in(2) => withdraw(walk, job, waiting as u64 + 1),
        Some((job, _)) => withdraw(walk, job ^ (1 << 16), 1),
        None => withdraw(walk, 0, place),
    }
}

/// 16 jobs take a lane each, and a 17th finds none; a fifth request finds its lane full; each of 10 to 14 goes ahead of
/// both. A job that has given its lane up to the 17th finds none either. Then grants go round and more.
pub fn full_lanes(script: &mut Script) {
    let mut walk = Walk::new(script);
    let jobs = jobs(&mut walk, LANES as u32 + 1);
    let (full, leaver, last) = (jobs[3], jobs[7], jobs[LANES]);
    dump(&mut walk);
    refusals(&mut walk, full);
    for job in &jobs {
        join(&mut walk, *job);
    }
    refusals(&mut walk, last);
    fill_lane(&mut walk, full);
    join(&mut walk, full);
    refusals(&mut walk, full);
    let mut order = jobs[..LANES].to_vec();
    walk.random().shuffle(&mut order);
    for job in order {
        fill_lane(&mut walk, job);
    }
    dump(&mut walk);
    join(&mut walk, last);
    join(&mut walk, full);
    for _ in 0..MOST_WAITING {
        withdraw(&mut walk, leaver, 1);
    }
    dump(&mut walk);
    refusals(&mut walk, full);
    for job in [full, last, leaver] {
        join(&mut walk, job);
    }
    for _ in 0..LANES {
        grant(&mut walk);
    }
    dump(&mut walk);
    for _ in 0..LANES {
        let job = walk.random().pick(&jobs);
        join(&mut walk, job);
        grant(&mut walk);
    }
    dump(&mut walk);
}

/// A job alone has lane 1 again and again. Then jobs that come back find their lane gone to another, and grants pass
/// over lanes that were given up.
pub fn comebacks(script: &mut Script) {
    let mut walk = Walk::new(script);
    let jobs = jobs(&mut walk, 6);
    for _ in 0..3 {
        join(&mut walk, jobs[0]);
        grant(&mut walk);
        dump(&mut walk);
    }
    for job in &jobs[..3] {
        join(&mut walk, *job);
    }
    withdraw(&mut walk, jobs[2], 1);
    grant(&mut walk);
    for job in [jobs[2], jobs[3], jobs[0], jobs[1]] {
        dump(&mut walk);
        join(&mut walk, job);
        grant(&mut walk);
    }
    while waiting(&walk) > 0 {
        grant(&mut walk);
    }
    grant(&mut walk);
    for job in &jobs {
        join(&mut walk, *job);
        join(&mut walk, *job);
    }
    grant(&mut walk);
    for job in [jobs[1], jobs[2], jobs[1], jobs[2]] {
        withdraw(&mut walk, job, 1);
    }
    while waiting(&walk) > 0 {
        grant(&mut walk);
        dump(&mut walk);
    }
    grant(&mut walk);
}

/// No address is left: grants are answered 15 and change nothing, however often. What waits is opened once a ticket is
/// booked, unless a direct opening is quicker, and once a cancelled one has rested. Then all addresses rest.
pub fn full_desk(script: &mut Script) {
    let mut walk = Walk::full(script);
    let jobs = jobs(&mut walk, 6);
    grant(&mut walk);
    for job in jobs.iter().cycle().take(16) {
        join(&mut walk, *job);
    }
    for _ in 0..2 {
        grant(&mut walk);
        dump(&mut walk);
    }
    for room in SHORT_ROOMS {
        grant_with(&mut walk, room);
    }
    walk.open();
    right_withdrawal(&mut walk);
    walk.dump();
    for is_quicker in [false, true] {
        if let Some((address, _)) = walk.ticket() {
            book(&mut walk, address);
        }
        if is_quicker {
            walk.open();
        }
        grant(&mut walk);
        grant(&mut walk);
    }
    if let Some((address, Ticket { job, .. })) = walk.ticket() {
        walk.cancel(job, address);
    }
    let closing = walk.clock;
    for age in [0, REST - 1, REST] {
        walk.clock = closing.wrapping_add(age);
        grant(&mut walk);
    }
    rest_before_a_free_one(&mut walk, 3, 0);
    for _ in 0..2 {
        grant(&mut walk);
    }
    walk.clock = walk.clock.wrapping_add(REST);
    walk.fill();
    walk.clock = walk.clock.wrapping_add(LONGEST_WAIT);
    walk.expire_all(walk.clock, usize::from(HOSTS));
    let closing = walk.clock;
    for age in [0, REST - 1, REST, REST] {
        walk.clock = closing.wrapping_add(age);
        grant(&mut walk);
    }
    while waiting(&walk) > 0 {
        grant(&mut walk);
    }
    grant(&mut walk);
    walk.dump();
}

/// Rooms one short of 494 and further, with short requests waiting and with nothing.
pub fn rooms(script: &mut Script) {
    let mut walk = Walk::new(script);
    let jobs = jobs(&mut walk, 5);
    for _ in 0..3 {
        for room in SHORT_ROOMS.into_iter().chain(ROOMS) {
            grant_with(&mut walk, room);
        }
        for job in &jobs[..3] {
            let request = Request { type_no: 4, data: Vec::new(), ..walk.request_of(*job) };
            join_with(&mut walk, &request);
        }
        for room in SHORT_ROOMS {
            grant_with(&mut walk, room);
        }
        dump(&mut walk);
    }
}

/// Withdrawals of the first, of the middle, of the last and of the only one, and such as find nothing; the lane is free
/// for others then. At last all that waits is withdrawn.
pub fn withdrawals(script: &mut Script) {
    let mut walk = Walk::new(script);
    let jobs = jobs(&mut walk, 6);
    for job in &jobs[..4] {
        fill_lane(&mut walk, *job);
    }
    for place in NO_PLACES {
        withdraw(&mut walk, jobs[0], place);
    }
    for (job, place) in [(0, 1), (0, 0), (jobs[4], 1), (jobs[5], 0)] {
        withdraw(&mut walk, job, place);
    }
    dump(&mut walk);
    for place in [2, 3, 1, 1, 1] {
        withdraw(&mut walk, jobs[1], place);
        dump(&mut walk);
    }
    for job in [jobs[4], jobs[1]] {
        join(&mut walk, job);
    }
    for step in 0..40 {
        let job = walk.random().pick(&jobs);
        match step % 4 {
            0 => right_withdrawal(&mut walk),
            1 => wrong_withdrawal(&mut walk),
            2 => join(&mut walk, job),
            _ => {
                grant(&mut walk);
            }
        }
    }
    dump(&mut walk);
    join(&mut walk, jobs[0]);
    while waiting(&walk) > 0 {
        right_withdrawal(&mut walk);
    }
    grant(&mut walk);
    dump(&mut walk);
}

/// Requests with data of all lengths, one of bytes that are all substituted, and one byte too many; they are granted as
/// they joined.
pub fn lengths(script: &mut Script) {
    let mut walk = Walk::new(script);
    let jobs = jobs(&mut walk, 5);
    let mut lengths = LENGTHS;
    walk.random().shuffle(&mut lengths);
    for (length, job) in lengths.into_iter().zip(jobs.iter().cycle()) {
        let type_no = walk.random().pick(&[5, 6, 7, 9]);
        let request = Request { type_no, data: data(walk.random(), length), ..walk.request_of(*job) };
        join_with(&mut walk, &request);
    }
    for length in [MOST_DATA, MOST_DATA + 1] {
        let request = Request { module: 94, type_no: 5, register: 94, data: vec![94; length], ..walk.request() };
        join_with(&mut walk, &request);
    }
    dump(&mut walk);
    while waiting(&walk) > 0 {
        grant(&mut walk);
    }
    walk.dump();
}

/// What becomes of a ticket that was granted long after its request joined: its waiting time starts with the grant.
pub fn tickets(script: &mut Script) {
    for way in 0..5 {
        let mut walk = Walk::new(script);
        let job = walk.request().job;
        join(&mut walk, job);
        join(&mut walk, job);
        walk.clock = walk.clock.wrapping_add(LONGEST_WAIT);
        grant(&mut walk);
        walk.dump();
        let (address, ticket) = walk.ticket().expect("the request was granted");
        let end = walk.clock.wrapping_add(ticket.wait);
        match way {
            0 => book(&mut walk, address),
            1 => walk.cancel(job, address),
            2 => walk.expire(walk.clock.wrapping_sub(1)),
            3 => {
                walk.expire(end.wrapping_sub(1));
                walk.expire(end);
            }
            _ => {
                walk.expire_all(end.wrapping_sub(1), 3);
                walk.expire_all(end, 3);
            }
        }
        late_answer(&mut walk, address, &ticket);
        walk.clock = end;
        grant(&mut walk);
        walk.dump();
    }
}

/// The box's edge requests beside the lanes, while requests of its own job and of others wait and are granted; and
/// direct openings for a job that waits.
pub fn boxes(script: &mut Script) {
    let mut walk = Walk::new(script);
    new_box(&mut walk);
    let jobs = jobs(&mut walk, 6);
    let own = the_box(&walk).job;
    for edge in EDGES {
        for job in [own, jobs[0], jobs[1]] {
            join(&mut walk, job);
        }
        let value = orderly(walk.random(), edge);
        wish_with(&mut walk, Wish::Set(edge, value), LONGEST_WAIT, 20);
        for _ in 0..2 {
            grant(&mut walk);
        }
        varia_walk::dump(&mut walk);
        end(&mut walk, ACK);
        join(&mut walk, own);
        let beside = walk.request_of(own);
        walk.open_for(&beside);
        wish(&mut walk, Wish::Status);
        grant(&mut walk);
        walk.close_one();
        varia_walk::dump(&mut walk);
    }
    dump(&mut walk);
    walk.dump();
}

/// Steps of every sort in any order, by turns with more joinings and with more grants; then a fresh desk, which has
/// fresh lanes.
pub fn mixed(script: &mut Script) {
    let mut walk = Walk::new(script);
    if walk.random().one_in(2) {
        new_box(&mut walk);
    }
    let jobs = jobs(&mut walk, 20);
    for step in 0..220 {
        walk.tick();
        let job = walk.random().pick(&jobs);
        match walk.random().below(20) {
            0..=4 => join(&mut walk, job),
            5..=8 if step / 50 % 2 == 0 => join(&mut walk, job),
            5..=9 => drop(grant(&mut walk)),
            10 => {
                let row = walk.random().between(10, 14) as No;
                refused_join(&mut walk, job, row);
            }
            11 => right_withdrawal(&mut walk),
            12 => wrong_withdrawal(&mut walk),
            13 => {
                let room = walk.random().pick(&SHORT_ROOMS);
                grant_with(&mut walk, room);
            }
            14 | 15 => walk.close_one(),
            16 => walk.step(),
            17 if walk.varia().is_some() => {
                let wished = any_wish(&mut walk);
                wish(&mut walk, wished);
            }
            18 => {
                let beside = walk.request_of(job);
                walk.open_for(&beside);
            }
            _ => walk.open(),
        }
        if step % 12 == 11 {
            dump(&mut walk);
        }
    }
    walk.dump();
    join(&mut walk, jobs[0]);
    walk.add("desk.new");
    dump(&mut walk);
    grant(&mut walk);
    withdraw(&mut walk, jobs[0], 1);
}

/// What a step of a run does.
#[derive(Clone, Copy)]
enum Step {
    Join,
    Grant,
    Withdraw,
    Open,
    Close,
    ExpireAll,
}

/// A run to hold the promise of a fair turn against: joinings, withdrawals, grants, direct openings and closings, of
/// each as many as the seed wills, by few jobs or by more than there are lanes, one of them in a hurry now and then,
/// on folders that others hold now and then, and on a desk that is full now and then. Each request has data of its own.
/// At last all that still waits is granted.
pub fn run(script: &mut Script) {
    let mut walk = Walk::new(script);
    let count = walk.random().pick(&[5, 8, 16, 17, 24]);
    let jobs = jobs(&mut walk, count);
    let crowd = walk.random().pick(&[0, 0, 40, 90, 95]);
    for _ in 0..crowd {
        walk.open();
    }
    let sorts = [Step::Join, Step::Grant, Step::Withdraw, Step::Open, Step::Close, Step::ExpireAll];
    let least = [2, 2, 0, 0, 1, 0];
    let weights = least.map(|least| walk.random().between(least, 2 * least + 2));
    let steps: Vec<Step> = sorts.iter().zip(weights).flat_map(|(sort, weight)| vec![*sort; weight]).collect();
    let hurry = walk.random().pick(&[1, 2, 8]);
    for serial in 0..RUN as u16 {
        walk.tick();
        match walk.random().pick(&steps) {
            Step::Join => {
                let any = walk.random().pick(&jobs);
                let job = if walk.random().one_in(hurry) { any } else { jobs[0] };
                let data = serial.to_be_bytes().to_vec();
                let folder = walk.any_folder();
                let request = Request { type_no: 5, data, folder, ..walk.request_of(job) };
                join_with(&mut walk, &request);
            }
            Step::Grant => drop(grant(&mut walk)),
            Step::Withdraw => right_withdrawal(&mut walk),
            Step::Open => walk.open_on_any_folder(),
            Step::Close => walk.close_one(),
            Step::ExpireAll => walk.expire_all(walk.clock, usize::from(HOSTS)),
        }
    }
    while waiting(&walk) > 0 {
        if grant(&mut walk).starts_with("no 15 ") {
            walk.clock = walk.clock.wrapping_add(LONGEST_WAIT);
            walk.expire_all(walk.clock, usize::from(HOSTS));
            walk.clock = walk.clock.wrapping_add(REST);
        }
    }
}
