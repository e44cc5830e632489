//! Walks over addresses that rest: both sides of 1000 ms, clocks that wrap within a rest, go round or are set
//! back, desks with nothing but rests left, and answers that come late.

use super::desk_walk::{other_address, Walk};
use super::{enough, Script};
use crate::desk::{Request, Ticket, REST};

/// A way to close a ticket so that its address rests.
#[derive(Clone, Copy)]
enum Closing {
    Cancel,
    Expiry,
}

const WAYS: [Closing; 2] = [Closing::Cancel, Closing::Expiry];
/// Ages around the end of a rest.
const EDGES: [u32; 4] = [REST - 2, REST - 1, REST, REST + 1];
/// Ages that a closing may have at an opening; the last four are those of clocks set back, by one or further.
const AGES: [u32; 12] =
    [0, 1, REST - 2, REST - 1, REST, REST + 1, 1256, 1 << 31, u32::MAX - 999, u32::MAX - 998, u32::MAX - 1, u32::MAX];
/// Clock readings around the wrap, a rest before and after it, and halfway round.
const CLOCKS: [u32; 14] = [
    0,
    1,
    REST - 2,
    REST - 1,
    REST,
    REST + 1,
    1 << 31,
    u32::MAX - REST - 1,
    u32::MAX - REST,
    u32::MAX - REST + 1,
    u32::MAX - REST + 2,
    u32::MAX - 1,
    u32::MAX,
    60000,
];

/// On a desk that is full but for one address: that one is asked for at each of those ages, after each way to
/// close it.
pub fn edges(script: &mut Script) {
    let mut walk = Walk::full(script);
    let mut asked: Vec<(Closing, u32)> = WAYS.iter().flat_map(|way| AGES.map(|age| (*way, age))).collect();
    walk.random().shuffle(&mut asked);
    for (way, age) in asked {
        walk.clock = closing_clock(&mut walk);
        close(&mut walk, way);
        let closing = walk.clock;
        walk.clock = closing.wrapping_add(age);
        walk.open();
        if !walk.desk().closed.is_empty() {
            walk.clock = closing.wrapping_add(REST);
            walk.open();
        }
    }
    walk.dump();
}

/// Some addresses open, some resting since one clock or another, some free again or booked: openings near the
/// ends of the rests pass over those that still rest.
pub fn open_and_resting(script: &mut Script) {
    let mut walk = Walk::full(script);
    walk.clock = closing_clock(&mut walk);
    for _ in 0..walk.random().between(3, 60) {
        let ahead = walk.random().pick(&[0, 1, 7, 40]);
        walk.clock = walk.clock.wrapping_add(ahead);
        close_either_way(&mut walk);
    }
    walk.dump();
    for step in 0..60 {
        match walk.random().below(10) {
            0..=4 => open_near_an_end(&mut walk),
            5 => walk.any_refused_open(),
            6 => walk.right_reply(),
            7 => walk.wrong_cancel(),
            _ => {
                walk.tick();
                close_either_way(&mut walk);
            }
        }
        if step % 10 == 9 {
            walk.dump();
        }
    }
}

/// All 95 tickets are closed within one rest: no address is left to give until the first rest is over, and there is
/// again one where the clock is set back before the last closing.
pub fn all_resting(script: &mut Script) {
    let mut walk = Walk::full(script);
    walk.clock = closing_clock(&mut walk);
    let first = walk.clock;
    while !walk.desk().tickets.is_empty() {
        close_either_way(&mut walk);
        let ahead = walk.random().below(10) as u32;
        walk.clock = walk.clock.wrapping_add(ahead);
    }
    walk.dump();
    walk.any_refused_open();
    for age in EDGES {
        walk.clock = first.wrapping_add(age);
        walk.open();
    }
    for _ in 0..12 {
        open_near_an_end(&mut walk);
    }
    walk.clock = first.wrapping_sub(1);
    walk.open();
    walk.dump();
}

/// Answers that come after their ticket was closed: within the rest, after it while the address is not given out yet,
/// once it is given out again, and once that ticket is booked; then it is given out once more at the same clock.
pub fn late_answers(script: &mut Script) {
    let mut walk = Walk::full(script);
    for way in WAYS.iter().cycle().take(8) {
        walk.clock = closing_clock(&mut walk);
        let (address, old) = match close(&mut walk, *way) {
            Some(closed) => closed,
            None => continue,
        };
        let closing = walk.clock;
        for age in [REST - 1, REST] {
            walk.clock = closing.wrapping_add(age);
            walk.open_short();
            late_answer(&mut walk, address, &old);
        }
        open_again(&mut walk, &old);
        late_answer(&mut walk, address, &old);
        book(&mut walk, address);
        late_answer(&mut walk, address, &old);
        walk.open();
    }
    walk.dump();
}

/// Openings and closings at clock readings from anywhere, on a desk where few addresses are free.
pub fn any_clocks(script: &mut Script) {
    let mut walk = Walk::full(script);
    for step in 0..80 {
        walk.clock = walk.random().pick(&CLOCKS);
        if walk.random().one_in(4) {
            walk.clock = walk.random().word();
        }
        match walk.random().below(8) {
            0..=3 => walk.open(),
            4 => walk.any_refused_open(),
            _ => {
                close_either_way(&mut walk);
            }
        }
        if step % 10 == 9 {
            walk.dump();
        }
    }
}

/// A clock to close at: so that the rest lies over the wrap in half of the cases, else from anywhere.
fn closing_clock(walk: &mut Walk) -> u32 {
    match walk.random().one_in(2) {
        true => u32::MAX - walk.random().below(REST as usize - 1) as u32,
        false => walk.random().word(),
    }
}

/// Closes a ticket in this way at the walk's clock, and tells its address and what it was. Where nothing is due
/// then, the clock moves on to where something is.
fn close(walk: &mut Walk, way: Closing) -> Option<(u8, Ticket)> {
    let (address, ticket) = walk.ticket()?;
    let before = walk.desk().tickets.clone();
    match way {
        Closing::Cancel => walk.cancel(ticket.job, address),
        Closing::Expiry => {
            if !before.values().any(|ticket| ticket.is_due(walk.clock)) {
                walk.clock = ticket.opened.wrapping_add(ticket.wait);
            }
            walk.expire(walk.clock);
        }
    }
    before.into_iter().find(|(address, _)| !walk.desk().tickets.contains_key(address))
}

/// Cancels a ticket, or lets one expire if any is due at the walk's clock.
fn close_either_way(walk: &mut Walk) {
    let is_due = walk.desk().tickets.values().any(|ticket| ticket.is_due(walk.clock));
    let way = walk.random().pick(&WAYS);
    close(walk, if is_due { way } else { Closing::Cancel });
}

/// An opening with the clock around the end of some address' rest, or one before its closing.
fn open_near_an_end(walk: &mut Walk) {
    let closings: Vec<u32> = walk.desk().closed.values().copied().collect();
    if !closings.is_empty() {
        let age = if walk.random().one_in(8) { u32::MAX } else { walk.random().pick(&EDGES) };
        walk.clock = walk.random().pick(&closings).wrapping_add(age);
    }
    walk.open();
}

/// An opening like that of an old ticket, but for another job, or any other opening.
fn open_again(walk: &mut Walk, old: &Ticket) {
    let request = walk.request();
    let data = if old.type_no == 4 { Vec::new() } else { vec![7] };
    match walk.random().one_in(2) {
        true => walk.open_for(&request),
        false => walk.open_for(&Request {
            module: old.module,
            type_no: old.type_no,
            register: old.register,
            data,
            ..request
        }),
    }
}

/// The answer to an old ticket, right or altered in one way or more, now and then one that can't be read.
pub fn late_answer(walk: &mut Walk, address: u8, old: &Ticket) {
    let mut reply = walk.fitting_reply(address, old);
    if walk.random().one_in(6) {
        return walk.unread(reply);
    }
    let random = walk.random();
    if random.one_in(4) {
        reply.source = other_address(random, reply.source);
    }
    if random.one_in(4) {
        reply.type_no = random.pick(&[3, 8, 4, 5, 6, 7, 9]);
    }
    if random.one_in(4) {
        reply.register ^= 1;
    }
    let room = enough(random, reply.data.len());
    walk.reply_with(&reply.telegram(), room);
}

/// Books a fitting reply on the ticket of this address, if it has one.
pub fn book(walk: &mut Walk, address: u8) {
    if let Some(ticket) = walk.desk().tickets.get(&address).cloned() {
        let reply = walk.fitting_reply(address, &ticket);
        let room = enough(walk.random(), reply.data.len());
        walk.reply_with(&reply.telegram(), room);
    }
}
