//! Walks over the call that expires everything due: full desks with none, some and all due, rooms around how many that
//! are, what is left at a second call, clocks that wrap or are set back, what rests then, and the box's edge request
//! among those that expire.

use super::desk_walk::Walk;
use super::rest_walk::late_answer;
use super::varia_walk::{
    any_wish, book, dump, edge_ticket, end, farthest, new_box, orderly, other, set, the_box, wish, wish_with, End, ACK,
    EDGES,
};
use super::Script;
use crate::calls::MOST_ENTRIES;
use crate::desk::{Request, Ticket, HOSTS, REST};
use crate::varia::{Edge, Varia, Wish};

/// Rooms that matter whatever is due: none, one, around all host addresses, the most.
const ROOMS: [usize; 6] = [0, 1, 94, 95, 96, MOST_ENTRIES];
/// The waiting times of requests but the longest; the longest.
const WAITS: [u32; 6] = [1, 2, 100, 500, 3000, 59999];
const LONGEST_WAIT: u32 = 60000;
/// Ages at which an address that expired is asked for; the last is that of a clock set back by one.
const AGES: [u32; 7] = [0, 1, REST - 2, REST - 1, REST, REST + 1, u32::MAX];

/// The start of every script: on a desk that was never made nothing is due, whatever clock and room.
pub fn no_desk_yet(script: &mut Script) {
    for (clock, room) in [(0, 0), (0, 1), (1 << 31, 96), (u32::MAX, MOST_ENTRIES)] {
        script.call(format!("desk.expall {clock} {room}"));
    }
}

/// How many tickets are due at the walk's clock.
fn due(walk: &Walk) -> usize {
    walk.desk().tickets.values().filter(|ticket| ticket.is_due(walk.clock)).count()
}

/// Adds the call at the walk's clock.
fn expire_all(walk: &mut Walk, room: usize) {
    walk.expire_all(walk.clock, room);
}

/// A room around how many are due at the walk's clock, one that matters whatever is due, or any.
fn room(walk: &mut Walk) -> usize {
    let due = due(walk);
    match walk.random().below(6) {
        0 => walk.random().pick(&ROOMS),
        1 => walk.random().between(0, MOST_ENTRIES),
        2 => walk.random().between(0, due),
        _ => walk.random().pick(&[due.saturating_sub(1), due, due + 1]),
    }
}

/// What is still due at the walk's clock expires, by calls with any room or one by one; then nothing is left for
/// either.
fn the_rest(walk: &mut Walk) {
    while due(walk) > 0 {
        let room = room(walk);
        match walk.random().one_in(4) {
            true => walk.expire(walk.clock),
            false => expire_all(walk, room),
        }
    }
    let room = walk.random().pick(&ROOMS[1..]);
    expire_all(walk, room);
    walk.expire(walk.clock);
}

/// Moves the clock to a reading that matters to some ticket: around the end of its waiting time, at its opening, just
/// before it, or anywhere. On a desk without a ticket it stays.
fn move_clock(walk: &mut Walk) {
    let any = walk.random().word();
    if let Some((_, Ticket { opened, wait, .. })) = walk.ticket() {
        let readings = [wait, wait, wait, wait - 1, wait + 1, LONGEST_WAIT, 0, u32::MAX, any];
        walk.clock = opened.wrapping_add(walk.random().pick(&readings));
    }
}

/// Four full desks, each with another room. None of the tickets is due when they have just been opened, all of them are
/// once the longest waiting time is over, on one desk over the clock's wrap, and on another where the clock is set back
/// by one. What the room was too short for comes next. Then all 95 addresses rest.
pub fn all_due(script: &mut Script) {
    let mut rooms = [1, 94, 95, 96];
    script.random.shuffle(&mut rooms);
    for (desk, room) in rooms.into_iter().enumerate() {
        let mut walk = Walk::new(script);
        if desk == 0 {
            walk.clock = u32::MAX - walk.random().below(59999) as u32;
        }
        while walk.desk().tickets.len() < usize::from(HOSTS) {
            walk.open();
        }
        let old = walk.ticket();
        for none_due in [0, room] {
            expire_all(&mut walk, none_due);
        }
        let ahead = walk.random().pick(&[0, 0, 1, 5000]);
        walk.clock = walk.clock.wrapping_add(if desk == 1 { u32::MAX } else { LONGEST_WAIT + ahead });
        for all_due in [0, room] {
            expire_all(&mut walk, all_due);
        }
        walk.dump();
        if room == 94 {
            walk.expire(walk.clock);
        }
        the_rest(&mut walk);
        let closing = walk.clock;
        for age in [0, REST - 1, REST] {
            walk.clock = closing.wrapping_add(age);
            walk.open();
        }
        if let Some((address, ticket)) = old {
            late_answer(&mut walk, address, &ticket);
        }
        walk.dump();
    }
}

/// A full desk whose tickets wait for 1 to 60000 ms: as each of these times ends, some are due, and not yet one
/// millisecond before. Each time the call has another of the rooms that matter; then the rest expires. Openings go on
/// beside it, and so do late answers, bookings and cancels.
pub fn some_due(script: &mut Script) {
    let mut walk = Walk::full(script);
    let opened = walk.clock;
    let mut rooms = ROOMS;
    walk.random().shuffle(&mut rooms);
    for (wait, first) in WAITS.into_iter().zip(rooms) {
        let old = walk.ticket();
        walk.clock = opened.wrapping_add(wait - 1);
        the_rest(&mut walk);
        walk.clock = opened.wrapping_add(wait);
        expire_all(&mut walk, first);
        walk.open();
        for _ in 0..2 {
            let room = room(&mut walk);
            expire_all(&mut walk, room);
        }
        if let Some((address, ticket)) = old {
            late_answer(&mut walk, address, &ticket);
        }
        walk.open();
        walk.close_one();
        walk.dump();
    }
    walk.clock = opened.wrapping_add(LONGEST_WAIT);
    the_rest(&mut walk);
    walk.dump();
}

/// On a desk that is full but for what one call let expire: these addresses are asked for at each of the ages that
/// matter, within the rest late answers come, and after it too while they are not given out again.
pub fn resting(script: &mut Script) {
    let mut walk = Walk::full(script);
    let mut ages = AGES;
    walk.random().shuffle(&mut ages);
    for age in ages {
        move_clock(&mut walk);
        if due(&walk) == 0 {
            walk.clock = walk.clock.wrapping_add(2 * LONGEST_WAIT);
        }
        let before = walk.desk().tickets.clone();
        let room = walk.random().between(1, 3);
        expire_all(&mut walk, room);
        let closing = walk.clock;
        let mut expired = before.into_iter().filter(|(address, _)| !walk.desk().tickets.contains_key(address));
        let (address, ticket) = expired.next().expect("something was due");
        late_answer(&mut walk, address, &ticket);
        walk.clock = closing.wrapping_add(age);
        walk.open();
        walk.clock = closing.wrapping_add(REST);
        walk.open_short();
        late_answer(&mut walk, address, &ticket);
        while !walk.desk().closed.is_empty() {
            walk.open();
        }
    }
    walk.dump();
}

/// Opens a ticket that is not the box's, with this waiting time.
fn open_beside(walk: &mut Walk, wait: u32) {
    let request = walk.request();
    walk.open_for(&Request { wait, ..request });
}

/// A box of its own for each case: both edges, known before and unknown. Its edge request is out among others, below it
/// and above it. It stays where it is not due yet, and where the list is full before its turn comes; else its edge
/// becomes unknown. A late ack is too late for it, and the other edge may then be anything.
pub fn boxes(script: &mut Script) {
    let mut walk = Walk::new(script);
    let mut cases: Vec<(Edge, bool)> = EDGES.into_iter().flat_map(|edge| [(edge, true), (edge, false)]).collect();
    walk.random().shuffle(&mut cases);
    for (case, (edge, is_known)) in cases.into_iter().enumerate() {
        new_box(&mut walk);
        if walk.random().one_in(2) {
            set(&mut walk, other(edge), ACK);
        }
        if is_known {
            set(&mut walk, edge, ACK);
        }
        for wait in [1, 500, 100] {
            open_beside(&mut walk, wait);
        }
        let value = orderly(walk.random(), edge);
        wish_with(&mut walk, Wish::Set(edge, value), 500, 20);
        for wait in [500, 3000] {
            open_beside(&mut walk, wait);
        }
        let out = edge_ticket(&walk);
        walk.clock = walk.clock.wrapping_add(499);
        let few = walk.random().between(1, 4);
        expire_all(&mut walk, few);
        dump(&mut walk);
        walk.clock = walk.clock.wrapping_add(1);
        if case % 2 == 0 {
            expire_up_to_the_edge(&mut walk);
        }
        let room = walk.random().pick(&[95, 96, MOST_ENTRIES]);
        expire_all(&mut walk, if case == 0 { 1 } else { room });
        dump(&mut walk);
        if let Some((address, ticket)) = out {
            book(&mut walk, address, &ticket, 3);
        }
        wish(&mut walk, Wish::Set(other(edge), farthest(other(edge))));
        dump(&mut walk);
        let way = walk.random().pick(&[ACK, End::Cancel]);
        end(&mut walk, way);
        the_rest(&mut walk);
        walk.clock = walk.clock.wrapping_add(REST);
        old_request(&mut walk, edge);
    }
    walk.dump();
}

/// A list for those that are due below the edge request, so that it is left, and the box still waits for it.
fn expire_up_to_the_edge(walk: &mut Walk) {
    if let Some((edge, _)) = edge_ticket(walk) {
        let below =
            walk.desk().tickets.iter().filter(|(address, ticket)| **address < edge && ticket.is_due(walk.clock));
        let below = below.count();
        expire_all(walk, below);
        dump(walk);
        wish(walk, Wish::Set(Edge::Short, 7000));
    }
}

/// A box made anew while an edge request is out, which then expires: nothing to the new box.
fn old_request(walk: &mut Walk, edge: Edge) {
    set(walk, other(edge), ACK);
    let value = orderly(walk.random(), edge);
    wish_with(walk, Wish::Set(edge, value), 100, 20);
    let Varia { job, module, .. } = the_box(walk);
    walk.add(format!("varia.new {job} {module}"));
    if walk.random().one_in(2) {
        wish_with(walk, Wish::Set(edge, value), 60000, 20);
    }
    walk.clock = walk.clock.wrapping_add(100);
    let room = room(walk).max(1);
    expire_all(walk, room);
    dump(walk);
    end(walk, End::Cancel);
    the_rest(walk);
    walk.clock = walk.clock.wrapping_add(REST);
}

/// Steps of every sort in any order, the box's too, with calls at clocks and rooms of any sort between them.
pub fn mixed(script: &mut Script) {
    let mut walk = crowd_of(script);
    let mut late = None;
    for step in 0..110 {
        walk.tick();
        match walk.random().below(14) {
            0..=3 => walk.open(),
            4 | 5 if walk.varia().is_some() => {
                let wished = any_wish(&mut walk);
                wish(&mut walk, wished);
            }
            6 => walk.right_reply(),
            7 => walk.close_one(),
            8 => walk.step(),
            9 => {
                if let Some((address, ticket)) = &late {
                    late_answer(&mut walk, *address, ticket);
                }
            }
            sort => {
                if sort > 10 {
                    move_clock(&mut walk);
                }
                late = walk.ticket().or(late);
                let room = room(&mut walk);
                expire_all(&mut walk, room);
            }
        }
        if step % 10 == 9 {
            walk.dump();
            dump(&mut walk);
        }
    }
    the_rest(&mut walk);
    walk.dump();
}

/// A desk of any sort, to try the call on.
pub fn crowd(script: &mut Script) {
    crowd_of(script);
}

/// A walk on a desk of any sort: up to 95 tickets with any waiting times, opened at one clock or at clocks that run on,
/// the box's among them now and then, some closed again in any way.
fn crowd_of(script: &mut Script) -> Walk<'_> {
    let mut walk = Walk::new(script);
    if walk.random().one_in(2) {
        new_box(&mut walk);
    }
    let most = walk.random().pick(&[0, 1, 3, 12, 50, 95, 110]);
    let runs_on = walk.random().one_in(2);
    for _ in 0..most {
        if runs_on {
            walk.tick();
        }
        match walk.random().below(10) {
            0 if walk.varia().is_some() => {
                let wished = any_wish(&mut walk);
                wish(&mut walk, wished);
            }
            1 if most != 95 => walk.close_one(),
            2 => {
                let wait = walk.random().between(1, 60000) as u32;
                open_beside(&mut walk, wait);
            }
            _ => walk.open(),
        }
    }
    walk
}
