//! Walks over the filter box: edges in and out of order, every end of an edge request, what goes on while one is out,
//! full desks, refusals of the box and of the desk, boxes made anew, displays, and evenings at the bench.

use super::desk_walk::Walk;
use super::{buffer, enough, room, too_little, Script};
use crate::calls::{hex, unhex};
use crate::desk::{Request, Ticket, REST};
use crate::faults::{data, flip_within_16};
use crate::random::Random;
use crate::telegram::{frame, Message, No};
use crate::varia::{Edge, Varia, Wish, MOST_ATTENUATION};

/// How an edge request ends.
#[derive(Clone, Copy)]
pub enum End {
    /// A reply of this type is booked.
    Reply(u8),
    Cancel,
    Expiry,
}

pub const EDGES: [Edge; 2] = [Edge::Short, Edge::Long];
const ENDS: [End; 6] = [End::Reply(3), End::Reply(0), End::Reply(1), End::Reply(2), End::Cancel, End::Expiry];
pub const ACK: End = End::Reply(3);
/// Edges at the ends of their numbers, with bytes that are substituted, and of ordinary light.
const VALUES: [u16; 18] =
    [0, 1, 2, 10, 13, 94, 255, 256, 257, 2573, 3338, 24158, 4000, 8400, 32767, 32768, 65534, 65535];
/// Attenuations around the most there is.
const ATTENUATIONS: [u16; 8] = [0, 1, 500, 999, MOST_ATTENUATION, 1001, 1002, 65535];
/// How many sorts of things may go on while an edge request is out.
const MEANWHILE: usize = 15;
/// Waiting times that are none.
const NO_WAITS: [u32; 5] = [0, 60001, 60002, 65536, 4294967295];
/// Calls that need a box.
const ON_A_BOX: [&str; 10] = [
    "varia.short 6000 500 0 a1a2a3a4a5a6a7a8a9aaabacadae",
    "varia.long 5000 500 0 a1a2a3a4a5a6a7a8a9aaabacadae",
    "varia.att 1001 500 0 a1a2a3a4a5a6a7a8a9aaabacadae",
    "varia.att 1000 0 0 -",
    "varia.monitor 500 0 a1a2a3a4a5a6a7a8a9aaabacadae",
    "varia.status 500 0 a1a2a3a4a5a6a7a8a9aaabacadae",
    "varia.display 3412 -",
    "varia.display - -",
    "varia.moving 4096",
    "varia.dump",
];
/// Lines that would make a box, were they calls.
const NO_NEW: [&str; 6] =
    ["varia.new", "varia.new 9", "varia.new 9 256", "varia.new 4294967296 16", "varia.new 9 16 0", "varia.new -1 16"];

/// The start of every script: calls on a box that was never made, lines that make none between them.
pub fn no_box_yet(script: &mut Script) {
    for no_new in NO_NEW {
        script.call(no_new);
        for line in ON_A_BOX {
            script.call(line);
        }
    }
}

/// Makes a box for a job that other openings have too, on an address that a VARIA can have, or any.
pub fn new_box(walk: &mut Walk) {
    let random = walk.random();
    let job = if random.one_in(6) { random.word().max(1) } else { random.pick(&[1, 2, 3, 7, 9, 4294967295]) };
    let module = match random.below(3) {
        0 => random.between(1, 160) as u8,
        1 => random.pick(&[1, 10, 13, 94, 159, 160]),
        _ => random.between(16, 31) as u8,
    };
    walk.add(format!("varia.new {job} {module}"));
}

/// The box as the walk has it now.
pub fn the_box(walk: &Walk) -> Varia {
    walk.varia().cloned().expect("a walk makes its box first")
}

/// Adds the box's state to the script.
pub fn dump(walk: &mut Walk) {
    walk.add("varia.dump");
}

/// The edge that this one is checked against.
pub fn other(edge: Edge) -> Edge {
    match edge {
        Edge::Short => Edge::Long,
        Edge::Long => Edge::Short,
    }
}

/// Adds a wish with this waiting time and a buffer of that length, and hands its answer over.
pub fn wish_with(walk: &mut Walk, wish: Wish, wait: u32, room: usize) -> String {
    let words = match wish {
        Wish::Set(edge, value) => format!("{} {value}", edge.name()),
        Wish::Attenuate(value) => format!("att {value}"),
        Wish::Monitor => "monitor".to_string(),
        Wish::Status => "status".to_string(),
    };
    let clock = walk.clock;
    walk.add(format!("varia.{words} {wait} {clock} {}", hex(&buffer(room))))
}

/// The length of the telegram that the desk would write for a wish, whatever the box says.
fn needed(walk: &Walk, wish: Wish) -> usize {
    walk.telegram_length(&the_box(walk).request(wish, 1, walk.clock))
}

/// Adds a wish with a right waiting time and enough room, and hands its answer over.
pub fn wish(walk: &mut Walk, wish: Wish) -> String {
    let wait = walk.random().pick(&[1, 2, 100, 500, 3000, 59999, 60000]);
    let needed = needed(walk, wish);
    let room = enough(walk.random(), needed);
    wish_with(walk, wish, wait, room)
}

/// A value for an edge: at the other one or next to it where that is known, at an end, or any.
fn value(walk: &mut Walk, edge: Edge) -> u16 {
    let varia = the_box(walk);
    let other = if edge == Edge::Short { varia.long } else { varia.short };
    let random = walk.random();
    match (other, random.below(8)) {
        (Some(other), 0..=4) => random.pick(&[other.saturating_sub(1), other, other.saturating_add(1)]),
        (_, 5) => random.pick(&VALUES),
        (_, 6) => random.word() as u16,
        _ => random.between(4000, 8400) as u16,
    }
}

/// A value for an edge that is in order with any such value for the other one.
pub fn orderly(random: &mut Random, edge: Edge) -> u16 {
    match edge {
        Edge::Short => random.pick(&[5000, 5001, 6000, 24158, 65534, 65535]),
        Edge::Long => random.pick(&[0, 1, 2573, 3338, 4998, 4999]),
    }
}

/// An attenuation around the most there is, or any.
fn attenuation(random: &mut Random) -> u16 {
    match random.one_in(4) {
        true => random.word() as u16,
        false => random.pick(&ATTENUATIONS),
    }
}

/// A wish of any sort, mostly for an edge.
pub fn any_wish(walk: &mut Walk) -> Wish {
    match walk.random().below(10) {
        0..=3 => Wish::Set(Edge::Short, value(walk, Edge::Short)),
        4..=6 => Wish::Set(Edge::Long, value(walk, Edge::Long)),
        7 => Wish::Attenuate(attenuation(walk.random())),
        8 => Wish::Monitor,
        _ => Wish::Status,
    }
}

/// A wish of each sort; the box itself refuses none of them where no edge request is out and its edges are orderly.
pub fn each_wish(walk: &mut Walk) -> [Wish; 5] {
    let random = walk.random();
    let (short, long) = (orderly(random, Edge::Short), orderly(random, Edge::Long));
    let attenuation = random.below(usize::from(MOST_ATTENUATION) + 1) as u16;
    let mut wishes = [
        Wish::Set(Edge::Short, short),
        Wish::Set(Edge::Long, long),
        Wish::Attenuate(attenuation),
        Wish::Monitor,
        Wish::Status,
    ];
    random.shuffle(&mut wishes);
    wishes
}

/// The ticket of the edge request that is out, with its address.
pub fn edge_ticket(walk: &Walk) -> Option<(u8, Ticket)> {
    let address = walk.varia()?.out?.address;
    Some((address, walk.desk().tickets.get(&address)?.clone()))
}

/// A ticket that is open, but not the one of the edge request, with its address.
fn other_ticket(walk: &mut Walk) -> Option<(u8, Ticket)> {
    let edge = edge_ticket(walk).map(|(address, _)| address);
    let others: Vec<u8> = walk.desk().tickets.keys().copied().filter(|address| Some(*address) != edge).collect();
    if others.is_empty() {
        return None;
    }
    let address = walk.random().pick(&others);
    Some((address, walk.desk().tickets[&address].clone()))
}

/// Books a reply of this type on a ticket, with the ticket's register or 0.
pub fn book(walk: &mut Walk, address: u8, ticket: &Ticket, type_no: u8) {
    let random = walk.random();
    let register = if type_no != 8 && random.one_in(3) { 0 } else { ticket.register };
    let length = if type_no == 8 || random.one_in(6) { random.pick(&[0, 1, 2, 2, 2, 3]) } else { 0 };
    let reply = Message { dest: address, source: ticket.module, type_no, register, data: data(random, length) };
    let room = enough(random, length);
    walk.reply_with(&reply.telegram(), room);
}

/// Lets the ticket on an address expire, after those that are due with it and have lower addresses.
fn expire(walk: &mut Walk, address: u8, ticket: &Ticket) {
    walk.clock = ticket.opened.wrapping_add(ticket.wait);
    while walk.desk().tickets.contains_key(&address) {
        walk.expire(walk.clock);
    }
}

/// Closes a ticket in this way.
fn close(walk: &mut Walk, address: u8, ticket: &Ticket, way: End) {
    match way {
        End::Reply(type_no) => book(walk, address, ticket, type_no),
        End::Cancel => walk.cancel(ticket.job, address),
        End::Expiry => expire(walk, address, ticket),
    }
}

/// Ends the edge request that is out in this way, if there is one, and tells its address and what it was.
pub fn end(walk: &mut Walk, way: End) -> Option<(u8, Ticket)> {
    let (address, ticket) = edge_ticket(walk)?;
    close(walk, address, &ticket, way);
    Some((address, ticket))
}

/// Sets an edge to an orderly value, and ends that request in this way.
pub fn set(walk: &mut Walk, edge: Edge, way: End) {
    let value = orderly(walk.random(), edge);
    wish(walk, Wish::Set(edge, value));
    end(walk, way);
}

/// A box of its own for each case: both edges, known before and unknown, each end of an edge request; and what comes
/// after the end is too late for the box.
pub fn endings(script: &mut Script) {
    let mut walk = Walk::new(script);
    let pairs = EDGES.into_iter().flat_map(|edge| [(edge, true), (edge, false)]);
    let mut cases: Vec<(Edge, bool, End)> =
        pairs.flat_map(|(edge, is_known)| ENDS.map(|way| (edge, is_known, way))).collect();
    walk.random().shuffle(&mut cases);
    for (edge, is_known, way) in cases {
        walk.tick();
        new_box(&mut walk);
        if walk.random().one_in(2) {
            set(&mut walk, other(edge), ACK);
        }
        if is_known {
            set(&mut walk, edge, ACK);
        }
        let value = orderly(walk.random(), edge);
        wish(&mut walk, Wish::Set(edge, value));
        dump(&mut walk);
        let ended = end(&mut walk, way);
        dump(&mut walk);
        if let Some((address, ticket)) = ended.filter(|_| walk.random().one_in(2)) {
            book(&mut walk, address, &ticket, 3);
            dump(&mut walk);
        }
    }
    walk.dump();
}

/// Edges asked around the other one, which is known: out of order by one and further, equal, in order by one; then
/// the other one becomes unknown, and any value goes.
pub fn order(script: &mut Script) {
    let mut walk = Walk::new(script);
    for edge in EDGES.into_iter().cycle().take(8) {
        walk.tick();
        new_box(&mut walk);
        let known = walk.random().pick(&VALUES);
        wish(&mut walk, Wish::Set(other(edge), known));
        end(&mut walk, ACK);
        let mut around =
            [known.saturating_sub(1), known, known.saturating_add(1), 0, 65535, walk.random().word() as u16];
        walk.random().shuffle(&mut around);
        for asked in around {
            wish(&mut walk, Wish::Set(edge, asked));
            let way = walk.random().pick(&ENDS);
            end(&mut walk, way);
        }
        dump(&mut walk);
        wish(&mut walk, Wish::Set(other(edge), known));
        let way = walk.random().pick(&[End::Cancel, End::Expiry]);
        end(&mut walk, way);
        let any = value(&mut walk, edge);
        for asked in [farthest(edge), any] {
            wish(&mut walk, Wish::Set(edge, asked));
            end(&mut walk, ACK);
        }
        dump(&mut walk);
    }
    walk.dump();
}

/// The value of an edge that no value of the other one is in order with.
pub fn farthest(edge: Edge) -> u16 {
    match edge {
        Edge::Short => 0,
        Edge::Long => 65535,
    }
}

/// An edge request is out for long: both edges are blocked, due or not, and all else goes on and leaves it out.
pub fn blocked(script: &mut Script) {
    let mut walk = Walk::new(script);
    for edge in EDGES.into_iter().cycle().take(6) {
        new_box(&mut walk);
        for known in EDGES {
            if walk.random().one_in(2) {
                set(&mut walk, known, ACK);
            }
        }
        for opened in [Wish::Monitor, Wish::Status, Wish::Attenuate(MOST_ATTENUATION)] {
            wish(&mut walk, opened);
        }
        let value = orderly(walk.random(), edge);
        wish_with(&mut walk, Wish::Set(edge, value), 60000, 20);
        let mut sorts: Vec<usize> = (0..MEANWHILE).chain([0, 0, 1]).collect();
        walk.random().shuffle(&mut sorts);
        for sort in sorts {
            meanwhile(&mut walk, sort);
        }
        dump(&mut walk);
        let way = walk.random().pick(&ENDS);
        end(&mut walk, way);
        dump(&mut walk);
    }
    walk.dump();
}

/// What may go on while an edge request is out: one of so many sorts.
fn meanwhile(walk: &mut Walk, sort: usize) {
    match sort {
        0 => blocked_edge(walk),
        1 => blocked_when_due(walk),
        2 => drop(wish(walk, Wish::Monitor)),
        3 => drop(wish(walk, Wish::Status)),
        4 => {
            let wished = Wish::Attenuate(attenuation(walk.random()));
            wish(walk, wished);
        }
        5 | 6 => open_beside(walk),
        7 => close_another_by(walk, ACK),
        8 => close_another_by(walk, End::Cancel),
        9 => close_another_by(walk, End::Expiry),
        10 => misfit(walk, 18),
        11 => misfit(walk, 19),
        12 => misfit(walk, 20),
        13 => unread(walk),
        _ => not_closed(walk),
    }
}

/// An edge that is blocked, whatever else is wrong with it.
fn blocked_edge(walk: &mut Walk) {
    let edge = walk.random().pick(&EDGES);
    let asked = Wish::Set(edge, value(walk, edge));
    let wait = if walk.random().one_in(4) { walk.random().pick(&NO_WAITS) } else { 500 };
    let needed = needed(walk, asked);
    let room = room(walk.random(), needed);
    wish_with(walk, asked, wait, room);
}

/// An edge that is blocked by a request which is due and has not expired yet.
fn blocked_when_due(walk: &mut Walk) {
    if let Some((_, ticket)) = edge_ticket(walk) {
        let clock = std::mem::replace(&mut walk.clock, ticket.opened.wrapping_add(ticket.wait));
        blocked_edge(walk);
        walk.clock = clock;
    }
}

/// An opening that is not the box's: anyone's, or a write of an edge of the box's own module, for the box's own job or
/// another's.
fn open_beside(walk: &mut Walk) {
    let Varia { job, module, .. } = the_box(walk);
    let mut request = walk.request();
    if !walk.random().one_in(3) {
        let job = walk.random().pick(&[job, job, request.job]);
        let register = walk.random().pick(&[0x33, 0x34]);
        request = Request { module, type_no: 5, register, data: vec![1, 1], ..walk.request_of(job) };
    }
    walk.open_for(&request);
}

/// Closes a ticket that is not the edge request's, in any way.
fn close_another(walk: &mut Walk) {
    let way = walk.random().pick(&[End::Reply(0), ACK, ACK, End::Cancel, End::Expiry]);
    close_another_by(walk, way);
}

/// Closes a ticket that is not the edge request's: by a cancel, by an expiry where that leaves the edge request open, or
/// by a reply of any type that fits.
fn close_another_by(walk: &mut Walk, way: End) {
    let (address, ticket) = match other_ticket(walk) {
        Some(held) => held,
        None => return open_beside(walk),
    };
    let due = ticket.opened.wrapping_add(ticket.wait);
    let leaves_edge = edge_ticket(walk).map_or(true, |(_, edge)| !edge.is_due(due));
    match way {
        End::Cancel => walk.cancel(ticket.job, address),
        End::Expiry if leaves_edge => expire(walk, address, &ticket),
        _ => {
            let own = if ticket.type_no == 4 { 8 } else { 3 };
            let type_no = walk.random().pick(&[own, own, 0, 1, 2]);
            book(walk, address, &ticket, type_no);
        }
    }
}

/// A reply on the edge request's address that misfits its ticket by this row, with later misfits by chance.
fn misfit(walk: &mut Walk, row: No) {
    if let Some((address, ticket)) = edge_ticket(walk) {
        walk.misfit_of(address, &ticket, row);
    }
}

/// A reply on the edge request's address that can't be read, or is altered on the line.
fn unread(walk: &mut Walk) {
    if let Some((address, ticket)) = edge_ticket(walk) {
        let reply = walk.fitting_reply(address, &ticket);
        if walk.random().one_in(2) {
            return walk.unread(reply);
        }
        let mut bytes = reply.bytes();
        flip_within_16(walk.random(), &mut bytes);
        walk.reply_with(&frame(&bytes), bytes.len());
    }
}

/// A cancel for another job or for none, or an expiry one millisecond before the edge request is due.
fn not_closed(walk: &mut Walk) {
    if let Some((address, ticket)) = edge_ticket(walk) {
        match walk.random().below(3) {
            0 => walk.cancel(ticket.job ^ 1, address),
            1 => walk.cancel(0, address),
            _ => walk.expire(ticket.opened.wrapping_add(ticket.wait).wrapping_sub(1)),
        }
    }
}

/// No address is left: 15 for each wish, behind the box's own numbers. Then the edge request's own address is the only
/// one that isn't open: free after a cancel once it has rested, and at once after a reply. At last it goes to another,
/// and whatever becomes of that ticket, the box keeps its edges.
pub fn full_desk(script: &mut Script) {
    let mut walk = Walk::new(script);
    new_box(&mut walk);
    for edge in EDGES {
        set(&mut walk, edge, ACK);
    }
    let edge = walk.random().pick(&EDGES);
    let value = orderly(walk.random(), edge);
    wish_with(&mut walk, Wish::Set(edge, value), 60000, 20);
    walk.fill();
    for wished in each_wish(&mut walk) {
        wish(&mut walk, wished);
    }
    wish(&mut walk, Wish::Attenuate(1001));
    walk.tick();
    end(&mut walk, End::Cancel);
    let closing = walk.clock;
    for age in [0, REST - 1] {
        walk.clock = closing.wrapping_add(age);
        for wished in each_wish(&mut walk) {
            wish(&mut walk, wished);
        }
        dump(&mut walk);
    }
    walk.clock = closing.wrapping_add(REST);
    for way in [End::Reply(0), ACK] {
        let value = orderly(walk.random(), edge);
        wish(&mut walk, Wish::Set(edge, value));
        dump(&mut walk);
        wish(&mut walk, Wish::Status);
        end(&mut walk, way);
        dump(&mut walk);
    }
    walk.open();
    for _ in 0..3 {
        close_another(&mut walk);
        dump(&mut walk);
        open_beside(&mut walk);
    }
    walk.dump();
}

/// The desk's own refusals of each wish, each alone and with later ones by chance, and the box's own ahead of them.
pub fn refused(script: &mut Script) {
    let mut walk = Walk::new(script);
    for row in [10, 11, 14, 16] {
        for wished in each_wish(&mut walk) {
            walk.tick();
            refused_wish(&mut walk, wished, row);
            dump(&mut walk);
            if walk.random().one_in(3) {
                let over = Wish::Attenuate(walk.random().between(1001, 65535) as u16);
                refused_wish(&mut walk, over, row);
            }
        }
    }
    new_box(&mut walk);
    for asked in ATTENUATIONS {
        wish(&mut walk, Wish::Attenuate(asked));
    }
    set(&mut walk, Edge::Short, ACK);
    set(&mut walk, Edge::Long, ACK);
    for _ in 0..12 {
        let edge = walk.random().pick(&EDGES);
        let asked = Wish::Set(edge, value(&mut walk, edge));
        spoiled_wish(&mut walk, asked);
        dump(&mut walk);
    }
    walk.dump();
}

/// A wish with a waiting time that is none, with too little room, or with both.
fn spoiled_wish(walk: &mut Walk, wished: Wish) {
    let needed = needed(walk, wished);
    let room = too_little(walk.random(), needed);
    match walk.random().below(3) {
        0 => wish_with(walk, wished, 60000, room),
        1 => wish_with(walk, wished, 0, room),
        _ => {
            let wait = walk.random().pick(&NO_WAITS);
            wish_with(walk, wished, wait, needed)
        }
    };
}

/// A wish that the desk refuses with this row, with later ones by chance: a box for job 0 or on no module's address, a
/// waiting time that is none, a room that is too little.
fn refused_wish(walk: &mut Walk, wished: Wish, row: No) {
    new_box(walk);
    let Varia { job, module, .. } = the_box(walk);
    let random = walk.random();
    let has: Vec<bool> = [10, 11, 14, 16].iter().map(|no| *no == row || (*no > row && random.one_in(3))).collect();
    let job = if has[0] { 0 } else { job };
    let module = if has[1] { random.pick(&[0, 161, 162, 255]) } else { module };
    let wait = if has[2] { random.pick(&NO_WAITS) } else { random.pick(&[1, 500, 60000]) };
    walk.add(format!("varia.new {job} {module}"));
    let needed = needed(walk, wished);
    let room = if has[3] { too_little(walk.random(), needed) } else { enough(walk.random(), needed) };
    wish_with(walk, wished, wait, room);
}

/// Boxes made anew while an edge request is out: the desk still has it, and the new box neither waits for it nor
/// learns from it. A fresh desk has no box.
pub fn anew(script: &mut Script) {
    let mut walk = Walk::new(script);
    for way in ENDS.into_iter().chain(ENDS) {
        new_box(&mut walk);
        let edge = walk.random().pick(&EDGES);
        set(&mut walk, other(edge), ACK);
        let value = orderly(walk.random(), edge);
        wish(&mut walk, Wish::Set(edge, value));
        let old = edge_ticket(&walk);
        let Varia { job, module, .. } = the_box(&walk);
        walk.add(format!("varia.new {job} {module}"));
        dump(&mut walk);
        if walk.random().one_in(2) {
            let edge = walk.random().pick(&EDGES);
            let value = orderly(walk.random(), edge);
            wish_with(&mut walk, Wish::Set(edge, value), 60000, 20);
        }
        if let Some((address, ticket)) = old {
            close(&mut walk, address, &ticket, way);
        }
        dump(&mut walk);
        let way = walk.random().pick(&ENDS);
        end(&mut walk, way);
    }
    walk.add("desk.new");
    for line in ON_A_BOX {
        walk.add(line);
    }
}

/// The display with data of all lengths around two, and every single bit of the status.
pub fn displays(script: &mut Script) {
    let mut walk = Walk::new(script);
    new_box(&mut walk);
    let lengths = [0, 1, 2, 3, 4];
    for (fresh, kept) in lengths.into_iter().flat_map(|fresh| lengths.map(|kept| (fresh, kept))) {
        show(&mut walk, fresh, kept);
    }
    for _ in 0..6 {
        let (fresh, kept) = (walk.random().pick(&[2, 5, 240, 300]), walk.random().pick(&[2, 6, 240, 300]));
        show(&mut walk, fresh, kept);
    }
    for bit in 0..16 {
        let (alone, any) = (1u16 << bit, walk.random().word() as u16);
        for status in [alone, !alone, any & !0x7000, any & !0x7000 | alone] {
            walk.add(format!("varia.moving {status}"));
        }
    }
    for status in [0, 65535, 0x7000, 0x8FFF, 4095, 4096] {
        walk.add(format!("varia.moving {status}"));
    }
    dump(&mut walk);
}

/// Adds a display of any data of these lengths.
fn show(walk: &mut Walk, fresh: usize, kept: usize) {
    let (fresh, kept) = (data(walk.random(), fresh), data(walk.random(), kept));
    walk.add(format!("varia.display {} {}", hex(&fresh), hex(&kept)));
}

/// Steps of every sort in any order: the box's, those beside it and those of the desk.
pub fn mixed(script: &mut Script) {
    let mut walk = Walk::new(script);
    new_box(&mut walk);
    let mut late = None;
    for step in 0..200 {
        walk.tick();
        match walk.random().below(25) {
            0..=8 => {
                let wished = any_wish(&mut walk);
                wish(&mut walk, wished);
            }
            9 => {
                let wished = any_wish(&mut walk);
                spoiled_wish(&mut walk, wished);
                dump(&mut walk);
            }
            10..=14 => {
                let way = walk.random().pick(&[ACK, ACK, ACK, ENDS[1], ENDS[2], ENDS[3], End::Cancel, End::Expiry]);
                late = end(&mut walk, way).or(late);
            }
            15 | 16 => close_another(&mut walk),
            17..=19 => {
                let sort = walk.random().below(MEANWHILE);
                meanwhile(&mut walk, sort);
            }
            20 | 21 => walk.step(),
            22 => late_ack(&mut walk, &late),
            23 => walk.right_reply(),
            _ if walk.random().one_in(8) => new_box(&mut walk),
            _ => open_beside(&mut walk),
        }
        if step % 5 == 4 {
            dump(&mut walk);
        }
        if step % 40 == 39 {
            walk.dump();
        }
    }
}

/// The ack of an edge request that has ended, once more or too late.
fn late_ack(walk: &mut Walk, late: &Option<(u8, Ticket)>) {
    if let Some((address, ticket)) = late {
        book(walk, *address, ticket, 3);
    }
}

/// Telegrams that go from the box to a bench VARIA, its replies to the desk, and what was read to the display.
pub fn at_the_bench(script: &mut Script) {
    let mut walk = Walk::new(script);
    new_box(&mut walk);
    walk.add(format!("bench.new {}", the_box(&walk).module));
    for (register, rights) in [(0x13, 1), (0x66, 1), (0x32, 3), (0x33, 3), (0x34, 3)] {
        let rights = if walk.random().one_in(8) { 3 - rights } else { rights };
        walk.add(format!("bench.add {register} 3 {rights}"));
    }
    let mut kept = Vec::new();
    for step in 0..30 {
        walk.tick();
        let (register, number) = (walk.random().pick(&[0x13, 0x66]), walk.random().word() as u16);
        walk.add(format!("bench.set {register} {number}"));
        let wished = any_wish(&mut walk);
        exchange(&mut walk, wished, &mut kept);
        if step % 3 == 2 {
            dump(&mut walk);
        }
    }
    walk.add("bench.dump");
    walk.dump();
}

/// A wish's telegram goes to the bench and its reply to the desk, unless one of them is lost; what was read is shown.
fn exchange(walk: &mut Walk, wished: Wish, kept: &mut Vec<u8>) {
    let asked = handed_over(&wish(walk, wished));
    let lost = walk.random().below(12);
    let replied = asked.filter(|_| lost != 0).and_then(|telegram| {
        let answer = walk.add(format!("bench.tele {} {}", hex(&telegram), hex(&buffer(20))));
        handed_over(&answer)
    });
    let booked = replied.filter(|_| lost != 1).and_then(|reply| {
        let answer = walk.add(format!("desk.reply {} {}", hex(&reply), hex(&buffer(4))));
        handed_over(&answer)
    });
    let fresh = booked.unwrap_or_default();
    if matches!(wished, Wish::Monitor | Wish::Status) {
        walk.add(format!("varia.display {} {}", hex(&fresh), hex(kept)));
    }
    if let [low, high] = fresh[..] {
        walk.add(format!("varia.moving {}", u16::from(low) + 256 * u16::from(high)));
        *kept = fresh;
    }
    if walk.random().one_in(2) {
        end(walk, End::Cancel);
    }
}

/// The bytes that an accepted call handed over: the first n of its buffer.
pub fn handed_over(answer: &str) -> Option<Vec<u8>> {
    let field = |name: &str| answer.split(' ').find_map(|word| word.strip_prefix(name));
    let length: usize = field("n=")?.parse().ok()?;
    Some(unhex(field("buf=")?.as_bytes())?[..length].to_vec())
}
