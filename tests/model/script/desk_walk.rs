//! Walks over the desk: full desks, rounds of the turn, wraps of the clock, and replies right and wrong.

use super::{buffer, enough, room, too_little, Script};
use crate::calls::hex;
use crate::desk::{Desk, Request, Ticket, FIRST_HOST, HOSTS, LAST_HOST};
use crate::faults::{broken, data, flip_within_16, length, spoil, BREAKS};
use crate::lanes::Lanes;
use crate::random::Random;
use crate::scan::Scan;
use crate::telegram::{frame, Message, No, MOST_DATA};
use crate::varia::Varia;

/// Folders that jobs come to want together: few small ones, none, the largest, and such as are 1 or none in fewer bits.
const FOLDERS: [u32; 11] = [0, 1, 1, 1, 2, 2, 3, 257, 65536, 65537, u32::MAX];

/// A walk under way: the script, the clock on the wall, and the last reply that was offered rightly.
pub struct Walk<'a> {
    script: &'a mut Script,
    pub clock: u32,
    last_reply: String,
}

/// The start of every script: calls on the desk before any was made are on a fresh one, replies that nobody asked for
/// among them.
pub fn no_desk_yet(script: &mut Script) {
    let mut walk = Walk { script, clock: 4294967290, last_reply: "desk.dump".to_string() };
    for address in [1, 160, 200] {
        let reply = Message { dest: address, source: 15, type_no: 8, register: 102, data: vec![7] };
        walk.reply_with(&reply.telegram(), 2);
    }
    walk.dump();
    walk.wrong_cancel();
    walk.expire_now();
    for _ in 0..12 {
        walk.open();
        walk.step();
        walk.dump();
    }
}

/// Fills the desk to 95 tickets, is refused the 96th, closes and opens by turns, and lets tickets expire.
pub fn full_desk(script: &mut Script) {
    let mut walk = Walk::full(script);
    walk.dump();
    for _ in 0..8 {
        walk.open();
        walk.any_refused_open();
    }
    for _ in 0..12 {
        walk.close_one();
        walk.dump();
        walk.open();
        walk.open();
    }
    walk.let_expire(60);
}

/// Opens and closes promptly, a few tickets left open for the turn to pass by, for more than a round.
pub fn rounds_of_the_turn(script: &mut Script) {
    let mut walk = Walk::new(script);
    let kept = walk.random().between(0, 4);
    for step in 0..usize::from(HOSTS) + 25 {
        walk.open();
        if walk.desk().tickets.len() > kept {
            walk.close_one();
        }
        if step % 8 == 7 {
            walk.dump();
        }
    }
}

/// Desks of a few tickets, asked what is due at the very edges of their waiting times.
pub fn expiries(script: &mut Script) {
    for _ in 0..8 {
        let mut walk = Walk::new(script);
        for _ in 0..walk.random().between(1, 3) {
            walk.open();
            walk.tick();
        }
        for _ in 0..5 {
            walk.expire_near();
        }
        walk.dump();
    }
}

/// Steps of every sort in any order, on a desk where some tickets are open already.
pub fn mixed(script: &mut Script) {
    let mut walk = Walk::new(script);
    for _ in 0..walk.random().below(60) {
        walk.open();
    }
    for step in 0..320 {
        walk.step();
        if step % 12 == 11 {
            walk.dump();
        }
    }
    walk.let_expire(15);
}

/// Replies whose substitution is broken, in each way there is, to tickets that stay open or where there is none; now
/// and then a right one after them.
pub fn broken_replies(script: &mut Script) {
    let mut walk = Walk::new(script);
    for way in BREAKS.iter().cycle().take(BREAKS.len() * 2) {
        walk.tick();
        walk.open();
        if let Some((address, ticket)) = walk.ticket() {
            let free = walk.address_without_ticket();
            let address = if walk.random().one_in(4) { free } else { address };
            let reply = walk.fitting_reply(address, &ticket);
            for frame in broken(walk.random(), &reply, *way) {
                let room = room(walk.random(), reply.data.len());
                walk.reply_with(&frame, room);
            }
        }
        if walk.random().one_in(3) {
            walk.right_reply();
        }
    }
    walk.dump();
}

impl<'a> Walk<'a> {
    /// A walk on a fresh desk, its clock near the wrap in half of the cases.
    pub fn new(script: &'a mut Script) -> Walk<'a> {
        script.call("desk.new");
        let clock = script.random.pick(&[0, 1, 4294967295, 4294967200, 4294960000, 4294900000]);
        let clock = if script.random.one_in(3) { script.random.word() } else { clock };
        Walk { script, clock, last_reply: "desk.dump".to_string() }
    }

    /// A walk on a desk that was filled to 95 tickets, a refused opening among them now and then.
    pub fn full(script: &'a mut Script) -> Walk<'a> {
        let mut walk = Walk::new(script);
        walk.fill();
        walk
    }

    /// Fills the desk to 95 tickets, a refused opening among them now and then. No address may rest.
    pub fn fill(&mut self) {
        while self.desk().tickets.len() < usize::from(HOSTS) {
            self.open();
            if self.random().one_in(12) {
                self.any_refused_open();
            }
        }
    }

    /// The generator of the script.
    pub fn random(&mut self) -> &mut Random {
        &mut self.script.random
    }

    /// The desk as the script has it now.
    pub fn desk(&self) -> &Desk {
        &self.script.rehearsal.desk
    }

    /// The lanes as the script has them now.
    pub fn lanes(&self) -> &Lanes {
        &self.script.rehearsal.lanes
    }

    /// The box as the script has it now, if there is one.
    pub fn varia(&self) -> Option<&Varia> {
        self.script.rehearsal.varia.as_ref()
    }

    /// The scan as the script has it now, if there is one.
    pub fn scan(&self) -> Option<&Scan> {
        self.script.rehearsal.scan.as_ref()
    }

    /// Adds a line of any sort and hands its answer over.
    pub fn add(&mut self, line: impl AsRef<[u8]>) -> String {
        self.script.answer(line)
    }

    /// Adds the desk's state to the script.
    pub fn dump(&mut self) {
        self.script.call("desk.dump");
    }

    /// Lets the clock run on a little, over its wrap too; now and then it is set back, by one or further.
    pub fn tick(&mut self) {
        let ahead = self.random().pick(&[0, 1, 3, 20, 150, 1000]);
        let back = match self.random().below(60) {
            0 => 5000,
            1 => ahead + 1,
            _ => 0,
        };
        self.clock = self.clock.wrapping_add(ahead).wrapping_sub(back);
    }

    /// A step of any sort.
    pub fn step(&mut self) {
        self.tick();
        match self.random().below(32) {
            0..=6 => self.open(),
            7..=9 => self.open_on_any_folder(),
            10 | 11 => self.any_refused_open(),
            12..=15 => self.right_reply(),
            16..=19 => self.misfit(),
            20..=22 => self.unread_reply(),
            23 => self.crossed_reply(),
            24 => self.repeated_reply(),
            25 => self.altered_reply(),
            26 => self.right_cancel(),
            27 => self.wrong_cancel(),
            28 | 29 => self.expire_near(),
            _ => self.expire_now(),
        }
    }

    /// A folder that other jobs may want, or have.
    pub fn any_folder(&mut self) -> u32 {
        self.random().pick(&FOLDERS)
    }

    /// A folder that another job than this one holds, if there is any.
    fn held_folder(&mut self, job: u32) -> Option<u32> {
        let others = self.desk().tickets.values().filter(|ticket| ticket.folder != 0 && ticket.job != job);
        let folders: Vec<u32> = others.map(|ticket| ticket.folder).collect();
        (!folders.is_empty()).then(|| self.random().pick(&folders))
    }

    /// A request that can be opened.
    pub fn request(&mut self) -> Request {
        let random = self.random();
        let job = if random.one_in(4) { random.word().max(1) } else { random.pick(&[1, 2, 3, 7, 4294967295]) };
        self.request_of(job)
    }

    /// The same of this job. Its folder is none, or has the job's own number, so that no other job's such request
    /// is on it.
    pub fn request_of(&mut self, job: u32) -> Request {
        let clock = self.clock;
        let random = self.random();
        let type_no = random.pick(&[4, 4, 4, 5, 5, 6, 7, 9]);
        let length = match (type_no, random.one_in(6)) {
            (4, _) => 0,
            (_, true) => length(random),
            (_, false) => random.pick(&[0, 1, 2, 4, 8]),
        };
        Request {
            job,
            module: if random.one_in(2) {
                random.between(1, 160) as u8
            } else {
                random.pick(&[1, 10, 13, 15, 94, 160])
            },
            type_no,
            register: if random.one_in(6) { 0 } else { random.byte() },
            data: data(random, length),
            wait: random.pick(&[1, 2, 100, 500, 3000, 59999, 60000]),
            folder: random.pick(&[0, job]),
            clock,
        }
    }

    /// The length of the telegram the desk would write, or of a short one where it would refuse.
    pub fn telegram_length(&self, request: &Request) -> usize {
        self.desk().clone().open(request, usize::MAX).map_or(8, |opened| opened.telegram.len())
    }

    /// Adds an opening with a buffer of that length.
    fn open_with(&mut self, request: &Request, room: usize) {
        let Request { job, module, type_no, register, data, wait, folder, clock } = request;
        let (data, buf) = (hex(data), hex(&buffer(room)));
        self.script.call(format!("desk.open {job} {module} {type_no} {register} {data} {wait} {folder} {clock} {buf}"));
    }

    /// A right opening with enough room; it is refused where each address is open or rests.
    pub fn open(&mut self) {
        let request = self.request();
        self.open_for(&request);
    }

    /// An opening for this request with enough room.
    pub fn open_for(&mut self, request: &Request) {
        let needed = self.telegram_length(request);
        let room = enough(self.random(), needed);
        self.open_with(request, room);
    }

    /// The same on a folder that other jobs may want: 75 where one has it.
    pub fn open_on_any_folder(&mut self) {
        let request = Request { folder: self.any_folder(), ..self.request() };
        self.open_for(&request);
    }

    /// A right opening with too little room: 16, or 15 where each address is open or rests.
    pub fn open_short(&mut self) {
        let request = self.request();
        let needed = self.telegram_length(&request);
        let room = too_little(self.random(), needed);
        self.open_with(&request, room);
    }

    /// An opening that is refused with one of the rows 10 to 14, 75 or 16, with later faults by chance.
    pub fn any_refused_open(&mut self) {
        let row = self.random().pick(&[10, 11, 12, 13, 14, 75, 75, 16, 16]);
        self.refused_open(row);
    }

    /// The same by this row; by 16 for 75 where no other job holds a folder.
    pub fn refused_open(&mut self, row: No) {
        let mut request = self.request();
        let random = self.random();
        for no in (row..=14).filter(|no| *no == row || random.one_in(3)).collect::<Vec<No>>() {
            spoil_request(random, &mut request, no);
        }
        let is_held = row == 75 || (row < 15 && self.random().one_in(3));
        let held = self.held_folder(request.job).filter(|_| is_held);
        request.folder = held.unwrap_or(request.folder);
        let needed = self.telegram_length(&request);
        let is_short = row == 16 || (row == 75 && held.is_none());
        let room = if is_short { too_little(self.random(), needed) } else { room(self.random(), needed) };
        self.open_with(&request, room);
    }

    /// A ticket that is open, with its address.
    pub fn ticket(&mut self) -> Option<(u8, Ticket)> {
        let addresses: Vec<u8> = self.desk().tickets.keys().copied().collect();
        if addresses.is_empty() {
            return None;
        }
        let address = self.random().pick(&addresses);
        Some((address, self.desk().tickets[&address].clone()))
    }

    /// A reply that fits a ticket.
    pub fn fitting_reply(&mut self, address: u8, ticket: &Ticket) -> Message {
        let random = self.random();
        let own = if ticket.type_no == 4 { 8 } else { 3 };
        let type_no = random.pick(&[own, own, 0, 1, 2]);
        let register = if type_no != 8 && random.one_in(3) { 0 } else { ticket.register };
        let length = match random.below(6) {
            0 => length(random),
            _ if type_no == 8 => random.pick(&[1, 2, 4, 8]),
            _ => 0,
        };
        Message { dest: address, source: ticket.module, type_no, register, data: data(random, length) }
    }

    /// Adds a reply with a buffer of that length.
    pub fn reply_with(&mut self, frame: &[u8], room: usize) -> String {
        let line = format!("desk.reply {} {}", hex(frame), hex(&buffer(room)));
        self.script.call(&line);
        line
    }

    /// A reply that fits, with buffers around the very length of its data.
    pub fn right_reply(&mut self) {
        if let Some((address, ticket)) = self.ticket() {
            let reply = self.fitting_reply(address, &ticket);
            let room = room(self.random(), reply.data.len());
            self.last_reply = self.reply_with(&reply.telegram(), room);
        }
    }

    /// The same reply once more: its ticket is closed, or another's by now.
    fn repeated_reply(&mut self) {
        let line = self.last_reply.clone();
        self.script.call(line);
    }

    /// A reply that reads well and misfits by one of the rows 17 to 20, with later misfits by chance.
    fn misfit(&mut self) {
        let (address, ticket) = match self.ticket() {
            Some(held) => held,
            None => return self.open(),
        };
        let row = self.random().pick(&[17, 18, 19, 20, 20]);
        self.misfit_of(address, &ticket, row);
    }

    /// The same by this row, and with this ticket.
    pub fn misfit_of(&mut self, address: u8, ticket: &Ticket, row: No) {
        let mut reply = self.fitting_reply(address, ticket);
        let free = self.address_without_ticket();
        let random = self.random();
        for no in (row..=20).filter(|no| *no == row || random.one_in(3)).collect::<Vec<No>>() {
            spoil_reply(random, &mut reply, ticket, free, no);
        }
        let room = if random.one_in(8) { room(random, reply.data.len()) } else { enough(random, reply.data.len()) };
        self.reply_with(&reply.telegram(), room);
    }

    /// An address no ticket is open on: one whose last ticket was cancelled or expired, a free host's, or a module's.
    fn address_without_ticket(&mut self) -> u8 {
        let closed: Vec<u8> = self.desk().closed.keys().copied().collect();
        if !closed.is_empty() && self.random().one_in(3) {
            return self.random().pick(&closed);
        }
        let free: Vec<u8> =
            (FIRST_HOST..=LAST_HOST).filter(|address| !self.desk().tickets.contains_key(address)).collect();
        match free.is_empty() || self.random().one_in(4) {
            true => self.random().between(1, 160) as u8,
            false => self.random().pick(&free),
        }
    }

    /// A fitting reply spoilt by one of the rows 1 to 9: the ticket stays open.
    fn unread_reply(&mut self) {
        let (address, ticket) = match self.ticket() {
            Some(held) => held,
            None => return self.open(),
        };
        let reply = self.fitting_reply(address, &ticket);
        self.unread(reply);
    }

    /// This reply spoilt by one of the rows 1 to 9.
    pub fn unread(&mut self, mut reply: Message) {
        let row = self.random().between(1, 9) as No;
        let random = self.random();
        if row == 6 && reply.data.is_empty() {
            reply.data = data(random, 3);
        }
        let needed = reply.data.len();
        let room = match row {
            1..=5 => room(random, needed),
            6 => too_little(random, needed),
            _ => enough(random, needed),
        };
        let frame = spoil(random, &reply, row);
        self.reply_with(&frame, room);
    }

    /// A reply made for one ticket, sent to the address of another.
    fn crossed_reply(&mut self) {
        if let (Some((address, _)), Some((_, other))) = (self.ticket(), self.ticket()) {
            let reply = self.fitting_reply(address, &other);
            let room = enough(self.random(), reply.data.len());
            self.reply_with(&reply.telegram(), room);
        }
    }

    /// A fitting reply altered within 16 neighbouring bits: it closes no ticket.
    fn altered_reply(&mut self) {
        if let Some((address, ticket)) = self.ticket() {
            let mut bytes = self.fitting_reply(address, &ticket).bytes();
            flip_within_16(self.random(), &mut bytes);
            self.reply_with(&frame(&bytes), MOST_DATA);
        }
    }

    /// Adds a cancel.
    pub fn cancel(&mut self, job: u32, address: u8) {
        let clock = self.clock;
        self.script.call(format!("desk.cancel {job} {address} {clock}"));
    }

    /// Cancels a ticket that is open.
    fn right_cancel(&mut self) {
        if let Some((address, ticket)) = self.ticket() {
            self.cancel(ticket.job, address);
        }
    }

    /// A cancel for another job, for job 0, or on an address without a ticket.
    pub fn wrong_cancel(&mut self) {
        let free = self.address_without_ticket();
        match self.ticket() {
            Some((address, ticket)) if !self.random().one_in(3) => {
                let job = self.random().pick(&[0, 1, 2, ticket.job ^ 1, ticket.job.wrapping_add(65536)]);
                self.cancel(job, address);
            }
            _ => {
                let job = self.random().pick(&[0, 1, 2, 3, 7]);
                self.cancel(job, free);
            }
        }
    }

    /// Adds an expiry at this clock reading.
    pub fn expire(&mut self, clock: u32) {
        self.script.call(format!("desk.expire {clock}"));
    }

    /// Adds an expiry of everything due at this clock reading, with a list of so many entries.
    pub fn expire_all(&mut self, clock: u32, room: usize) {
        self.script.call(format!("desk.expall {clock} {room}"));
    }

    /// Asks at the clock on the wall.
    fn expire_now(&mut self) {
        self.expire(self.clock);
    }

    /// Asks just before and just when a ticket is due, or with a clock set back past its opening.
    fn expire_near(&mut self) {
        if let Some((_, ticket)) = self.ticket() {
            let due = ticket.opened.wrapping_add(ticket.wait);
            match self.random().below(6) {
                0 => self.expire(ticket.opened.wrapping_sub(1)),
                1 => self.expire(ticket.opened),
                _ => {
                    self.expire(due.wrapping_sub(1));
                    self.expire(due);
                }
            }
        }
    }

    /// Closes one ticket in any way there is.
    pub fn close_one(&mut self) {
        let (address, ticket) = match self.ticket() {
            Some(held) => held,
            None => return,
        };
        match self.random().below(4) {
            0 => self.cancel(ticket.job, address),
            1 => self.expire(ticket.opened.wrapping_add(ticket.wait)),
            _ => {
                let reply = self.fitting_reply(address, &ticket);
                let room = enough(self.random(), reply.data.len());
                self.last_reply = self.reply_with(&reply.telegram(), room);
            }
        }
    }

    /// Lets time go by and asks so many times for what is due.
    fn let_expire(&mut self, times: usize) {
        for _ in 0..times {
            let ahead = self.random().below(1500) as u32;
            self.clock = self.clock.wrapping_add(ahead);
            self.expire_now();
        }
        self.dump();
    }
}

/// Makes a request refusable by this row.
pub fn spoil_request(random: &mut Random, request: &mut Request, row: No) {
    match row {
        10 => request.job = 0,
        11 => request.module = random.pick(&[0, 161, 161, 162, 255]),
        12 => request.type_no = random.pick(&[0, 1, 2, 3, 8, 10, 94, 255]),
        13 if request.type_no == 4 => {
            request.data = vec![random.byte(); random.pick(&[1, 2, MOST_DATA, MOST_DATA + 1])]
        }
        13 => request.data = vec![random.byte(); MOST_DATA + random.pick(&[1, 1, 2, 60])],
        _ => request.wait = random.pick(&[0, 60001, 60002, 65536, 4294967295]),
    }
}

/// Makes a reply misfit its ticket by this row.
fn spoil_reply(random: &mut Random, reply: &mut Message, ticket: &Ticket, free: u8, row: No) {
    match row {
        17 => reply.dest = free,
        18 => reply.source = other_address(random, ticket.module),
        19 if ticket.type_no == 4 => reply.type_no = random.pick(&[3, 3, 4, 5, 6, 7, 9]),
        19 => reply.type_no = random.pick(&[8, 8, 4, 5, 6, 7, 9]),
        _ => reply.register = other_register(random, reply.type_no, ticket.register),
    }
}

/// An address that is neither 0 nor this one.
pub fn other_address(random: &mut Random, not: u8) -> u8 {
    let others: Vec<u8> =
        [1, 2, 15, 160, 161, 255, not ^ 1, not ^ 128].into_iter().filter(|other| ![0, not].contains(other)).collect();
    random.pick(&others)
}

/// A register that misfits: not the ticket's and, but for a datagram, not 0.
fn other_register(random: &mut Random, type_no: u8, not: u8) -> u8 {
    if type_no == 8 && not != 0 && random.one_in(3) {
        return 0;
    }
    let others: Vec<u8> =
        [1, 255, not ^ 1, not ^ 128, random.byte()].into_iter().filter(|other| ![0, not].contains(other)).collect();
    random.pick(&others)
}
