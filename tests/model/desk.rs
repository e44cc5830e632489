//! The ticket desk: each request gets a host address of its own, each reply is booked on one ticket.

use crate::telegram::{self, lowest, Message, No, Refusal, MOST_DATA};
use std::collections::BTreeMap;

pub const FIRST_HOST: u8 = 161;
pub const LAST_HOST: u8 = 255;
/// How many host addresses there are to give.
pub const HOSTS: u8 = 95;
/// How long an address rests after a cancel or an expiry: under so many milliseconds.
pub const REST: u32 = 1000;

/// What a job asks the desk to open a ticket for.
#[derive(Clone)]
pub struct Request {
    pub job: u32,
    pub module: u8,
    pub type_no: u8,
    pub register: u8,
    pub data: Vec<u8>,
    pub wait: u32,
    /// The output folder, 0 for none.
    pub folder: u32,
    pub clock: u32,
}

/// An open ticket; the desk keeps it under its host address.
#[derive(Clone)]
pub struct Ticket {
    pub job: u32,
    pub module: u8,
    pub type_no: u8,
    pub register: u8,
    pub wait: u32,
    pub folder: u32,
    pub opened: u32,
}

/// What an opening hands over: the address given, the telegram with it as source, and how many addresses were
/// considered, those from the turn up to and including the one given.
pub struct Opened {
    pub address: u8,
    pub telegram: Vec<u8>,
    pub count: usize,
}

/// How a ticket was closed, as the box and the scan are told.
#[derive(Clone, Copy)]
pub enum Closing {
    /// A reply of this type was booked.
    Booked(u8),
    /// It was cancelled or expired.
    Lost,
}

/// What a closing answers of its ticket.
pub struct Closed {
    pub job: u32,
    pub address: u8,
    pub folder: u32,
}

#[derive(Clone)]
pub struct Desk {
    pub turn: u8,
    pub tickets: BTreeMap<u8, Ticket>,
    /// The addresses without a ticket whose last one was cancelled or expired, with the clock of that closing.
    /// It is kept, however old, until the address is given out again.
    pub closed: BTreeMap<u8, u32>,
}

/// How long ago a reading was, at this clock: the clock minus that reading, modulo 4294967296.
pub fn age(clock: u32, then: u32) -> u32 {
    (i64::from(clock) - i64::from(then)).rem_euclid(4294967296) as u32
}

/// The host address after this one, with 161 after 255.
pub fn after(address: u8) -> u8 {
    if address == LAST_HOST {
        FIRST_HOST
    } else {
        address + 1
    }
}

/// One of opening's numbers, with how many addresses were considered.
fn counted(no: No, count: usize) -> Refusal {
    Refusal { count: Some(count), ..no.into() }
}

impl Request {
    /// Rows 10 to 14: what is wrong with the request itself.
    pub fn check(&self) -> Result<(), No> {
        lowest(&[
            (10, self.job == 0),
            (11, !(1..=160).contains(&self.module)),
            (12, ![4, 5, 6, 7, 9].contains(&self.type_no)),
            (13, self.data.len() > MOST_DATA || (self.type_no == 4 && !self.data.is_empty())),
            (14, !(1..=60000).contains(&self.wait)),
        ])
    }

    /// The request as a message from this host address.
    fn message(&self, address: u8) -> Message {
        Message {
            dest: self.module,
            source: address,
            type_no: self.type_no,
            register: self.register,
            data: self.data.clone(),
        }
    }

    /// The ticket that is opened for the request.
    fn ticket(&self) -> Ticket {
        Ticket {
            job: self.job,
            module: self.module,
            type_no: self.type_no,
            register: self.register,
            wait: self.wait,
            folder: self.folder,
            opened: self.clock,
        }
    }
}

impl Ticket {
    /// What is answered when it is closed; it was open on this address.
    fn closed(&self, address: u8) -> Closed {
        Closed { job: self.job, address, folder: self.folder }
    }

    /// Due when the ticket's age is at least its waiting time.
    pub fn is_due(&self, clock: u32) -> bool {
        age(clock, self.opened) >= self.wait
    }

    /// A read is answered by type 8, 0, 1 or 2, a write of any sort by 3, 0, 1 or 2.
    fn kind_fits(&self, reply: &Message) -> bool {
        let own = if self.type_no == 4 { 8 } else { 3 };
        [own, 0, 1, 2].contains(&reply.type_no)
    }

    /// A datagram's register must equal the ticket's; types 0 to 3 may also carry register 0.
    fn register_fits(&self, reply: &Message) -> bool {
        reply.register == self.register || ([0, 1, 2, 3].contains(&reply.type_no) && reply.register == 0)
    }
}

impl Desk {
    /// A fresh desk: no tickets, none closed, the next turn at 161.
    pub fn new() -> Desk {
        Desk { turn: FIRST_HOST, tickets: BTreeMap::new(), closed: BTreeMap::new() }
    }

    /// Whether an address rests at this clock: its last ticket was cancelled or expired under 1000 ms ago.
    pub fn rests(&self, address: u8, clock: u32) -> bool {
        self.closed.get(&address).map_or(false, |closing| age(clock, *closing) < REST)
    }

    /// The host addresses in the order they are considered in: from the turn upwards and after 255 from 161 on.
    fn round(&self) -> Vec<u8> {
        (self.turn..=LAST_HOST).chain(FIRST_HOST..self.turn).collect()
    }

    /// Whether an address may be given at this clock: it is neither open nor resting.
    fn is_free(&self, address: u8, clock: u32) -> bool {
        !self.tickets.contains_key(&address) && !self.rests(address, clock)
    }

    /// Whether an open ticket of another job has the folder of this request, if it has one. Neither what waits in the
    /// lanes nor an address that rests holds a folder.
    fn is_held(&self, request: &Request) -> bool {
        let is_held = |ticket: &Ticket| ticket.folder == request.folder && ticket.job != request.job;
        request.folder != 0 && self.tickets.values().any(is_held)
    }

    /// Closes the ticket on an address without a reply: the address rests from this clock on.
    fn close(&mut self, address: u8, clock: u32) {
        self.tickets.remove(&address);
        self.closed.insert(address, clock);
    }

    /// Opens a ticket for a buffer with this room: 10 to 14, 75, 15, 16, each with the count of addresses that were
    /// considered: none for a wrong request or a folder that another job holds, all where none is free, and with 16
    /// those up to the one that would have been given.
    pub fn open(&mut self, request: &Request, room: usize) -> Result<Opened, Refusal> {
        let refused = request.check().and(lowest(&[(75, self.is_held(request))]));
        refused.map_err(|no| counted(no, 0))?;
        let round = self.round();
        let free = round.iter().position(|address| self.is_free(*address, request.clock));
        let place = free.ok_or(counted(15, round.len()))?;
        let (address, count) = (round[place], place + 1);
        let telegram = request.message(address).telegram();
        lowest(&[(16, telegram.len() > room)]).map_err(|no| counted(no, count))?;
        self.tickets.insert(address, request.ticket());
        self.closed.remove(&address);
        self.turn = after(address);
        Ok(Opened { address, telegram, count })
    }

    /// Books a reply, with this room for its data: 1 to 9, 3 with its place, then 61 or 17, then 18 to 20. Answers
    /// the reply too. The address is free at once.
    pub fn reply(&mut self, frame: &[u8], room: usize) -> Result<(Closed, Message), Refusal> {
        let reply = telegram::read(frame, room)?;
        let without = if self.closed.contains_key(&reply.dest) { 61u32 } else { 17 };
        let ticket = self.tickets.get(&reply.dest).ok_or(without)?;
        lowest(&[
            (18, reply.source != ticket.module),
            (19, !ticket.kind_fits(&reply)),
            (20, !ticket.register_fits(&reply)),
        ])?;
        let closed = ticket.closed(reply.dest);
        self.tickets.remove(&reply.dest);
        Ok((closed, reply))
    }

    /// Closes the ticket that is open on the address for that job now, or 21; the address rests from the call's
    /// clock on.
    pub fn cancel(&mut self, job: u32, address: u8, clock: u32) -> Result<Closed, No> {
        let held = self.tickets.get(&address).filter(|ticket| ticket.job == job);
        let closed = held.map(|ticket| ticket.closed(address)).ok_or(21u32)?;
        self.close(address, clock);
        Ok(closed)
    }

    /// Closes the due ticket with the lowest address, or 22; the address rests from the call's clock on.
    pub fn expire(&mut self, clock: u32) -> Result<Closed, No> {
        let due = self.tickets.iter().find(|(_, ticket)| ticket.is_due(clock));
        let closed = due.map(|(address, ticket)| ticket.closed(*address)).ok_or(22u32)?;
        self.close(closed.address, clock);
        Ok(closed)
    }

    /// Closes all due tickets by rising address, or the first of them where a list of so many entries has no room for
    /// all; they all rest from the call's clock on. The papers tell it by single expiries, which `expiries` holds this
    /// against.
    pub fn expire_all(&mut self, clock: u32, room: usize) -> Vec<Closed> {
        let due = self.tickets.iter().filter(|(_, ticket)| ticket.is_due(clock));
        let expired: Vec<Closed> = due.take(room).map(|(address, ticket)| ticket.closed(*address)).collect();
        expired.iter().for_each(|closed| self.close(closed.address, clock));
        expired
    }
}
