//! What a script's calls and answers tell of the call that expires everything due: into which rooms none, some and all
//! of the tickets were due, by what a ticket was due or stayed, and what came next at the same clock.

use crate::calls::MOST_ENTRIES;
use crate::desk::{age, HOSTS};
use crate::queue::Queue;
use crate::rests::{field, is_idle, opens, parsed};
use crate::roll::WAIT;
use crate::subject::{Subject, Times, Wanted};
use std::collections::BTreeMap;

/// What must have been met in each of the rooms that matter: some tickets and none of them due, some of them, all 95.
const DUE: [&str; 3] = ["none due", "some due", "all 95 due"];
/// What must have been met of rooms, by how many were due.
const ROOMS: [&str; 8] =
    ["none at all", "far short", "one short", "exact", "one longer", "far longer", "the most", "no ticket"];
/// What must have been met of the tickets that expired.
const EXPIRED: [&str; 4] = ["at the very end", "over the wrap", "clock set back by one", "not the oldest first"];
/// What must have been met of those that stayed.
const STAYED: [&str; 4] = ["one ms before", "just opened", "for want of room", "between two"];
/// What must have come next at the same clock, with nothing but refused calls between.
const NEXT: [&str; 6] = ["the rest at once", "the rest one by one", "none left", "22", "15", "another address"];
/// What must have been met, under nine heads.
const WANTED: [(&str, &[&str]); 9] = [
    ("room 0", &DUE),
    ("room 1", &DUE),
    ("room 94", &DUE),
    ("room 95", &DUE),
    ("room 96", &DUE),
    ("rooms", &ROOMS),
    ("expired", &EXPIRED),
    ("stayed", &STAYED),
    ("next", &NEXT),
];

/// A ticket as its opening tells it.
#[derive(Clone, Copy)]
struct Ticket {
    opened: u32,
    wait: u32,
}

impl Ticket {
    /// For how long it has been due at this clock, if it is.
    fn overdue(self, clock: u32) -> Option<u32> {
        age(clock, self.opened).checked_sub(self.wait)
    }
}

/// The tickets as calls and answers tell them, and how often each thing was met.
pub struct Dues {
    tickets: BTreeMap<u8, Ticket>,
    /// What waits in the lanes, since a grant doesn't tell the waiting time.
    queue: Queue,
    /// The clock of the latest of these calls that had an entry to fill, if no ticket was opened, booked or cancelled
    /// since.
    latest: Option<u32>,
    times: Times,
}

impl Subject for Dues {
    const NAME: &'static str = "expall, ";
    const WANTED: Wanted = &WANTED;

    fn fresh() -> Dues {
        Dues { tickets: BTreeMap::new(), queue: Queue::new(), latest: None, times: Times::new() }
    }

    /// Hears of a call and its answer; only calls on the desk have something to tell, the box's, the scan's and grants
    /// too.
    fn hear(&mut self, call: &str, answer: &str) {
        if is_idle(answer) {
            return;
        }
        let words: Vec<&str> = call.split(' ').collect();
        let granted = self.queue.hear(&words, answer);
        match (&words[..], field(answer, "address=")) {
            (["desk.new"], _) => {
                self.tickets.clear();
                self.latest = None;
            }
            (["desk.open", .., wait, _, clock, _], Some(address)) => self.opened(address, parsed(wait), parsed(clock)),
            (["lane.grant", clock, _], Some(address)) => {
                self.opened(address, granted.map_or(0, |(_, request)| request.wait), parsed(clock))
            }
            (["scan.step", clock, _], Some(address)) => self.opened(address, WAIT, parsed(clock)),
            ([name, .., wait, clock, _], Some(address)) if opens(name) => {
                self.opened(address, parsed(wait), parsed(clock))
            }
            ([name, .., clock, _], None) if opens(name) && answer.starts_with("no 15 ") => {
                self.count_if(self.latest == Some(parsed(clock)), "next", "15")
            }
            (["desk.expire", clock], closed) => self.expired(parsed(clock), closed),
            (["desk.expall", clock, room], _) => {
                self.all_expired(parsed(clock), parsed(room) as usize, &expired(answer));
            }
            (["desk.reply", ..] | ["desk.cancel", ..], Some(address)) => {
                self.tickets.remove(&address);
                self.latest = None;
            }
            _ => (),
        }
    }

    fn times(&mut self) -> &mut Times {
        &mut self.times
    }
}

impl Dues {
    /// A ticket was opened on this address, which none of those that just expired had.
    fn opened(&mut self, address: u8, wait: u32, clock: u32) {
        self.count_if(self.latest == Some(clock), "next", "another address");
        self.tickets.insert(address, Ticket { opened: clock, wait });
        self.latest = None;
    }

    /// A single expiry closed the ticket on this address, or found nothing due.
    fn expired(&mut self, clock: u32, closed: Option<u8>) {
        let thing = if closed.is_some() { "the rest one by one" } else { "22" };
        self.count_if(self.latest == Some(clock), "next", thing);
        if let Some(address) = closed {
            self.tickets.remove(&address);
        }
    }

    /// The tickets on these addresses expired by one call with a list of so many entries.
    fn all_expired(&mut self, clock: u32, room: usize, expired: &[u8]) {
        let due = self.tickets.values().filter(|ticket| ticket.overdue(clock).is_some()).count();
        let (held, head) = (self.tickets.len(), format!("room {room}"));
        self.count_if(held > 0 && due == 0, &head, "none due");
        self.count_if(due > 0 && due < held, &head, "some due");
        self.count_if(due == usize::from(HOSTS), &head, "all 95 due");
        self.count_if(held == 0, "rooms", "no ticket");
        if due > 0 {
            self.count_if(room == 0, "rooms", "none at all");
            self.count_if(room > 0 && room + 1 < due, "rooms", "far short");
            self.count_if(room > 0 && room + 1 == due, "rooms", "one short");
            self.count_if(room == due, "rooms", "exact");
            self.count_if(room == due + 1, "rooms", "one longer");
            self.count_if(room > due + 1, "rooms", "far longer");
            self.count_if(room == MOST_ENTRIES, "rooms", "the most");
        }
        let is_next = self.latest == Some(clock) && room > 0;
        self.count_if(is_next, "next", if expired.is_empty() { "none left" } else { "the rest at once" });
        let closed: Vec<Ticket> = expired.iter().filter_map(|address| self.tickets.remove(address)).collect();
        closed.iter().for_each(|ticket| self.closed(clock, *ticket));
        for (address, ticket) in self.tickets.clone() {
            self.stayed(clock, address, ticket, &closed, expired);
        }
        if room > 0 {
            self.latest = Some(clock);
        }
    }

    /// A ticket expired: at which age.
    fn closed(&mut self, clock: u32, ticket: Ticket) {
        let (age, is_wrapped) = (age(clock, ticket.opened), clock < ticket.opened);
        self.count_if(age == ticket.wait, "expired", "at the very end");
        self.count_if(is_wrapped && age < 1 << 31, "expired", "over the wrap");
        self.count_if(age == u32::MAX, "expired", "clock set back by one");
    }

    /// A ticket stayed while these others, if any, expired.
    fn stayed(&mut self, clock: u32, address: u8, ticket: Ticket, closed: &[Ticket], expired: &[u8]) {
        let age = age(clock, ticket.opened);
        let is_between = expired.iter().any(|low| *low < address) && expired.iter().any(|high| *high > address);
        self.count_if(age == ticket.wait - 1, "stayed", "one ms before");
        self.count_if(age == 0, "stayed", "just opened");
        self.count_if(is_between, "stayed", "between two");
        if let Some(overdue) = ticket.overdue(clock) {
            self.count_if(!closed.is_empty(), "stayed", "for want of room");
            let is_older = closed.iter().any(|other| other.overdue(clock) < Some(overdue));
            self.count_if(is_older, "expired", "not the oldest first");
        }
    }
}

/// The entries that were filled in the list of an answer, in their order: job, address and folder.
pub fn entries(answer: &str) -> Vec<(u32, u8, u32)> {
    let entries = answer.split(' ').find_map(|word| word.strip_prefix("list=")).unwrap_or("");
    let parsed = |entry: &str| match entry.split(':').collect::<Vec<&str>>()[..] {
        [job, address, folder] => Some((job.parse().ok()?, address.parse().ok()?, folder.parse().ok()?)),
        _ => None,
    };
    entries.split(',').filter_map(parsed).collect()
}

/// The addresses in that list.
pub fn expired(answer: &str) -> Vec<u8> {
    entries(answer).into_iter().map(|(_, address, _)| address).collect()
}

/// The way in which a call of this name closed tickets, and their addresses; none where it closed nothing.
pub fn closed(name: &str, answer: &str) -> (&'static str, Vec<u8>) {
    let way = match name {
        "desk.reply" => "booked",
        "desk.cancel" => "cancelled",
        "desk.expire" => "expired",
        "desk.expall" => return ("expired by expall", expired(answer)),
        _ => return ("", Vec::new()),
    };
    (way, field(answer, "address=").into_iter().collect())
}
