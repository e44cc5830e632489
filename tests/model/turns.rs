//! What a script's calls and answers tell of the lanes: which lanes requests joined and why they could not, which lane
//! each grant served and why none was, what was withdrawn, and what became of the tickets that grants opened.

use crate::calls::unhex;
use crate::desk::{age, HOSTS};
use crate::dues::closed;
use crate::lanes::{LANES, MOST_WAITING};
use crate::queue::{field, Queue};
use crate::rests::{is_idle, opens, parsed};
use crate::subject::{Subject, Times, Wanted};
use crate::telegram::CODES;
use std::collections::{BTreeMap, BTreeSet};

/// What must have been met of requests that joined: the places, the lanes, and who had them before.
const JOINED: [&str; 12] = [
    "at 1",
    "at 2",
    "at 3",
    "at 4",
    "lane 1",
    "lane 2 to 15",
    "lane 16",
    "below others",
    "no lane free",
    "back in the same lane",
    "back in another",
    "in another's old lane",
];
/// What must have been met of the data of requests that joined, and likewise of those that were granted.
const DATA: [&str; 6] = ["no bytes", "1 byte", "2 to 238 bytes", "239 bytes", "240 bytes", "240 to be substituted"];
/// What must have been met of each of 11 to 14 at a joining: with neither 71 nor 72 behind it, and with each of them.
const REFUSED: [&str; 4] = ["alone", "lane full", "no lane free", "lane full and none free"];
/// What must have been met of the lane that a grant served, whether it opened the request or took it out.
const SERVED: [&str; 8] = [
    "first of all",
    "the next lane",
    "over empty lanes",
    "round past 16",
    "the same lane again",
    "the last of its lane",
    "the first of four",
    "after 15",
];
/// What must have been met of the room that a grant had.
const ROOMS: [&str; 8] = [
    "none at all",
    "493 bytes",
    "494 bytes",
    "500 bytes",
    "room for the telegram",
    "nothing waiting",
    "493 and nothing waiting",
    "on a full desk",
];
/// What must have been met of a withdrawal, done or not.
const WITHDRAWN: [&str; 4] = ["the first", "from the middle", "the last", "the only one"];
const NOT_WITHDRAWN: [&str; 8] = [
    "place 0",
    "one over",
    "5",
    "4294967297",
    "18446744073709551615",
    "a job without a lane",
    "a job that had one",
    "job 0",
];
/// What must have become of the tickets that grants opened.
const ENDS: [&str; 6] =
    ["booked", "cancelled", "expired", "expired at the very end", "22 one ms before", "expired by expall"];
/// What must have been met of lanes that were shown.
const SHOWN: [&str; 6] = [
    "fresh",
    "64 waiting",
    "a gap",
    "the last served is empty",
    "the last served is another's",
    "the last served is the 16th",
];
/// What must have been met, under so many heads.
const WANTED: [(&str, &[&str]); 21] = [
    ("join", &JOINED),
    ("join, data", &DATA),
    ("join 10", &["alone", "no lane free"]),
    ("join 11", &REFUSED),
    ("join 12", &REFUSED),
    ("join 13", &REFUSED),
    ("join 14", &REFUSED),
    ("join 71", &["few waiting", "64 waiting", "a job that had one"]),
    ("join 72", &["lanes free", "no lane free"]),
    ("grant", &SERVED),
    ("grant 75", &SERVED),
    ("grant, data", &DATA),
    ("grant, room", &ROOMS),
    ("grant 74", &["fresh", "all granted", "all withdrawn", "on a full desk"]),
    ("grant 15", &["once", "again", "withdrawn then"]),
    ("withdraw", &WITHDRAWN),
    ("withdraw 55", &NOT_WITHDRAWN),
    ("beside", &["opened directly", "for a job that waits", "for the box", "for the scan", "15 for both"]),
    ("granted", &ENDS),
    ("dump", &SHOWN),
    ("desk.new", &["while some wait", "another lane last"]),
];

/// The lanes as calls and answers tell them, what there is to know of the desk, and how often each thing was met.
pub struct Turns {
    queue: Queue,
    /// The lane that each job had last, and the job that each lane had last.
    lane_of: BTreeMap<u32, usize>,
    job_of: BTreeMap<usize, u32>,
    /// The job served last.
    served: u32,
    /// Whether the latest call that changed the lanes was a withdrawal, and whether the latest grant was refused 15.
    is_withdrawn: bool,
    is_15: bool,
    /// The addresses with a ticket, and the clock and the waiting time of those that grants opened.
    open: BTreeSet<u8>,
    granted: BTreeMap<u8, (u32, u32)>,
    times: Times,
}

impl Subject for Turns {
    const NAME: &'static str = "lanes, ";
    const WANTED: Wanted = &WANTED;

    /// A fresh desk with fresh lanes, nothing met.
    fn fresh() -> Turns {
        Turns {
            queue: Queue::new(),
            lane_of: BTreeMap::new(),
            job_of: BTreeMap::new(),
            served: 0,
            is_withdrawn: false,
            is_15: false,
            open: BTreeSet::new(),
            granted: BTreeMap::new(),
            times: Times::new(),
        }
    }

    /// Hears of a call and its answer: what there is to say of it by the lanes before it, and then the lanes after it.
    fn hear(&mut self, call: &str, answer: &str) {
        if is_idle(answer) {
            return;
        }
        let words: Vec<&str> = call.split(' ').collect();
        let refusal = answer.strip_prefix("no ").and_then(|rest| rest.split(' ').next());
        match words[..] {
            ["desk.new"] => self.anew(),
            ["lane.join", job, _, _, _, data, _, _] => self.joined(parsed(job), data, refusal, answer),
            ["lane.grant", clock, buf] => return self.granted(parsed(clock), buf, refusal, &words, answer),
            ["lane.withdraw", job, place] => self.withdrawn(parsed(job), place, refusal),
            ["lane.dump"] => self.shown(),
            [name, ..] if opens(name) => self.opened(&words, refusal, answer),
            _ => self.closed(&words, answer),
        }
        self.queue.hear(&words, answer);
    }

    fn times(&mut self) -> &mut Times {
        &mut self.times
    }

    fn faults(&self) -> Vec<String> {
        self.queue.late.iter().map(|late| format!("lanes: {late}, which must not occur")).collect()
    }
}

impl Turns {
    /// A fresh desk: only the counts stay, and what waited for too long.
    fn anew(&mut self) {
        self.count_if(self.queue.held() > 0, "desk.new", "while some wait");
        self.count_if(self.queue.last != LANES, "desk.new", "another lane last");
        let (queue, times) = (self.queue.clone(), std::mem::take(&mut self.times));
        *self = Turns { queue, times, ..Turns::fresh() };
    }

    /// Whether no lane is free.
    fn is_taken(&self) -> bool {
        self.queue.held() == LANES
    }

    /// Whether every address has a ticket.
    fn is_full_desk(&self) -> bool {
        self.open.len() == usize::from(HOSTS)
    }

    /// A request has joined a lane, or was refused.
    fn joined(&mut self, job: u32, data: &str, refusal: Option<&str>, answer: &str) {
        let is_full = self.queue.waiting_of(job) == MOST_WAITING;
        let (is_taken, is_without) = (self.is_taken(), self.queue.lane_of(job).is_none());
        match refusal {
            None => self.in_lane(job, data, answer),
            Some("71") => {
                let all = LANES * MOST_WAITING;
                self.count_if(self.queue.waiting() < all / 2, "join 71", "few waiting");
                self.count_if(self.queue.waiting() == all, "join 71", "64 waiting");
                self.count_if(self.lane_of.contains_key(&job), "join 71", "a job that had one");
            }
            Some("72") => self.count_if(true, "join 72", if is_taken { "no lane free" } else { "lanes free" }),
            Some(no) => {
                let thing = match (is_full, is_taken) {
                    (true, true) => "lane full and none free",
                    (true, false) => "lane full",
                    (false, true) if is_without => "no lane free",
                    _ => "alone",
                };
                self.count_if(true, &format!("join {no}"), thing);
            }
        }
    }

    /// A request has joined this lane at this place.
    fn in_lane(&mut self, job: u32, data: &str, answer: &str) {
        let (lane, at) = (field(answer, "lane=").unwrap_or(0), field(answer, "at=").unwrap_or(0));
        self.count_if(true, "join", &format!("at {at}"));
        self.count_if(true, "join", &format!("lane {lane}"));
        self.count_if(lane > 1 && lane < LANES, "join", "lane 2 to 15");
        self.count_if(at > 1 && self.is_taken(), "join", "no lane free");
        self.data("join, data", data);
        if at == 1 {
            let is_below = self.queue.lanes.iter().skip(lane).any(|higher| !higher.is_empty());
            let (before, owner) = (self.lane_of.insert(job, lane), self.job_of.insert(lane, job));
            self.count_if(is_below, "join", "below others");
            self.count_if(before == Some(lane), "join", "back in the same lane");
            self.count_if(before.map_or(false, |before| before != lane), "join", "back in another");
            self.count_if(owner.map_or(false, |owner| owner != job), "join", "in another's old lane");
        }
        self.is_withdrawn = false;
    }

    /// The data of a request that has joined or was granted.
    fn data(&mut self, head: &str, data: &str) {
        let bytes = unhex(data.as_bytes()).unwrap_or_default();
        let thing = match bytes.len() {
            0 => "no bytes",
            1 => "1 byte",
            239 => "239 bytes",
            240 => "240 bytes",
            _ => "2 to 238 bytes",
        };
        self.count_if(true, head, thing);
        let is_substituted = bytes.iter().all(|byte| CODES.contains(&byte.wrapping_add(64)));
        self.count_if(is_substituted && bytes.len() == 240, head, "240 to be substituted");
    }

    /// A grant has served a lane, or was refused.
    fn granted(&mut self, clock: u32, buf: &str, refusal: Option<&str>, words: &[&str], answer: &str) {
        let room = unhex(buf.as_bytes()).map_or(0, |bytes| bytes.len());
        let is_waiting = self.queue.held() > 0;
        let fits = self.queue.next().map_or(false, |request| 2 * (6 + request.data().len() / 2) + 2 <= room);
        self.count_if(true, "grant, room", &format!("{room} bytes"));
        match refusal {
            Some("73") => {
                self.count_if(room == 0, "grant, room", "none at all");
                self.count_if(fits, "grant, room", "room for the telegram");
                self.count_if(!is_waiting, "grant, room", "nothing waiting");
                self.count_if(!is_waiting && room == 493, "grant, room", "493 and nothing waiting");
                self.count_if(self.is_full_desk(), "grant, room", "on a full desk");
            }
            Some("74") => {
                self.count_if(self.lane_of.is_empty(), "grant 74", "fresh");
                self.count_if(!self.lane_of.is_empty() && !self.is_withdrawn, "grant 74", "all granted");
                self.count_if(self.is_withdrawn, "grant 74", "all withdrawn");
                self.count_if(self.is_full_desk(), "grant 74", "on a full desk");
            }
            Some("15") => {
                self.count_if(true, "grant 15", if self.is_15 { "again" } else { "once" });
                self.is_15 = true;
            }
            _ => self.served(clock, words, answer),
        }
    }

    /// A grant has opened the oldest request of a lane, or taken it out with 75.
    fn served(&mut self, clock: u32, words: &[&str], answer: &str) {
        let (before, last) = (self.queue.clone(), self.queue.last);
        let (lane, request) = match self.queue.hear(words, answer) {
            Some(served) => served,
            None => return,
        };
        let address = field(answer, "address=");
        let head = if address.is_some() { "grant" } else { "grant 75" };
        let waiting = before.lanes[lane - 1].len();
        let is_first = before.grants == 0;
        self.count_if(is_first, head, "first of all");
        self.count_if(lane == last + 1, head, "the next lane");
        self.count_if(lane > last + 1, head, "over empty lanes");
        self.count_if(lane < last && !is_first, head, "round past 16");
        self.count_if(lane == last && !is_first, head, "the same lane again");
        self.count_if(waiting == 1, head, "the last of its lane");
        self.count_if(waiting == MOST_WAITING, head, "the first of four");
        self.count_if(self.is_15, head, "after 15");
        if let Some(address) = address {
            self.data("grant, data", request.data());
            self.open.insert(address);
            self.granted.insert(address, (clock, request.wait));
        }
        self.served = request.job;
        (self.is_15, self.is_withdrawn) = (false, false);
    }

    /// A request was withdrawn, or there is none.
    fn withdrawn(&mut self, job: u32, place: &str, refusal: Option<&str>) {
        let waiting = self.queue.waiting_of(job);
        let at: usize = place.parse().unwrap_or(0);
        if refusal.is_none() {
            let thing = match (at, waiting) {
                (1, 1) => "the only one",
                (1, _) => "the first",
                (at, waiting) if at == waiting => "the last",
                _ => "from the middle",
            };
            self.count_if(true, "withdraw", thing);
            self.count_if(self.is_15, "grant 15", "withdrawn then");
            self.is_withdrawn = true;
        } else if waiting > 0 {
            self.count_if(true, "withdraw 55", place);
            self.count_if(at == 0, "withdraw 55", "place 0");
            self.count_if(at == waiting + 1, "withdraw 55", "one over");
        } else {
            let had_one = self.lane_of.contains_key(&job);
            self.count_if(job == 0, "withdraw 55", "job 0");
            self.count_if(job > 0 && !had_one, "withdraw 55", "a job without a lane");
            self.count_if(had_one, "withdraw 55", "a job that had one");
        }
    }

    /// The lanes were shown.
    fn shown(&mut self) {
        let (held, last) = (self.queue.held(), self.queue.last);
        let in_last = self.queue.lanes[last - 1].first().map(|waiting| waiting.job);
        let is_gap = self.queue.lanes.iter().take_while(|lane| !lane.is_empty()).count() < held;
        let is_served = self.queue.grants > 0;
        self.count_if(held == 0 && self.lane_of.is_empty(), "dump", "fresh");
        self.count_if(self.queue.waiting() == LANES * MOST_WAITING, "dump", "64 waiting");
        self.count_if(is_gap, "dump", "a gap");
        self.count_if(is_served && in_last.is_none(), "dump", "the last served is empty");
        let is_anothers = in_last.map_or(false, |job| job != self.served);
        self.count_if(is_served && is_anothers, "dump", "the last served is another's");
        self.count_if(is_served && last == LANES, "dump", "the last served is the 16th");
    }

    /// A ticket was asked for beside the lanes, and perhaps opened.
    fn opened(&mut self, words: &[&str], refusal: Option<&str>, answer: &str) {
        let job = if words[0] == "desk.open" { parsed(words[1]) } else { 0 };
        let (is_waiting, is_scan) = (self.queue.held() > 0, words[0] == "scan.step");
        self.count_if(is_waiting && self.is_15 && refusal == Some("15"), "beside", "15 for both");
        if let Some(address) = field(answer, "address=") {
            self.open.insert(address);
            self.count_if(is_waiting && job > 0, "beside", "opened directly");
            self.count_if(self.queue.waiting_of(job) > 0, "beside", "for a job that waits");
            self.count_if(is_waiting && job == 0 && !is_scan, "beside", "for the box");
            self.count_if(is_waiting && is_scan, "beside", "for the scan");
        }
    }

    /// Tickets were closed, those that grants opened among them; or nothing was due.
    fn closed(&mut self, words: &[&str], answer: &str) {
        let clock = parsed(words.get(1).unwrap_or(&""));
        let (way, addresses) = closed(words[0], answer);
        for address in addresses {
            self.open.remove(&address);
            if let Some((opened, wait)) = self.granted.remove(&address) {
                self.count_if(true, "granted", way);
                self.count_if(way == "expired" && age(clock, opened) == wait, "granted", "expired at the very end");
            }
        }
        if answer == "no 22" {
            let is_next = self.granted.values().any(|(opened, wait)| age(clock, *opened) + 1 == *wait);
            self.count_if(is_next, "granted", "22 one ms before");
        }
    }
}
