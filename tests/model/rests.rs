//! What a script's calls and answers tell of rests: how often an address was kept back or given at each age
//! that matters, and how late answers were refused.

use crate::desk::{age, FIRST_HOST, LAST_HOST, REST};
use crate::dues::expired;
use crate::subject::{Subject, Times, Wanted};
use std::collections::{BTreeMap, BTreeSet};

/// What must have been met after a cancel, and likewise after an expiry, alone or with others by one call. "Kept" is
/// passed over, or not given and 15.
const AFTER_CLOSING: [&str; 7] = [
    "kept at 998",
    "kept at 999",
    "given at 1000",
    "given at 1001",
    "given one back",
    "61 within the rest",
    "61 after it",
];
/// What must have been met, under six heads.
const WANTED: [(&str, &[&str]); 6] = [
    ("cancelled", &AFTER_CLOSING),
    ("expired", &AFTER_CLOSING),
    ("expired by expall", &AFTER_CLOSING),
    ("resting", &["passed over", "kept over the wrap", "booked after a rest"]),
    ("15", &["all open", "all resting", "open and resting"]),
    ("17", &["below 161", "never given", "after a booking", "where 61 was told"]),
];

/// What became of the last ticket of an address; a cancel or an expiry with its clock.
#[derive(Clone, Copy)]
enum Last {
    Open,
    Booked,
    Closed(&'static str, u32),
}

/// The desk as its calls and answers tell it, and how often each thing was met.
pub struct Rests {
    turn: u8,
    last: BTreeMap<u8, Last>,
    /// The addresses that have rested, and those a 61 was told of.
    rested: BTreeSet<u8>,
    told: BTreeSet<u8>,
    /// The latest clock reading of any call, since a reply has none.
    clock: u32,
    times: Times,
}

impl Subject for Rests {
    const NAME: &'static str = "";
    const WANTED: Wanted = &WANTED;

    /// A fresh desk, nothing met.
    fn fresh() -> Rests {
        Rests {
            turn: FIRST_HOST,
            last: BTreeMap::new(),
            rested: BTreeSet::new(),
            told: BTreeSet::new(),
            clock: 0,
            times: Times::new(),
        }
    }

    /// Hears of a call and its answer; only calls on the desk have something to tell, the box's, the scan's and grants
    /// too.
    fn hear(&mut self, call: &str, answer: &str) {
        if is_idle(answer) {
            return;
        }
        let (words, address) = (call.split(' ').collect::<Vec<&str>>(), field(answer, "address="));
        let is_told = |number| answer.starts_with(&format!("no {number} "));
        match words[..] {
            [name, .., clock, _] if opens(name) => self.clock = parsed(clock),
            ["desk.cancel", _, _, clock] | ["desk.expire", clock] | ["desk.expall", clock, _] => {
                self.clock = parsed(clock)
            }
            _ => (),
        }
        match (&words[..], address) {
            (["desk.new"], _) => self.forget(),
            ([name, ..], Some(address)) if opens(name) => self.opened(address),
            ([name, ..], None) if opens(name) && is_told(15) => self.all_taken(),
            (["desk.cancel", ..], Some(address)) => self.closed("cancelled", address),
            (["desk.expire", ..], Some(address)) => self.closed("expired", address),
            (["desk.expall", ..], _) => {
                expired(answer).into_iter().for_each(|address| self.closed("expired by expall", address))
            }
            (["desk.reply", ..], Some(address)) => self.booked(address),
            (["desk.reply", frame, _], None) if is_told(61) => self.told_61(destination(frame)),
            (["desk.reply", frame, _], None) if is_told(17) => self.told_17(destination(frame)),
            _ => (),
        }
    }

    fn times(&mut self) -> &mut Times {
        &mut self.times
    }
}

impl Rests {
    /// A fresh desk: only the counts stay.
    fn forget(&mut self) {
        let times = std::mem::take(&mut self.times);
        *self = Rests { times, ..Rests::fresh() };
    }

    /// An address was given: those from the turn up to it were passed over.
    fn opened(&mut self, given: u8) {
        let round = (self.turn..=LAST_HOST).chain(FIRST_HOST..=LAST_HOST);
        for address in round.take_while(|address| *address != given).collect::<Vec<u8>>() {
            if self.keep(address) {
                self.count("resting", "passed over");
            }
        }
        if let Some(Last::Closed(way, closing)) = self.last.insert(given, Last::Open) {
            match age(self.clock, closing) {
                1000 => self.count(way, "given at 1000"),
                1001 => self.count(way, "given at 1001"),
                u32::MAX => self.count(way, "given one back"),
                _ => (),
            }
        }
        self.turn = if given == LAST_HOST { FIRST_HOST } else { given + 1 };
    }

    /// An address was not given; tells whether that is because it rests.
    fn keep(&mut self, address: u8) -> bool {
        let (way, closing) = match self.last.get(&address) {
            Some(Last::Closed(way, closing)) => (*way, *closing),
            _ => return false,
        };
        match age(self.clock, closing) {
            998 => self.count(way, "kept at 998"),
            999 => self.count(way, "kept at 999"),
            _ => (),
        }
        if self.clock < closing {
            self.count("resting", "kept over the wrap");
        }
        true
    }

    /// No address was given: each one is open or rests.
    fn all_taken(&mut self) {
        let resting = (FIRST_HOST..=LAST_HOST).filter(|address| self.keep(*address)).count();
        match resting {
            0 => self.count("15", "all open"),
            95 => self.count("15", "all resting"),
            _ => self.count("15", "open and resting"),
        }
    }

    /// A ticket was cancelled or expired.
    fn closed(&mut self, way: &'static str, address: u8) {
        self.last.insert(address, Last::Closed(way, self.clock));
        self.rested.insert(address);
    }

    /// A reply was booked.
    fn booked(&mut self, address: u8) {
        self.last.insert(address, Last::Booked);
        if self.rested.contains(&address) {
            self.count("resting", "booked after a rest");
        }
    }

    /// A reply came too late for its ticket: within the rest by the latest clock, or after it.
    fn told_61(&mut self, address: u8) {
        self.told.insert(address);
        if let Some(Last::Closed(way, closing)) = self.last.get(&address).copied() {
            let is_resting = age(self.clock, closing) < REST;
            self.count(way, if is_resting { "61 within the rest" } else { "61 after it" });
        }
    }

    /// A reply came where no ticket is open and the last one, if any, was booked.
    fn told_17(&mut self, address: u8) {
        match self.last.get(&address) {
            _ if address < FIRST_HOST => self.count("17", "below 161"),
            None => self.count("17", "never given"),
            _ => self.count("17", "after a booking"),
        }
        if self.told.contains(&address) {
            self.count("17", "where 61 was told");
        }
    }
}

/// Whether a call of this name opens a ticket: the desk's own, one of the box's, a grant, or a step of the scan.
pub fn opens(name: &str) -> bool {
    let of_the_box = ["varia.short", "varia.long", "varia.att", "varia.monitor", "varia.status"];
    ["desk.open", "lane.grant", "scan.step"].contains(&name) || of_the_box.contains(&name)
}

/// Whether a line had no effect at all: it was no call, or there was nothing to call.
pub fn is_idle(answer: &str) -> bool {
    ["bad line", "no bench", "no box", "no scan"].contains(&answer)
}

/// The number after this name in an answer.
pub fn field(answer: &str, name: &str) -> Option<u8> {
    answer.split(' ').find_map(|word| word.strip_prefix(name)?.parse().ok())
}

/// A clock reading of a call that was answered.
pub fn parsed(clock: &str) -> u32 {
    clock.parse().unwrap_or(0)
}

/// The destination of a frame that was read: its second byte, for a host's address is never converted.
fn destination(frame: &str) -> u8 {
    frame.get(2..4).and_then(|digits| u8::from_str_radix(digits, 16).ok()).unwrap_or(0)
}
