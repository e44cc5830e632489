//! What a script's calls and answers tell of how many addresses each opening considered: whether the count told is the
//! right one, and which ways from the turn were met.

use crate::desk::{age, FIRST_HOST, HOSTS, LAST_HOST, REST};
use crate::dues::expired;
use crate::rests::{field, is_idle, opens, parsed};
use crate::subject::{Subject, Times, Wanted};
use std::collections::{BTreeMap, BTreeSet};

/// What must have been met of an address that was given, and likewise of one that would have been, with 16.
const FOUND: [&str; 12] = [
    "1 on an empty desk",
    "1 beside others",
    "2",
    "3 to 93",
    "94",
    "95",
    "round past 255",
    "past open ones",
    "past resting ones",
    "past both",
    "94 open",
    "94 resting",
];
/// What must have been met of a refusal that considers no address; there is no 75 on an empty desk.
const NONE: [&str; 3] = ["on an empty desk", "some free", "none free"];
/// What must have been met of each call of the box's that opens.
const BOX: [&str; 5] = ["1", "more", "16 with 1", "16 with more", "15"];
/// What must have been met of grants.
const GRANT: [&str; 8] = [
    "1",
    "more",
    "past resting ones",
    "75 some free",
    "75 none free",
    "15 all open",
    "15 all resting",
    "15 open and resting",
];
/// What must have been met of steps of the scan.
const SCAN: [&str; 11] = [
    "1",
    "more",
    "past resting ones",
    "16 with 1",
    "16 with more",
    "10 on an empty desk",
    "10 some free",
    "10 none free",
    "15 all open",
    "15 all resting",
    "15 open and resting",
];
/// What must have been met, under sixteen heads.
const WANTED: [(&str, &[&str]); 16] = [
    ("given", &FOUND),
    ("16", &FOUND),
    ("15", &["all open", "all resting", "open and resting"]),
    ("10", &NONE),
    ("11", &NONE),
    ("12", &NONE),
    ("13", &NONE),
    ("14", &NONE),
    ("75", &["some free", "none free"]),
    ("varia.short", &BOX),
    ("varia.long", &BOX),
    ("varia.att", &BOX),
    ("varia.monitor", &BOX),
    ("varia.status", &BOX),
    ("lane.grant", &GRANT),
    ("scan.step", &SCAN),
];

/// So many wrong counts are told; others go untold.
const MOST_WRONG: usize = 5;

/// The desk as its calls and answers tell it, how often each thing was met, and the counts that are wrong.
pub struct Looks {
    turn: u8,
    open: BTreeSet<u8>,
    /// The addresses whose last ticket was cancelled or expired, with the clock of that closing.
    closed: BTreeMap<u8, u32>,
    times: Times,
    wrong: Vec<String>,
}

impl Subject for Looks {
    const NAME: &'static str = "count, ";
    const WANTED: Wanted = &WANTED;

    /// A fresh desk, nothing met.
    fn fresh() -> Looks {
        Looks {
            turn: FIRST_HOST,
            open: BTreeSet::new(),
            closed: BTreeMap::new(),
            times: Times::new(),
            wrong: Vec::new(),
        }
    }

    /// Hears of a call and its answer; only calls on the desk have something to tell, the box's, the scan's and grants
    /// too.
    fn hear(&mut self, call: &str, answer: &str) {
        if is_idle(answer) {
            return;
        }
        let words: Vec<&str> = call.split(' ').collect();
        match (&words[..], field(answer, "address=")) {
            (["desk.new"], _) => {
                let (times, wrong) = (std::mem::take(&mut self.times), std::mem::take(&mut self.wrong));
                *self = Looks { times, wrong, ..Looks::fresh() };
            }
            ([name, .., clock, _], given) if opens(name) => self.asked(name, parsed(clock), given, answer),
            (["desk.reply", ..], Some(address)) => {
                self.open.remove(&address);
            }
            (["desk.cancel", _, _, clock] | ["desk.expire", clock], Some(address)) => {
                self.close(address, parsed(clock))
            }
            (["desk.expall", clock, _], _) => {
                expired(answer).into_iter().for_each(|address| self.close(address, parsed(clock)))
            }
            _ => (),
        }
    }

    fn times(&mut self) -> &mut Times {
        &mut self.times
    }

    fn faults(&self) -> Vec<String> {
        self.wrong.clone()
    }
}

impl Looks {
    /// A ticket was cancelled or expired.
    fn close(&mut self, address: u8, clock: u32) {
        self.open.remove(&address);
        self.closed.insert(address, clock);
    }

    /// The addresses from the turn on that are open or rest at this clock, up to the first that is free.
    fn passed(&self, clock: u32) -> Vec<u8> {
        let rests = |address: &u8| self.closed.get(address).map_or(false, |closing| age(clock, *closing) < REST);
        let round = (self.turn..=LAST_HOST).chain(FIRST_HOST..self.turn);
        round.take_while(|address| self.open.contains(address) || rests(address)).collect()
    }

    /// A ticket was asked for, and an address given or not.
    fn asked(&mut self, name: &str, clock: u32, given: Option<u8>, answer: &str) {
        let passed = self.passed(clock);
        let no = answer.strip_prefix("no ").and_then(|rest| rest.split(' ').next());
        let distance = |given: u8| (i32::from(given) - i32::from(self.turn)).rem_euclid(i32::from(HOSTS)) as u8;
        let right = match (no, given) {
            (None, Some(given)) => Some(distance(given) + 1),
            (Some("10" | "11" | "12" | "13" | "14" | "75"), _) => Some(0),
            (Some("15"), _) => Some(HOSTS),
            (Some("16"), _) => Some(passed.len() as u8 + 1),
            _ => None,
        };
        let told = field(answer, "count=");
        if told != right && self.wrong.len() < MOST_WRONG {
            self.wrong.push(format!("{name}: {} where {} is right must not occur", words(told), words(right)));
        }
        if let Some(count) = right {
            self.met(name, no, count, &passed);
        }
        if let Some(given) = given {
            self.open.insert(given);
            self.closed.remove(&given);
            self.turn = if given == LAST_HOST { FIRST_HOST } else { given + 1 };
        }
    }

    /// Counts what there is to say of an opening with this count, these addresses passed over or none free.
    fn met(&mut self, name: &str, no: Option<&str>, count: u8, passed: &[u8]) {
        let open = passed.iter().filter(|address| self.open.contains(address)).count();
        match no {
            None | Some("16") => self.found(no.unwrap_or("given"), count, open, passed.len() - open),
            Some("15") => {
                let thing = match open {
                    95 => "all open",
                    0 => "all resting",
                    _ => "open and resting",
                };
                self.count_if(true, "15", thing);
                self.count_if(true, name, &format!("15 {thing}"));
            }
            Some(no) => {
                let thing = match passed.len() == usize::from(HOSTS) {
                    true => "none free",
                    false if self.is_empty() => "on an empty desk",
                    false => "some free",
                };
                self.count_if(true, no, thing);
                self.count_if(true, name, &format!("{no} {thing}"));
            }
        }
        self.count_if(no.is_none(), name, if count == 1 { "1" } else { "more" });
        self.count_if(no == Some("16"), name, if count == 1 { "16 with 1" } else { "16 with more" });
        self.count_if(no == Some("15"), name, "15");
        self.count_if(no.is_none() && passed.len() > open, name, "past resting ones");
    }

    /// Whether no address has a ticket or had one that was cancelled or expired.
    fn is_empty(&self) -> bool {
        self.open.is_empty() && self.closed.is_empty()
    }

    /// An address was found, with so many open ones and so many resting ones passed over.
    fn found(&mut self, head: &str, count: u8, open: usize, resting: usize) {
        self.count_if(count == 1 && self.is_empty(), head, "1 on an empty desk");
        self.count_if(count == 1 && !self.open.is_empty(), head, "1 beside others");
        self.count_if((3..=93).contains(&count), head, "3 to 93");
        self.count_if(true, head, &count.to_string());
        self.count_if(count - 1 > LAST_HOST - self.turn, head, "round past 255");
        self.count_if(open > 0 && resting == 0, head, "past open ones");
        self.count_if(open == 0 && resting > 0, head, "past resting ones");
        self.count_if(open > 0 && resting > 0, head, "past both");
        self.count_if(self.open.len() == 94, head, "94 open");
        self.count_if(resting == 94, head, "94 resting");
    }
}

/// A count in words.
fn words(count: Option<u8>) -> String {
    count.map_or("no count".to_string(), |count| format!("count {count}"))
}
