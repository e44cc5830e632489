//! What a script's calls and answers tell of the filter box: how its edges were asked for and how those requests ended,
//! what went on while one was out, and what the display and the status were said to show.

use crate::desk::age;
use crate::dues::expired;
use crate::rests::is_idle;
use crate::subject::{Subject, Times, Wanted};
use std::collections::BTreeSet;

/// What must have been met of either edge: each end of its request, with the edge unknown before and known.
const ENDS: [&str; 14] = [
    "ack unknown",
    "ack known",
    "nack unknown",
    "nack known",
    "check error unknown",
    "check error known",
    "busy unknown",
    "busy known",
    "cancel unknown",
    "cancel known",
    "expiry unknown",
    "expiry known",
    "expall unknown",
    "expall known",
];
/// What must have been met of an edge that was asked for, by how it lies to the other one; the last two are values that
/// are in order with nothing, and given since the other one is unknown.
const EDGES: [&str; 8] = [
    "other unknown",
    "one in order",
    "further in order",
    "equal",
    "one out of order",
    "further out",
    "short 0",
    "long 65535",
];
/// What must have been met of an edge request at a call that expires everything due.
const EXPALL: [&str; 5] = ["alone", "with others", "left for want of room", "not due", "none out"];
/// What must have been met, under eleven heads.
const WANTED: [(&str, &[&str]); 11] = [
    ("short", &ENDS),
    ("long", &ENDS),
    ("edges", &EDGES),
    ("59", &["same edge", "other edge", "63 too", "due"]),
    ("attenuation", &["0", "1000", "1001", "65535"]),
    ("meanwhile", &MEANWHILE),
    ("expall", &EXPALL),
    ("anew", &ANEW),
    ("display", &["fresh", "kept", "fresh of two", "64 with one", "64 with three"]),
    ("moving", &["0", "1", "bit 11", "bit 12", "bit 13", "bit 14", "bit 15"]),
    ("dump", &["short known", "short unknown", "long known", "long unknown", "out short", "out long", "none out"]),
];
/// What must have been met of boxes made anew while an edge request was out: how that one ended afterwards.
const ANEW: [&str; 5] = [
    "while out",
    "old request booked",
    "old request cancelled",
    "old request expired",
    "old request expired by expall",
];
/// What must have been met while an edge request was out: other openings, the ends of other tickets, and replies on its
/// own address that are refused; and a reply that comes once it was cancelled or expired.
const MEANWHILE: [&str; 15] = [
    "attenuation",
    "monitor",
    "status",
    "another opened",
    "another granted",
    "the scan's opened",
    "another booked",
    "another cancelled",
    "another expired",
    "another expired by expall",
    "18",
    "19",
    "20",
    "21",
    "61 afterwards",
];

/// An edge request that is out.
#[derive(Clone, Copy)]
struct Out {
    address: u8,
    edge: usize,
    value: u16,
    wait: u32,
    opened: u32,
}

/// The box as its calls and answers tell it, and how often each thing was met.
#[derive(Default)]
pub struct Filters {
    /// The short-pass edge and the long-pass edge, where known.
    known: [Option<u16>; 2],
    out: Option<Out>,
    /// The addresses of edge requests that a box before this one left open, and of those that were cancelled or expired.
    old: BTreeSet<u8>,
    lost: BTreeSet<u8>,
    times: Times,
}

impl Subject for Filters {
    const NAME: &'static str = "box, ";
    const WANTED: Wanted = &WANTED;

    fn fresh() -> Filters {
        Filters::default()
    }

    /// Hears of a call and its answer.
    fn hear(&mut self, call: &str, answer: &str) {
        let words: Vec<&str> = call.split(' ').collect();
        if is_idle(answer) {
            return;
        }
        match words[..] {
            ["desk.new"] => self.forget(),
            ["varia.new", _, _] => self.anew(),
            ["varia.short", value, wait, clock, _] => self.asked(0, parsed(value), parsed(wait), parsed(clock), answer),
            ["varia.long", value, wait, clock, _] => self.asked(1, parsed(value), parsed(wait), parsed(clock), answer),
            ["varia.att", value, _, _, _] => {
                self.count("attenuation", value);
                self.opened("attenuation", answer);
            }
            ["varia.monitor", ..] => self.opened("monitor", answer),
            ["varia.status", ..] => self.opened("status", answer),
            ["desk.open", ..] => self.opened("another opened", answer),
            ["lane.grant", ..] => self.opened("another granted", answer),
            ["scan.step", ..] => self.opened("the scan's opened", answer),
            ["desk.reply", frame, _] => self.replied(frame, answer),
            ["desk.cancel", _, address, _] => {
                self.ended_by("cancel", "another cancelled", "old request cancelled", answer);
                if self.is_out_on(parsed(address) as u8) && answer == "no 21" {
                    self.count("meanwhile", "21");
                }
            }
            ["desk.expire", _] => self.ended_by("expiry", "another expired", "old request expired", answer),
            ["desk.expall", clock, _] => self.all_expired(parsed(clock), &expired(answer)),
            ["varia.display", fresh, kept] => self.shown(fresh, kept, answer),
            ["varia.moving", status] => self.moving(parsed(status) as u16, answer),
            ["varia.dump"] => self.dumped(answer),
            _ => (),
        }
    }

    fn times(&mut self) -> &mut Times {
        &mut self.times
    }
}

impl Filters {
    /// A fresh desk has no box: only the counts stay.
    fn forget(&mut self) {
        let times = std::mem::take(&mut self.times);
        *self = Filters { times, ..Filters::default() };
    }

    /// A fresh box on the same desk, which still has the edge request of the one before.
    fn anew(&mut self) {
        if let Some(out) = self.out.take() {
            self.old.insert(out.address);
            self.count("anew", "while out");
        }
        self.known = [None, None];
        self.lost.clear();
    }

    /// Whether an edge request is out on this address.
    fn is_out_on(&self, address: u8) -> bool {
        self.out.map_or(false, |out| out.address == address)
    }

    /// An edge was asked for: how it lies to the other one, and what that one blocks.
    fn asked(&mut self, edge: usize, value: u32, wait: u32, opened: u32, answer: &str) {
        let value = value as u16;
        let above = |other: u16| i32::from(value) - i32::from(other);
        let lies = self.known[1 - edge].map(|other| if edge == 0 { above(other) } else { -above(other) });
        let is_told = |number: u32| answer.starts_with(&format!("no {number} "));
        if is_told(59) {
            self.blocked(edge, lies, opened);
        } else if is_told(63) || answer.starts_with("ok ") {
            let thing = match lies {
                None => "other unknown",
                Some(1) => "one in order",
                Some(0) => "equal",
                Some(-1) => "one out of order",
                Some(lies) if lies > 0 => "further in order",
                Some(_) => "further out",
            };
            self.count("edges", thing);
            if lies.is_none() {
                self.count("edges", &format!("{} {value}", ["short", "long"][edge]));
            }
        }
        if let Some(address) = field(answer, "address=") {
            self.given(address);
            self.out = Some(Out { address, edge, value, wait, opened });
        }
    }

    /// An edge request that is out blocked one for this edge.
    fn blocked(&mut self, edge: usize, lies: Option<i32>, clock: u32) {
        let out = match self.out {
            Some(out) => out,
            None => return,
        };
        self.count("59", if out.edge == edge { "same edge" } else { "other edge" });
        if lies.map_or(false, |lies| lies <= 0) {
            self.count("59", "63 too");
        }
        if age(clock, out.opened) >= out.wait {
            self.count("59", "due");
        }
    }

    /// Something else was opened, perhaps while an edge request is out.
    fn opened(&mut self, what: &str, answer: &str) {
        if let Some(address) = field(answer, "address=") {
            self.given(address);
            if self.out.is_some() {
                self.count("meanwhile", what);
            }
        }
    }

    /// An address was given out: what it was before is over.
    fn given(&mut self, address: u8) {
        self.old.remove(&address);
        self.lost.remove(&address);
    }

    /// A reply was booked or refused; a host's address is never converted in a frame.
    fn replied(&mut self, frame: &str, answer: &str) {
        let end = match field(answer, "type=") {
            Some(0) => "nack",
            Some(1) => "check error",
            Some(2) => "busy",
            _ => "ack",
        };
        self.ended_by(end, "another booked", "old request booked", answer);
        let dest = frame.get(2..4).and_then(|digits| u8::from_str_radix(digits, 16).ok()).unwrap_or(0);
        let number = answer.split(' ').nth(1).unwrap_or("");
        if self.is_out_on(dest) {
            self.count("meanwhile", number);
        }
        if self.lost.contains(&dest) && number == "61" {
            self.count("meanwhile", "61 afterwards");
        }
    }

    /// A ticket was closed where the answer has its address.
    fn ended_by(&mut self, end: &str, another: &str, old: &str, answer: &str) {
        if let Some(address) = field(answer, "address=") {
            self.ended(end, another, old, address);
        }
    }

    /// The tickets on these addresses expired by one call: with the edge request among them, or not.
    fn all_expired(&mut self, clock: u32, expired: &[u8]) {
        let thing = match self.out {
            Some(out) if expired == [out.address] => "alone",
            Some(out) if expired.contains(&out.address) => "with others",
            Some(out) if age(clock, out.opened) >= out.wait => "left for want of room",
            Some(_) => "not due",
            None => "none out",
        };
        if !expired.is_empty() {
            self.count("expall", thing);
        }
        for address in expired {
            self.ended("expall", "another expired by expall", "old request expired by expall", *address);
        }
    }

    /// A ticket was closed: the edge request's, that of a box before this one, or another's.
    fn ended(&mut self, end: &str, another: &str, old: &str, address: u8) {
        match self.out.filter(|out| out.address == address) {
            Some(out) => self.edge_ended(out, end),
            None if self.old.remove(&address) => self.count("anew", old),
            None if self.out.is_some() => self.count("meanwhile", another),
            None => (),
        }
    }

    /// The edge request that was out has ended in this way.
    fn edge_ended(&mut self, out: Out, end: &str) {
        self.out = None;
        let before = if self.known[out.edge].is_some() { "known" } else { "unknown" };
        self.count(["short", "long"][out.edge], &format!("{end} {before}"));
        match end {
            "ack" => self.known[out.edge] = Some(out.value),
            "cancel" | "expiry" | "expall" => {
                self.known[out.edge] = None;
                self.lost.insert(out.address);
            }
            _ => (),
        }
    }

    /// The display was asked for.
    fn shown(&mut self, fresh: &str, kept: &str, answer: &str) {
        let lengths = [fresh, kept].map(|data| if data == "-" { 0 } else { data.len() / 2 });
        match (answer.split(' ').nth(1).unwrap_or(""), lengths) {
            ("which=fresh", lengths) => {
                self.count("display", "fresh");
                self.count("display", if lengths == [2, 2] { "fresh of two" } else { "" });
            }
            ("which=kept", _) => self.count("display", "kept"),
            ("64", lengths) => {
                self.count("display", if lengths.contains(&1) { "64 with one" } else { "" });
                self.count("display", if lengths.contains(&3) { "64 with three" } else { "" });
            }
            _ => (),
        }
    }

    /// The status was asked about.
    fn moving(&mut self, status: u16, answer: &str) {
        self.count("moving", answer.strip_prefix("ok moving=").unwrap_or(""));
        if status.count_ones() == 1 {
            self.count("moving", &format!("bit {}", status.trailing_zeros()));
        }
    }

    /// The box was shown.
    fn dumped(&mut self, answer: &str) {
        for edge in ["short", "long"] {
            let is_unknown = answer.contains(&format!(" {edge}=? "));
            self.count("dump", &format!("{edge} {}", if is_unknown { "unknown" } else { "known" }));
            if answer.contains(&format!(":{edge}:")) {
                self.count("dump", &format!("out {edge}"));
            }
        }
        if answer.ends_with(" out=-") {
            self.count("dump", "none out");
        }
    }
}

/// The number after this name in an answer.
fn field(answer: &str, name: &str) -> Option<u8> {
    answer.split(' ').find_map(|word| word.strip_prefix(name)?.parse().ok())
}

/// A number of a call that was answered.
fn parsed(number: &str) -> u32 {
    number.parse().unwrap_or(0)
}
