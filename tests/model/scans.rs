//! What a script's calls and answers tell of the scan: how its turns were opened and how they ended, what went on while
//! one was out, which openings were refused and tried again, and what became of scans that were given up. A step or a
//! result that is not the right one is told as wrong.

use crate::calls::unhex;
use crate::desk::age;
use crate::dues::closed;
use crate::queue::field;
use crate::rests::{is_idle, opens, parsed};
use crate::roll::{Roll, Turn, ASKED, TURNS, WAIT};
use crate::subject::{Subject, Times, Wanted};
use crate::telegram::{unframed, END, START, SUBSTITUTION};
use std::collections::BTreeMap;

/// What must have been met of turns that were opened.
const OPENED: [&str; 9] = [
    "turn 1",
    "turn 2 to 159",
    "turn 160",
    "a module to be substituted",
    "a longer telegram",
    "exact room",
    "more room",
    "beside others",
    "after a refusal",
];
/// What must have been met of the ends of turns.
const ENDS: [&str; 15] = [
    "datagram",
    "datagram without data",
    "nack",
    "check error",
    "busy",
    "register 0",
    "booked when due",
    "cancelled",
    "expired",
    "expired by expall",
    "expired with others",
    "expired at the very end",
    "expired over the wrap",
    "right after the opening",
    "turn 160",
];
/// What must have been met of turns whose opening was refused.
const REFUSED: [&str; 9] =
    ["10", "10 again", "15", "15 again", "16", "16 again", "turn 1", "turn 2 to 159", "turn 160"];
/// What must have been met while a turn's ticket was out. A twin asks the same register of the same module; "misread"
/// and the numbers are of replies to its address, of cancels there and of an expiry.
const MEANWHILE: [&str; 18] = [
    "another opened",
    "another granted",
    "the box's opened",
    "a twin opened",
    "another booked",
    "another cancelled",
    "another expired",
    "another expired by expall",
    "a twin closed",
    "misread",
    "18",
    "19",
    "19 by an ack",
    "20",
    "21",
    "22 one ms before",
    "left for want of room",
    "not due by expall",
];
/// What must have been met of replies that came after their turn.
const AFTERWARDS: [&str; 4] = ["61 when cancelled", "61 when expired", "61 when expired by expall", "17 when booked"];
/// What must have been met of scans made anew: where the one before was, and how its ticket ended.
const ANEW: [&str; 7] = [
    "while out",
    "between turns",
    "after the end",
    "old ticket booked",
    "old ticket cancelled",
    "old ticket expired",
    "old ticket expired by expall",
];
/// What must have been met, under twelve heads.
const WANTED: [(&str, &[&str]); 12] = [
    ("opened", &OPENED),
    ("turn", &ENDS),
    ("refused", &REFUSED),
    ("waiting", &["once", "again", "when due", "no room"]),
    ("done", &["once", "again", "no room"]),
    ("meanwhile", &MEANWHILE),
    ("afterwards", &AFTERWARDS),
    ("anew", &ANEW),
    ("desk.new", &["while out", "between turns", "after the end"]),
    ("dump", &["before turn 1", "while out", "between turns", "after the end"]),
    ("whole", &["of all results", "of one result", "a", "1", "2"]),
    ("job", &["0", "4294967295", "another's too"]),
];

/// The scan and what else there is to know of its desk, and how often each thing was met.
pub struct Scans {
    roll: Roll,
    /// The tickets that are not this scan's: their jobs, and whether they are twins of the turn they were opened in.
    others: BTreeMap<u8, (u32, bool)>,
    /// How the last ticket of an address ended, where a turn had it.
    ended: BTreeMap<u8, &'static str>,
    /// The number that the next turn's opening was refused with last.
    refused: Option<String>,
    /// How many calls came since the turn was opened, and how many of them were told to wait; how many were told that
    /// the scan is done.
    since: usize,
    waited: usize,
    done: usize,
    /// The latest clock reading of any call, since a reply has none.
    clock: u32,
    times: Times,
}

impl Subject for Scans {
    const NAME: &'static str = "scan, ";
    const WANTED: Wanted = &WANTED;

    /// A fresh desk without a scan, nothing met.
    fn fresh() -> Scans {
        Scans {
            roll: Roll::new(),
            others: BTreeMap::new(),
            ended: BTreeMap::new(),
            refused: None,
            since: 0,
            waited: 0,
            done: 0,
            clock: 0,
            times: Times::new(),
        }
    }

    /// Hears of a call and its answer: what there is to say of it by the scan before it, and then the scan after it.
    fn hear(&mut self, call: &str, answer: &str) {
        let words: Vec<&str> = call.split(' ').collect();
        if answer == "bad line" {
            return;
        }
        if !is_idle(answer) {
            self.told(&words, answer);
        }
        let finished = self.roll.results.len();
        self.roll.hear(&words, answer);
        if self.roll.is_done() && finished + 1 == TURNS {
            self.whole();
        }
    }

    fn times(&mut self) -> &mut Times {
        &mut self.times
    }

    fn faults(&self) -> Vec<String> {
        self.roll.faults.iter().map(|fault| format!("scan: {fault}, which must not occur")).collect()
    }
}

impl Scans {
    /// A call that had something to do.
    fn told(&mut self, words: &[&str], answer: &str) {
        self.since += 1;
        match words {
            [name, .., clock, _] if opens(name) => self.clock = parsed(clock),
            ["desk.cancel", _, _, clock] | ["desk.expire", clock] | ["desk.expall", clock, _] => {
                self.clock = parsed(clock)
            }
            _ => (),
        }
        match words {
            ["desk.new"] => self.new_desk(),
            ["scan.new", _] => self.anew(),
            ["scan.step", _, buf] => self.stepped(buf, answer),
            ["scan.dump"] => self.count("dump", self.standing()),
            ["desk.reply", frame, _] => self.replied(frame, answer),
            ["desk.cancel", _, address, _] => {
                let is_own = self.roll.is_out_on(parsed(address) as u8);
                self.count_if(is_own && answer == "no 21", "meanwhile", "21");
            }
            ["desk.expire", _] => {
                let is_next = self.roll.out.map_or(false, |turn| age(self.clock, turn.opened) + 1 == WAIT);
                self.count_if(is_next && answer == "no 22", "meanwhile", "22 one ms before");
            }
            [name, ..] if opens(name) => self.opened_beside(words, answer),
            _ => (),
        }
        let (way, addresses) = closed(words[0], answer);
        addresses.iter().for_each(|address| self.closed(way, *address, addresses.len(), answer));
        if words[0] == "desk.expall" && !addresses.is_empty() {
            self.stayed(&addresses);
        }
    }

    /// Where the scan stands.
    fn standing(&self) -> &'static str {
        match (self.roll.out, self.roll.is_done()) {
            (Some(_), _) => "while out",
            (None, true) => "after the end",
            _ if self.roll.results.is_empty() => "before turn 1",
            _ => "between turns",
        }
    }

    /// A fresh desk: only the counts stay, and what went wrong.
    fn new_desk(&mut self) {
        self.count_if(self.roll.job.is_some(), "desk.new", self.standing());
        let (roll, times) = (std::mem::replace(&mut self.roll, Roll::new()), std::mem::take(&mut self.times));
        *self = Scans { roll, times, ..Scans::fresh() };
    }

    /// A scan takes the place of the one there was; the ticket that is out stays with the desk.
    fn anew(&mut self) {
        self.count_if(self.roll.job.is_some(), "anew", self.standing());
        (self.refused, self.waited, self.done) = (None, 0, 0);
        self.ended.clear();
    }

    /// Which turn it is.
    fn turn(&self) -> &'static str {
        match self.roll.module() {
            1 => "turn 1",
            160 => "turn 160",
            _ => "turn 2 to 159",
        }
    }

    /// The scan was taken on, or could not be.
    fn stepped(&mut self, buf: &str, answer: &str) {
        let (room, turn) = (unhex(buf.as_bytes()).map_or(0, |bytes| bytes.len()), self.turn());
        let number = answer.strip_prefix("no ").and_then(|rest| rest.split(' ').next());
        if let Some(number) = number {
            let is_again = self.refused.as_deref() == Some(number);
            self.count_if(!is_again, "refused", number);
            self.count_if(is_again, "refused", &format!("{number} again"));
            self.count_if(number != "10", "refused", turn);
            self.count_if(number == "10", "job", "0");
            self.refused = Some(number.to_string());
        } else if let Some(turn) = self.roll.out {
            self.count("waiting", if self.waited == 0 { "once" } else { "again" });
            self.count_if(age(self.clock, turn.opened) >= WAIT, "waiting", "when due");
            self.count_if(room == 0, "waiting", "no room");
            self.waited += 1;
        } else if self.roll.is_done() {
            self.count("done", if self.done == 0 { "once" } else { "again" });
            self.count_if(room == 0, "done", "no room");
            self.done += 1;
        } else if let (Some(address), Some(length)) = (field(answer, "address="), field::<usize>(answer, "n=")) {
            self.opened(address, length, room);
        }
    }

    /// A turn's ticket was opened on this address, with a telegram and a room of these lengths.
    fn opened(&mut self, address: u8, length: usize, room: usize) {
        let (module, job) = (self.roll.module(), self.roll.job);
        self.count("opened", self.turn());
        self.count_if([START, END, SUBSTITUTION].contains(&module), "opened", "a module to be substituted");
        self.count_if(length > 8, "opened", "a longer telegram");
        self.count("opened", if room == length { "exact room" } else { "more room" });
        self.count_if(!self.others.is_empty(), "opened", "beside others");
        self.count_if(self.refused.is_some(), "opened", "after a refusal");
        self.count_if(job == Some(u32::MAX), "job", "4294967295");
        self.count_if(self.others.values().any(|(other, _)| Some(*other) == job), "job", "another's too");
        self.ended.remove(&address);
        (self.refused, self.since, self.waited) = (None, 0, 0);
    }

    /// Another ticket was asked for, and perhaps opened while a turn's is out. The box's job is not told.
    fn opened_beside(&mut self, words: &[&str], answer: &str) {
        let module = self.roll.module().to_string();
        let (thing, job, is_twin) = match words {
            ["desk.open", job, asked, "4", register, ..] => {
                ("another opened", parsed(job), *asked == module && parsed(register) == u32::from(ASKED))
            }
            ["desk.open", job, ..] => ("another opened", parsed(job), false),
            ["lane.grant", ..] => ("another granted", field(answer, "job=").unwrap_or(0), false),
            _ => ("the box's opened", 0, false),
        };
        if let Some(address) = field(answer, "address=") {
            let is_out = self.roll.out.is_some();
            self.count_if(is_out, "meanwhile", thing);
            self.count_if(is_out && is_twin, "meanwhile", "a twin opened");
            self.others.insert(address, (job, is_out && is_twin));
            self.ended.remove(&address);
        }
    }

    /// A reply was offered: to the ticket that is out, and refused, or after a turn. A host's address is never
    /// converted in a frame.
    fn replied(&mut self, frame: &str, answer: &str) {
        let number: Option<u32> = answer.strip_prefix("no ").and_then(|rest| rest.split(' ').next()?.parse().ok());
        let message = unhex(frame.as_bytes()).and_then(|frame| unframed(&frame).ok()).unwrap_or_default();
        let dest = frame.get(2..4).and_then(|digits| u8::from_str_radix(digits, 16).ok()).unwrap_or(0);
        if let Some(number) = number.filter(|_| self.roll.is_out_on(dest)) {
            self.count("meanwhile", if number < 10 { "misread".to_string() } else { number.to_string() }.as_str());
            self.count_if(number == 19 && message.get(2) == Some(&3), "meanwhile", "19 by an ack");
        }
        if let (Some(number), Some(way)) = (number, self.ended.get(&dest).copied()) {
            self.count("afterwards", &format!("{number} when {way}"));
        }
        let has_register_0 = message.get(3) == Some(&0);
        let is_booked = number.is_none() && self.roll.is_out_on(dest);
        self.count_if(is_booked && has_register_0, "turn", "register 0");
    }

    /// A ticket was closed in this way, by a call that closed so many: a turn's, that of a scan before, or another's.
    fn closed(&mut self, way: &'static str, address: u8, together: usize, answer: &str) {
        match self.roll.out.filter(|turn| turn.address == address) {
            Some(turn) => self.finished(turn, way, together, answer),
            None if self.roll.old.contains(&address) => self.count("anew", &format!("old ticket {way}")),
            None => {
                let is_twin = self.others.remove(&address).map_or(false, |(_, is_twin)| is_twin);
                let is_out = self.roll.out.is_some();
                self.count_if(is_out, "meanwhile", &format!("another {way}"));
                self.count_if(is_out && is_twin, "meanwhile", "a twin closed");
            }
        }
    }

    /// A turn's ticket was closed in this way.
    fn finished(&mut self, turn: Turn, way: &'static str, together: usize, answer: &str) {
        let thing = match (way, field::<u8>(answer, "type=")) {
            ("booked", Some(0)) => "nack",
            ("booked", Some(1)) => "check error",
            ("booked", Some(2)) => "busy",
            ("booked", _) => "datagram",
            _ => way,
        };
        let (age, is_expired) = (age(self.clock, turn.opened), way.starts_with("expired"));
        let is_wrapped = self.clock < turn.opened && age < 1 << 31;
        self.count("turn", thing);
        self.count_if(answer.contains(" type=8 n=0 "), "turn", "datagram without data");
        self.count_if(way == "booked" && age >= WAIT, "turn", "booked when due");
        self.count_if(is_expired && together > 1, "turn", "expired with others");
        self.count_if(is_expired && age == WAIT, "turn", "expired at the very end");
        self.count_if(is_expired && is_wrapped, "turn", "expired over the wrap");
        self.count_if(self.since == 1, "turn", "right after the opening");
        self.count_if(usize::from(turn.module) == TURNS, "turn", "turn 160");
        self.ended.insert(turn.address, way);
    }

    /// A call let these tickets expire, and not the one that is out.
    fn stayed(&mut self, expired: &[u8]) {
        if let Some(turn) = self.roll.out.filter(|turn| !expired.contains(&turn.address)) {
            let is_due = age(self.clock, turn.opened) >= WAIT;
            self.count("meanwhile", if is_due { "left for want of room" } else { "not due by expall" });
        }
    }

    /// A scan has finished its last turn.
    fn whole(&mut self) {
        let has: Vec<&str> = ["a", "1", "2"].into_iter().filter(|letter| self.roll.results.contains(letter)).collect();
        self.count_if(has.len() == 3, "whole", "of all results");
        self.count_if(has.len() == 1, "whole", "of one result");
        has.into_iter().for_each(|letter| self.count("whole", letter));
    }
}
