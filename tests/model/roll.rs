//! The scan as calls and answers tell it: whose turn it is, which ticket is out, and what became of each turn.

use crate::calls::hex;
use crate::dues::closed;
use crate::queue::field;
use crate::rests::parsed;
use crate::telegram::Message;
use std::collections::BTreeSet;

/// What the papers say of a scan, stated once more: how many turns it has, which register it asks for, and for how many
/// milliseconds it waits.
pub const TURNS: usize = 160;
pub const ASKED: u8 = 97;
pub const WAIT: u32 = 100;

/// So many faults are told; others go untold.
const MOST_FAULTS: usize = 5;

/// A turn whose ticket is out.
#[derive(Clone, Copy)]
pub struct Turn {
    pub address: u8,
    pub module: u8,
    pub opened: u32,
}

/// The scan there is, and what went wrong.
pub struct Roll {
    /// The scan's job; none where there is no scan.
    pub job: Option<u32>,
    pub out: Option<Turn>,
    /// One letter for each finished turn.
    pub results: String,
    /// The addresses of the tickets that scans before this one left open.
    pub old: BTreeSet<u8>,
    pub faults: Vec<String>,
}

impl Roll {
    /// A fresh desk: there is no scan.
    pub fn new() -> Roll {
        Roll { job: None, out: None, results: String::new(), old: BTreeSet::new(), faults: Vec::new() }
    }

    /// Whether all turns are finished.
    pub fn is_done(&self) -> bool {
        self.results.len() == TURNS
    }

    /// Whether the ticket that is out is on this address.
    pub fn is_out_on(&self, address: u8) -> bool {
        self.out.map_or(false, |turn| turn.address == address)
    }

    /// The module whose turn it is, or is next.
    pub fn module(&self) -> u8 {
        self.results.len() as u8 + 1
    }

    /// The answer that `scan.dump` must give.
    pub fn dump(&self) -> String {
        if self.job.is_none() {
            return "no scan".to_string();
        }
        let (done, turns) = (u8::from(self.is_done()), self.results.len());
        let out = self.out.map_or("-".to_string(), |turn| turn.address.to_string());
        format!("ok done={done} turns={turns} out={out} results={}", if turns == 0 { "-" } else { &self.results })
    }

    /// Hears of a call by its words and of its answer; a bad line has nothing to tell.
    pub fn hear(&mut self, words: &[&str], answer: &str) {
        match words {
            ["desk.new"] => *self = Roll { faults: std::mem::take(&mut self.faults), ..Roll::new() },
            ["scan.new", job] => {
                self.old.extend(self.out.take().map(|turn| turn.address));
                self.results.clear();
                self.job = Some(parsed(job));
            }
            ["scan.step", clock, buf] => self.stepped(parsed(clock), buf, answer),
            ["scan.dump"] if answer != self.dump() => {
                self.fault(format!("\"{answer}\" is shown where \"{}\" is right", self.dump()))
            }
            ["desk.dump"] => self.shown(answer),
            _ => (),
        }
        let (way, addresses) = closed(words[0], answer);
        for address in addresses {
            self.old.remove(&address);
            if self.is_out_on(address) {
                self.out = None;
                self.finished(way, answer);
            }
        }
    }

    /// A turn's ticket was closed in this way.
    fn finished(&mut self, way: &str, answer: &str) {
        self.results.push(match (way, field(answer, "type=")) {
            ("booked", Some(8)) => '1',
            ("booked", Some(0..=2)) => '2',
            ("booked", _) => '?',
            _ => 'a',
        });
        if self.results.len() > TURNS || self.results.ends_with('?') {
            self.fault(format!("turn {} ended with \"{answer}\"", self.results.len()));
        }
    }

    /// The scan was to be taken on.
    fn stepped(&mut self, clock: u32, buf: &str, answer: &str) {
        let right = match (self.job, self.out) {
            (None, _) => "no scan".to_string(),
            (_, Some(turn)) => format!("ok waiting={} buf={buf}", turn.address),
            _ if self.is_done() => format!("ok done=1 buf={buf}"),
            (Some(job), None) => self.asked(job, clock, buf, answer),
        };
        if answer != right {
            self.fault(format!("a step is answered \"{answer}\" where \"{right}\" is right"));
        }
    }

    /// The next turn's ticket was asked for, and opened or refused. What is right then, by the address that was given
    /// and the count that was told, or by the number.
    fn asked(&mut self, job: u32, clock: u32, buf: &str, answer: &str) -> String {
        let (module, count) = (self.module(), field::<u8>(answer, "count=").unwrap_or(0));
        match field(answer, "address=") {
            _ if job == 0 => format!("no 10 count=0 buf={buf}"),
            Some(address) => {
                let asking = Message { dest: module, source: address, type_no: 4, register: ASKED, data: Vec::new() };
                let telegram = asking.telegram();
                let (length, rest) = (telegram.len(), buf.get(2 * telegram.len()..).unwrap_or("too short"));
                self.out = Some(Turn { address, module, opened: clock });
                format!("ok address={address} module={module} n={length} count={count} buf={}{rest}", hex(&telegram))
            }
            None if answer.starts_with("no 16 ") => format!("no 16 count={count} buf={buf}"),
            None => format!("no 15 count=95 buf={buf}"),
        }
    }

    /// The desk was shown: it must have the ticket that is out.
    fn shown(&mut self, answer: &str) {
        if let (Some(job), Some(Turn { address, module, opened })) = (self.job, self.out) {
            let ticket = format!("{address}:{job}:{module}:4:{ASKED}:{WAIT}:{opened}:0");
            let tickets = answer.split(' ').find_map(|word| word.strip_prefix("tickets=")).unwrap_or("");
            if !tickets.split(',').any(|held| held == ticket) {
                self.fault(format!("the desk does not have {ticket}"));
            }
        }
    }

    /// Keeps what went wrong, to be told.
    fn fault(&mut self, fault: String) {
        if self.faults.len() < MOST_FAULTS {
            self.faults.push(fault);
        }
    }
}
