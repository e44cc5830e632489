//! Who holds each folder, as calls and answers tell it, in the words of the accident: from a job's opening on a folder
//! to the closing of its last ticket there, no other job opens on that folder; it is told 75.

use crate::dues::entries;
use crate::queue::{field, Queue};
use crate::rests::{opens, parsed};
use std::collections::{BTreeMap, BTreeSet};

/// So many faults are told; others go untold.
const MOST_FAULTS: usize = 5;

/// A job that holds a folder, and the addresses of its tickets there.
struct Holder {
    job: u32,
    addresses: BTreeSet<u8>,
}

/// The open tickets and the holders as calls and answers tell them, and what went wrong.
pub struct Holders {
    /// Job and folder of the ticket on each address that has one.
    pub tickets: BTreeMap<u8, (u32, u32)>,
    holders: BTreeMap<u32, Holder>,
    /// What waits in the lanes, since a grant doesn't tell the folder.
    pub queue: Queue,
    /// The jobs of the box and of the scan, whose tickets are on no folder.
    box_job: u32,
    scan_job: u32,
    pub faults: Vec<String>,
}

impl Holders {
    /// A fresh desk with fresh lanes: nobody holds a folder.
    pub fn new() -> Holders {
        let (tickets, holders, faults) = (BTreeMap::new(), BTreeMap::new(), Vec::new());
        Holders { tickets, holders, queue: Queue::new(), box_job: 0, scan_job: 0, faults }
    }

    /// The job and the folder that a call asks a ticket for, if it does.
    pub fn asked(&self, words: &[&str]) -> Option<(u32, u32)> {
        match words {
            ["desk.open", job, .., folder, _, _] => Some((parsed(job), parsed(folder))),
            ["lane.grant", ..] => self.queue.next().map(|request| (request.job, request.folder)),
            ["scan.step", ..] => Some((self.scan_job, 0)),
            [name, ..] if opens(name) => Some((self.box_job, 0)),
            _ => None,
        }
    }

    /// The job that holds a folder, if any.
    pub fn holder(&self, folder: u32) -> Option<u32> {
        self.holders.get(&folder).map(|holder| holder.job)
    }

    /// How many tickets the job that holds a folder has there.
    pub fn count(&self, folder: u32) -> usize {
        self.holders.get(&folder).map_or(0, |holder| holder.addresses.len())
    }

    /// Hears of a call by its words and of its answer; a bad line has nothing to tell.
    pub fn hear(&mut self, words: &[&str], answer: &str) {
        match (words, self.asked(words)) {
            (["desk.new"], _) => *self = Holders { faults: std::mem::take(&mut self.faults), ..Holders::new() },
            (["varia.new", job, _], _) => self.box_job = parsed(job),
            (["scan.new", job], _) => self.scan_job = parsed(job),
            (_, Some((job, folder))) => self.answered(job, folder, answer),
            (["desk.reply", ..] | ["desk.cancel", ..] | ["desk.expire", ..], _) => {
                let told = (field(answer, "job="), field(answer, "address="), field(answer, "folder="));
                if let (Some(job), Some(address), Some(folder)) = told {
                    self.closed(job, address, folder);
                }
            }
            (["desk.expall", ..], _) => {
                entries(answer).into_iter().for_each(|(job, address, folder)| self.closed(job, address, folder))
            }
            _ => (),
        }
        self.queue.hear(words, answer);
    }

    /// A ticket was asked for, and an address given or not. 75 is told where another job holds the folder and only
    /// there, ahead of 15 and 16; where a grant tells a job, it is the one that asked.
    fn answered(&mut self, job: u32, folder: u32, answer: &str) {
        let is_held = self.holder(folder).map_or(false, |holder| holder != job);
        let is_told = |number: u32| answer.starts_with(&format!("no {number} "));
        let given = field(answer, "address=");
        if is_held && (given.is_some() || is_told(15) || is_told(16)) {
            self.fault(format!("job {job} is not told 75 on folder {folder}, which another job holds"));
        }
        if !is_held && is_told(75) {
            self.fault(format!("job {job} is told 75 on folder {folder}, which no other job holds"));
        }
        if field(answer, "job=").map_or(false, |told: u32| told != job) {
            self.fault(format!("another job is told where job {job} asked for a ticket"));
        }
        if let Some(address) = given {
            self.tickets.insert(address, (job, folder));
            if folder != 0 {
                let holder = self.holders.entry(folder).or_insert(Holder { job, addresses: BTreeSet::new() });
                holder.addresses.insert(address);
            }
        }
    }

    /// A ticket was closed, and this job and this folder were told of it.
    fn closed(&mut self, job: u32, address: u8, folder: u32) {
        if self.tickets.remove(&address) != Some((job, folder)) {
            self.fault(format!("{address} was not open for job {job} on folder {folder}, but closed so"));
        }
        self.holders.retain(|_, holder| {
            holder.addresses.remove(&address);
            !holder.addresses.is_empty()
        });
    }

    /// Keeps what went wrong, to be told.
    fn fault(&mut self, fault: String) {
        if self.faults.len() < MOST_FAULTS {
            self.faults.push(fault);
        }
    }
}
