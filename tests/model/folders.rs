//! What a script's calls and answers tell of folders: whose folder each opening, joining and grant asked for, behind
//! which numbers 75 stands and which it goes ahead of, and what each way to close a ticket left of its folder. A folder
//! that two jobs hold, or a 75 without need, is told as wrong.

use crate::dues::closed;
use crate::holders::Holders;
use crate::queue::field;
use crate::rests::{opens, parsed};
use crate::subject::{Subject, Times, Wanted};
use std::collections::{BTreeMap, BTreeSet};

/// What must have been met of folders that a ticket was opened on, and likewise of those that one was granted on.
/// "Before": another job's last ticket there was closed so.
const FREE: [&str; 11] = [
    "none, as another's",
    "nobody's",
    "its own",
    "4294967295",
    "like another's in 16 bits",
    "another waits with it",
    "before: booked",
    "before: cancelled",
    "before: expired",
    "before: expired by expall",
    "before: a desk made anew",
];
/// What must have been met of folders that were refused, and likewise of those whose request was taken out.
const HELD: [&str; 7] = [
    "one ticket there",
    "more there",
    "the last of more",
    "a granted one there",
    "4294967295",
    "like none in 16 bits",
    "jobs alike in 16 bits",
];
/// What must have been met where a number behind 75 was told.
const BEHIND: [&str; 3] = ["none, as another's", "nobody's", "its own"];
/// What must have been met of folders that requests joined with.
const JOINED: [&str; 6] =
    ["none, as another's", "nobody's", "its own", "another's", "another waits with it", "4294967295"];
/// What must have been met of the folders of tickets that were closed in each way.
const CLOSED: [&str; 4] = ["none", "the last there", "others stay", "4294967295"];
/// What must have been met, under sixteen heads.
const WANTED: [(&str, &[&str]); 16] = [
    ("opened", &FREE),
    ("granted", &FREE),
    ("75", &HELD),
    ("taken out", &HELD),
    ("ahead of 75", &["10", "11", "12", "13", "14"]),
    ("15", &BEHIND),
    ("15 at a grant", &BEHIND),
    ("16", &BEHIND),
    ("joined", &JOINED),
    ("since it joined", &["another's, granted", "another's, taken out", "free, taken out"]),
    ("withdrawn", &["another's"]),
    ("booked", &CLOSED),
    ("cancelled", &CLOSED),
    ("expired", &CLOSED),
    ("expired by expall", &CLOSED),
    ("bad line", &["desk.open", "lane.join"]),
];
/// A folder one past its type: a line that has it is no call.
const TOO_LARGE: &str = "4294967296";

/// Who holds each folder, what else there is to know of it, and how often each thing was met.
pub struct Folders {
    holders: Holders,
    /// How the last ticket on a folder was closed, and whose it was.
    before: BTreeMap<u32, (&'static str, u32)>,
    /// The folders whose holder has closed a ticket there and has another.
    lessened: BTreeSet<u32>,
    /// The addresses whose last ticket a grant opened.
    granted: BTreeSet<u8>,
    /// The requests, by the number of their joining, whose folder was another's then.
    joined_held: BTreeSet<usize>,
    times: Times,
}

impl Subject for Folders {
    const NAME: &'static str = "folder, ";
    const WANTED: Wanted = &WANTED;

    /// A fresh desk with fresh lanes, nothing met.
    fn fresh() -> Folders {
        Folders {
            holders: Holders::new(),
            before: BTreeMap::new(),
            lessened: BTreeSet::new(),
            granted: BTreeSet::new(),
            joined_held: BTreeSet::new(),
            times: Times::new(),
        }
    }

    /// Hears of a call and its answer: what there is to say of it by the holders before it, then what it left.
    fn hear(&mut self, call: &str, answer: &str) {
        let words: Vec<&str> = call.split(' ').collect();
        if answer == "bad line" {
            return self.count_if(words.contains(&TOO_LARGE), "bad line", words[0]);
        }
        let number = answer.strip_prefix("no ").and_then(|rest| rest.split(' ').next());
        match words[..] {
            ["desk.new"] => self.anew(),
            ["lane.join", job, .., folder] if number.is_none() => self.joined(parsed(job), parsed(folder)),
            ["lane.withdraw", job, place] if number.is_none() => self.withdrawn(parsed(job), parsed(place) as usize),
            [name, ..] if opens(name) => self.asked(&words, number, answer),
            _ => (),
        }
        let (way, addresses) = closed(words[0], answer);
        let tickets: Vec<(u32, u32)> =
            addresses.iter().filter_map(|address| self.holders.tickets.get(address).copied()).collect();
        self.holders.hear(&words, answer);
        tickets.into_iter().for_each(|(job, folder)| self.left(way, job, folder));
    }

    fn times(&mut self) -> &mut Times {
        &mut self.times
    }

    fn faults(&self) -> Vec<String> {
        self.holders.faults.iter().map(|fault| format!("folder: {fault}, which must not occur")).collect()
    }
}

impl Folders {
    /// A desk is made anew: only the counts stay, and whose each folder was.
    fn anew(&mut self) {
        let held = self.holders.tickets.values().filter(|(_, folder)| *folder != 0);
        self.before = held.map(|(job, folder)| (*folder, ("a desk made anew", *job))).collect();
        self.lessened.clear();
        self.granted.clear();
        self.joined_held.clear();
    }

    /// Whether another job than this one holds a folder.
    fn is_anothers(&self, job: u32, folder: u32) -> bool {
        self.holders.holder(folder).map_or(false, |holder| holder != job)
    }

    /// Counts whose a folder is that this job asks for.
    fn whose(&mut self, head: &str, job: u32, folder: u32) {
        let (holder, count) = (self.holders.holder(folder), self.holders.count(folder));
        let (is_anothers, is_lessened) = (self.is_anothers(job, folder), self.lessened.contains(&folder));
        let is_nobodys = folder != 0 && holder.is_none();
        let has_another = |like: &dyn Fn(u32) -> bool| {
            self.holders.tickets.values().any(|(other, held)| *other != job && like(*held))
        };
        let is_like = |held: u32| held != 0 && folder != 0 && held != folder && is_alike(held, folder);
        let mut waiting = self.holders.queue.lanes.iter().flatten();
        let mut there = self.holders.tickets.iter().filter(|(_, (_, held))| *held == folder);
        let met = [
            (folder == 0 && has_another(&|held| held == 0), "none, as another's"),
            (is_nobodys, "nobody's"),
            (holder == Some(job), "its own"),
            (is_anothers, "another's"),
            (folder == u32::MAX, "4294967295"),
            (folder != 0 && is_alike(folder, 0), "like none in 16 bits"),
            (has_another(&is_like), "like another's in 16 bits"),
            (folder != 0 && waiting.any(|it| it.folder == folder && it.job != job), "another waits with it"),
            (is_anothers && count == 1 && !is_lessened, "one ticket there"),
            (is_anothers && count == 1 && is_lessened, "the last of more"),
            (is_anothers && count > 1, "more there"),
            (is_anothers && there.any(|(address, _)| self.granted.contains(address)), "a granted one there"),
            (is_anothers && holder.map_or(false, |holder| is_alike(holder, job)), "jobs alike in 16 bits"),
        ];
        let before = self.before.get(&folder).copied().filter(|(_, other)| is_nobodys && *other != job);
        met.into_iter().for_each(|(is_met, thing)| self.count_if(is_met, head, thing));
        if let Some((way, _)) = before {
            self.count(head, &format!("before: {way}"));
        }
    }

    /// A ticket was asked for, and given an address or refused with this number; a step of the scan may also say that
    /// it waits or is done.
    fn asked(&mut self, words: &[&str], number: Option<&str>, answer: &str) {
        let is_asked = number.is_some() || field::<u8>(answer, "address=").is_some();
        let (job, folder) = match self.holders.asked(words).filter(|_| is_asked) {
            Some(asked) => asked,
            None => return,
        };
        let is_grant = words[0] == "lane.grant";
        let head = match (number, is_grant) {
            (None, false) => "opened",
            (None, true) => "granted",
            (Some("75"), true) => "taken out",
            (Some("15"), true) => "15 at a grant",
            (Some(number), _) => number,
        };
        self.whose(head, job, folder);
        self.count_if(self.is_anothers(job, folder), "ahead of 75", head);
        if is_grant {
            let was_held = self.holders.queue.next().map_or(false, |next| self.joined_held.contains(&next.serial));
            let thing = format!("{}, {head}", if was_held { "another's" } else { "free" });
            self.count("since it joined", &thing);
        }
        if let Some(address) = field(answer, "address=") {
            self.granted.remove(&address);
            self.granted.extend(is_grant.then_some(address));
        }
    }

    /// A request of this job has joined with this folder.
    fn joined(&mut self, job: u32, folder: u32) {
        self.whose("joined", job, folder);
        if self.is_anothers(job, folder) {
            self.joined_held.insert(self.holders.queue.joined);
        }
    }

    /// The request at this place in a job's lane was withdrawn.
    fn withdrawn(&mut self, job: u32, place: usize) {
        let queue = &self.holders.queue;
        let withdrawn = queue.lane_of(job).and_then(|lane| queue.lanes[lane - 1].get(place.wrapping_sub(1)));
        if let Some(folder) = withdrawn.map(|request| request.folder) {
            self.whose("withdrawn", job, folder);
        }
    }

    /// A ticket of this job on this folder was closed in this way: who has the folder now.
    fn left(&mut self, way: &'static str, job: u32, folder: u32) {
        self.count_if(folder == 0, way, "none");
        self.count_if(folder == u32::MAX, way, "4294967295");
        if self.holders.holder(folder).is_some() {
            self.count(way, "others stay");
            self.lessened.insert(folder);
        } else if folder != 0 {
            self.count(way, "the last there");
            self.lessened.remove(&folder);
            self.before.insert(folder, (way, job));
        }
    }
}

/// Whether two numbers are the same in 16 bits.
fn is_alike(one: u32, other: u32) -> bool {
    one % 65536 == other % 65536
}
