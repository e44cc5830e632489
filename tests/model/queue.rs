//! The lanes as calls and answers tell them, and by which grant each request that waits must have been opened or taken
//! out.

use crate::lanes::LANES;
use std::str::FromStr;

/// So many requests that are late are told; others go untold.
const MOST_LATE: usize = 5;

/// A request that waits.
#[derive(Clone)]
pub struct Waiting {
    pub job: u32,
    pub wait: u32,
    pub folder: u32,
    /// The number of its joining, from 0.
    pub serial: usize,
    /// The words of its joining parted by colons, as `lane.dump` shows a request.
    pub shown: String,
    /// The number of the grant that must open it or take it out at the latest.
    pub latest: usize,
}

/// What waits, how many grants have opened something or taken something out, and the requests that were not among those
/// in time.
#[derive(Clone)]
pub struct Queue {
    /// The lane last served, from 1.
    pub last: usize,
    pub lanes: Vec<Vec<Waiting>>,
    /// How many requests have joined.
    pub joined: usize,
    pub grants: usize,
    pub late: Vec<String>,
}

impl Waiting {
    /// Its data as the call has them.
    pub fn data(&self) -> &str {
        self.shown.split(':').nth(4).unwrap_or("-")
    }
}

impl Queue {
    /// Fresh lanes.
    pub fn new() -> Queue {
        Queue { last: LANES, lanes: vec![Vec::new(); LANES], joined: 0, grants: 0, late: Vec::new() }
    }

    /// How many lanes have something waiting.
    pub fn held(&self) -> usize {
        self.lanes.iter().filter(|lane| !lane.is_empty()).count()
    }

    /// How many requests wait.
    pub fn waiting(&self) -> usize {
        self.lanes.iter().map(Vec::len).sum()
    }

    /// The number of the lane that has a request of this job waiting.
    pub fn lane_of(&self, job: u32) -> Option<usize> {
        Some(self.lanes.iter().position(|lane| lane.iter().any(|waiting| waiting.job == job))? + 1)
    }

    /// How many requests of this job wait.
    pub fn waiting_of(&self, job: u32) -> usize {
        self.lane_of(job).map_or(0, |lane| self.lanes[lane - 1].len())
    }

    /// The request that a grant would open or take out.
    pub fn next(&self) -> Option<&Waiting> {
        let (up_to_last, after_last) = self.lanes.split_at(self.last);
        after_last.iter().chain(up_to_last).find_map(|lane| lane.first())
    }

    /// The answer that `lane.dump` must give where the numbers of all calls were written without zeros before them.
    pub fn dump(&self) -> String {
        let shown = |lane: &Vec<Waiting>| match lane.is_empty() {
            true => "-".to_string(),
            false => lane.iter().map(|waiting| waiting.shown.as_str()).collect::<Vec<&str>>().join(","),
        };
        let lanes: Vec<String> = self.lanes.iter().map(shown).collect();
        format!("ok last={} lanes={}", self.last, lanes.join("|"))
    }

    /// Hears of a call by its words and of its answer, and hands over the request that it opened or took out and its
    /// lane's number, if it is a grant that did; only such a grant answers a job.
    pub fn hear(&mut self, words: &[&str], answer: &str) -> Option<(usize, Waiting)> {
        let mut granted = None;
        match (words, answer) {
            (["desk.new"], "ok") => *self = Queue { late: std::mem::take(&mut self.late), ..Queue::new() },
            (["lane.join", shown @ ..], answer) => self.join(shown, field(answer, "lane=")),
            (["lane.withdraw", job, place], "ok") => self.withdraw(number(job), number(place)),
            (["lane.grant", ..], answer) => {
                granted = field(answer, "job=").and_then(|job| self.lane_of(job)).map(|lane| self.grant(lane))
            }
            _ => (),
        }
        self.set_latest();
        granted
    }

    /// A request of these words has joined this lane, if any.
    fn join(&mut self, words: &[&str], lane: Option<usize>) {
        let lane = lane.and_then(|lane| self.lanes.get_mut(lane.wrapping_sub(1)));
        if let ([job, .., wait, folder], Some(lane)) = (words, lane) {
            let (job, wait, folder, shown) = (number(job), number(wait), number(folder), words.join(":"));
            lane.push(Waiting { job, wait, folder, serial: self.joined, shown, latest: usize::MAX });
            self.joined += 1;
        }
    }

    /// The request at this place in a job's lane was withdrawn.
    fn withdraw(&mut self, job: u32, place: usize) {
        if let Some(lane) = self.lane_of(job).filter(|_| (1..=self.waiting_of(job)).contains(&place)) {
            self.lanes[lane - 1].remove(place - 1);
        }
    }

    /// A grant has opened the oldest request of this lane or taken it out. What still waits must not be late then.
    fn grant(&mut self, lane: usize) -> (usize, Waiting) {
        self.grants += 1;
        self.last = lane;
        let served = self.lanes[lane - 1].remove(0);
        let late = self.lanes.iter().flatten().filter(|waiting| waiting.latest == self.grants);
        let told = late.map(|waiting| format!("{} still waits after grant {}", waiting.shown, self.grants));
        self.late.extend(told.take(MOST_LATE.saturating_sub(self.late.len())).collect::<Vec<String>>());
        (lane, served)
    }

    /// A request that is p-th in its lane now must be opened or taken out within 16 times p grants from now on, or
    /// sooner where it had to be sooner before.
    fn set_latest(&mut self) {
        for lane in &mut self.lanes {
            for (place, waiting) in lane.iter_mut().enumerate() {
                waiting.latest = waiting.latest.min(self.grants + LANES * (place + 1));
            }
        }
    }
}

/// The number after this name in an answer.
pub fn field<T: FromStr>(answer: &str, name: &str) -> Option<T> {
    answer.split(' ').find_map(|word| word.strip_prefix(name)?.parse().ok())
}

/// A number of a call that was answered.
fn number<T: FromStr + Default>(word: &str) -> T {
    word.parse().unwrap_or_default()
}
