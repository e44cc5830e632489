//! The tally held against the listing: captures in chunks, with numbers near their largest and places near the last
//! one. What each chunk must answer is looked up in one reading of all bytes joined, line by line; each number is the
//! count of its lines since it was set, on top of what it was set to.

use crate::calls::{hex, Rehearsal};
use crate::capture;
use crate::chunks::{cut_at, places};
use crate::random::Random;
use crate::tallies::{all_lines, sort};

/// At how many places a capture is cut at most.
const MOST_PLACES: usize = 6;
/// Numbers that are full or nearly, and such as are far from it.
const NUMBERS: [u32; 6] = [u32::MAX, u32::MAX, u32::MAX - 1, u32::MAX - 2, 0, 1 << 31];

/// A capture and its lines, each with how many bytes there are up to the one that ends it, and its sort.
struct Joined {
    capture: Vec<u8>,
    first: u64,
    lines: Vec<(usize, usize, String)>,
}

impl Joined {
    /// One reading of these bytes, the first of which has that place.
    fn new(capture: Vec<u8>, first: u64) -> Joined {
        let mut lines = Vec::new();
        for length in 0..=capture.len() {
            for line in all_lines(&capture[..length]).iter().skip(lines.len()) {
                let sort = sort(line).expect("a line that is counted");
                lines.push((length, sort, placed(line, first)));
            }
        }
        Joined { capture, first, lines }
    }

    /// The first line that ends behind so many bytes.
    fn next(&self, taken: usize) -> Option<&(usize, usize, String)> {
        self.lines.iter().find(|(end, _, _)| *end > taken)
    }
}

/// A line whose place is counted from this one.
fn placed(line: &str, first: u64) -> String {
    let words: Vec<&str> = line.splitn(3, ' ').collect();
    let place: u64 = words[1].parse().unwrap_or(0);
    format!("at {} {}", u128::from(first) + u128::from(place), words[2])
}

/// A capture under way: the rehearsal, how many bytes are taken, what the tally must be, and what was met.
struct Run<'a> {
    rehearsal: Rehearsal,
    joined: &'a Joined,
    taken: usize,
    numbers: [u32; 3],
    chunks: usize,
    counted: usize,
    full: usize,
    past: usize,
}

impl Run<'_> {
    /// Answers a line, and compares that with what it must be.
    fn call(&mut self, line: &str, right: &str) -> Result<(), String> {
        let answer = self.rehearsal.answer(line.as_bytes());
        match answer == right {
            true => Ok(()),
            false => Err(format!("{line} answers {answer:?} where {right:?} is right")),
        }
    }

    /// Sets the tally.
    fn set(&mut self, numbers: [u32; 3]) -> Result<(), String> {
        self.numbers = numbers;
        let [read, refused, dropped] = numbers;
        self.call(&format!("tally.set {read} {refused} {dropped}"), "ok")
    }

    /// The tally must be what was counted.
    fn get(&mut self) -> Result<(), String> {
        let [read, refused, dropped] = self.numbers;
        self.call("tally.get", &format!("ok read={read} refused={refused} dropped={dropped}"))
    }

    /// Feeds what is left of a chunk that ends behind so many bytes, and tells the number it is refused with.
    fn feed(&mut self, chunk_end: usize) -> Result<Option<u32>, String> {
        let (start, mut lines, mut number) = (self.taken, Vec::new(), None);
        let is_past = u128::from(self.joined.first) + chunk_end as u128 > u128::from(u64::MAX);
        while number.is_none() && (self.taken < chunk_end || self.taken == start && is_past) {
            let ending = self.joined.next(self.taken).filter(|(end, _, _)| *end <= chunk_end);
            match ending {
                Some((_, sort, _)) if self.numbers[*sort] == u32::MAX => number = Some(76),
                _ if is_past => number = Some(60),
                Some((end, sort, line)) => {
                    self.numbers[*sort] += 1;
                    self.taken = *end;
                    lines.push(line.clone());
                }
                None => self.taken = chunk_end,
            }
        }
        (self.chunks, self.counted) = (self.chunks + 1, self.counted + lines.len());
        let said = number.map_or("ok".to_string(), |number| format!("no {number} taken={}", self.taken - start));
        let call = format!("rx.feed {}", hex(&self.joined.capture[start..chunk_end]));
        self.call(&call, &format!("{said} lines={}", lines.join(";")))?;
        self.get()?;
        Ok(number)
    }

    /// Feeds a whole chunk. After each 76 it is tried again, and then with other numbers; a chunk refused 60 is left.
    /// Tells whether all of it was taken.
    fn feed_all(&mut self, random: &mut Random, chunk_end: usize) -> Result<bool, String> {
        loop {
            match self.feed(chunk_end)? {
                None => return Ok(true),
                Some(60) => {
                    self.past += 1;
                    return Ok(false);
                }
                Some(_) => {
                    self.full += 1;
                    self.feed(chunk_end)?;
                    let lower =
                        self.numbers.map(|number| if number == u32::MAX { random.pick(&[0, 5]) } else { number });
                    self.set(lower)?;
                }
            }
        }
    }
}

/// What is told of so many captures, or the first fault.
fn told(seed: u64, captures: u64) -> Result<String, String> {
    let mut random = Random::new(seed);
    let (mut chunks, mut counted, mut full, mut past) = (0, 0, 0, 0);
    for _ in 0..captures {
        let capture = capture::short(random.bits());
        let short = random.below(capture.len() + 1) as u64;
        let first = random.pick(&[0, 0, 4294967000, u64::MAX - capture.len() as u64, u64::MAX - short]);
        let joined = Joined::new(capture, first);
        let (rehearsal, taken, numbers) = (Rehearsal::new(), 0, [0; 3]);
        let mut run = Run { rehearsal, joined: &joined, taken, numbers, chunks: 0, counted: 0, full: 0, past: 0 };
        run.call(&format!("rx.new {first}"), "ok")?;
        run.get()?;
        run.set([(); 3].map(|()| random.pick(&NUMBERS)))?;
        let places = places(&mut random, &joined.capture, MOST_PLACES);
        for chunk in cut_at(&joined.capture, &places) {
            let chunk_end = run.taken + chunk.len();
            if !run.feed_all(&mut random, chunk_end)? {
                break;
            }
        }
        (chunks, counted) = (chunks + run.chunks, counted + run.counted);
        (full, past) = (full + run.full, past + run.past);
    }
    match full.min(past) {
        0 => Err("no 76 or no 60 was met".to_string()),
        _ => Ok(format!(
            "tallies: seed {seed}, {captures} captures, {chunks} chunks, {counted} lines counted, {full} answered 76 and \
             {past} answered 60, no difference"
        )),
    }
}

/// Holds the tally against the listing on so many captures; tells how many chunks and lines that were, or the first
/// fault.
pub fn report(seed: u64, captures: u64) -> (String, bool) {
    match told(seed, captures) {
        Ok(told) => (format!("{told}\n"), true),
        Err(fault) => (format!("FAILED tallies: {fault}\n"), false),
    }
}
