//! What a script's calls and answers tell of number 3's place: where the first faulty 94 stood and what stood around
//! it, in each call that reads a frame and in the receiver's lines.

use crate::calls::unhex;
use crate::subject::{Subject, Times, Wanted};
use crate::tallies;
use crate::telegram::{CODES, END, LONGEST_TELEGRAM, START, SUBSTITUTION};

/// What must have been met in each call that reads a frame.
const READING: [&str; 8] = [
    "right after the start",
    "just before the end",
    "two faulty",
    "after a right pair",
    "5e 5e and a code",
    "past 255",
    "past 494",
    "2 ahead",
];
/// What must have been met in the receiver's lines.
const FED: [&str; 10] = [
    "right after the start",
    "just before the end",
    "two faulty",
    "after a right pair",
    "5e 5e and a code",
    "past 255",
    "493 bytes",
    "494 bytes",
    "495 bytes are 5",
    "cut behind the 94",
];
/// What must have been met, by call.
const WANTED: [(&str, &[&str]); 4] =
    [("read", &READING), ("bench.tele", &READING), ("desk.reply", &READING), ("rx.feed", &FED)];

/// The bytes that the receiver was fed since it was made, and how often each thing was met.
#[derive(Default)]
pub struct Places {
    /// The place of the first of those bytes.
    first: u64,
    fed: Vec<u8>,
    /// How many of them came before each chunk.
    borders: Vec<usize>,
    times: Times,
}

impl Subject for Places {
    const NAME: &'static str = "3 in ";
    const WANTED: Wanted = &WANTED;

    fn fresh() -> Places {
        Places::default()
    }

    /// Hears of a call and its answer; only calls that read a frame, and those on the receiver, have something to tell.
    fn hear(&mut self, call: &str, answer: &str) {
        let words: Vec<&str> = call.split(' ').collect();
        match words[..] {
            ["rx.new", place] if answer == "ok" => {
                let times = std::mem::take(&mut self.times);
                *self = Places { first: place.parse().unwrap_or(0), times, ..Places::default() };
            }
            ["rx.feed", chunk] => {
                if let (Some(bytes), Some(told)) = (unhex(chunk.as_bytes()), tallies::told(chunk, answer)) {
                    self.borders.push(self.fed.len());
                    self.fed.extend(&bytes[..told.taken]);
                    told.lines.iter().for_each(|line| self.told(line));
                }
            }
            [name, frame, _] => {
                let known = WANTED.iter().map(|(known, _)| *known).find(|known| *known == name);
                if let (Some(name), Some(frame)) = (known, unhex(frame.as_bytes())) {
                    self.answered(name, &frame, answer);
                }
            }
            _ => (),
        }
    }

    fn times(&mut self) -> &mut Times {
        &mut self.times
    }
}

impl Places {
    /// A frame was refused 3 with its place, or 2 though it also has a fault of 3.
    fn answered(&mut self, name: &'static str, frame: &[u8], answer: &str) {
        if let Some(place) = answer.strip_prefix("no 3 place=").and_then(|rest| rest.split(' ').next()?.parse().ok()) {
            things(frame, place).into_iter().for_each(|thing| self.count(name, thing));
        }
        if answer.starts_with("no 2 ") && faulty(frame).any(|place| ![START, END].contains(&frame[place + 1])) {
            self.count(name, "2 ahead");
        }
    }

    /// The receiver told this line: a frame was refused 3 with its place, or for its length though it also has a fault
    /// of 3.
    fn told(&mut self, line: &str) {
        let words: Vec<&str> = line.split(' ').collect();
        let (at, place) = match words[..] {
            ["at", at, "refused", "3", "in", place] => (at, place.parse().ok()),
            ["at", at, "refused", "5"] => (at, None),
            _ => return,
        };
        let start = at.parse().map_or(0, |at: u64| (at - self.first) as usize);
        let frame: Vec<u8> = self.fed[start..].iter().take_while(|byte| **byte != END).copied().chain([END]).collect();
        match place {
            Some(place) => self.placed(&frame, start, place),
            None if frame.len() == LONGEST_TELEGRAM + 1 && faulty(&frame).next().is_some() => {
                self.count("rx.feed", "495 bytes are 5")
            }
            None => (),
        }
    }

    /// The receiver told 3 of this frame, which starts so many bytes after the first, with that place.
    fn placed(&mut self, frame: &[u8], start: usize, place: usize) {
        let mut met = things(frame, place);
        met.extend((frame.len() == LONGEST_TELEGRAM - 1).then_some("493 bytes"));
        met.extend((frame.len() == LONGEST_TELEGRAM).then_some("494 bytes"));
        met.extend(self.borders.contains(&(start + place + 1)).then_some("cut behind the 94"));
        met.retain(|thing| FED.contains(thing));
        met.into_iter().for_each(|thing| self.count("rx.feed", thing));
    }
}

/// The places between the ends of a frame where a 94 stands without a code after it.
fn faulty(frame: &[u8]) -> impl Iterator<Item = usize> + '_ {
    (1..frame.len().saturating_sub(1)).filter(|place| frame[*place] == SUBSTITUTION && !is_code(frame, place + 1))
}

/// Whether one of the codes stands at this place.
fn is_code(frame: &[u8], place: usize) -> bool {
    frame.get(place).map_or(false, |byte| CODES.contains(byte))
}

/// What there is to say of a frame that was refused 3 with this place.
fn things(frame: &[u8], place: usize) -> Vec<&'static str> {
    let is_pair = |place: usize| frame.get(place) == Some(&SUBSTITUTION) && is_code(frame, place + 1);
    let all = [
        ("right after the start", place == 1),
        ("just before the end", place + 2 == frame.len()),
        ("two faulty", faulty(frame).count() > 1),
        ("after a right pair", (1..place).any(is_pair)),
        ("5e 5e and a code", is_pair(place + 1)),
        ("past 255", place > 255),
        ("past 494", place > LONGEST_TELEGRAM),
    ];
    all.into_iter().filter(|(_, holds)| *holds).map(|(thing, _)| thing).collect()
}
