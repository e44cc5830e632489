//! What a script's calls and answers tell of the line tally: which lines were counted, up to which numbers, and which
//! steps were refused 76 or 60. A number that is not the count of its lines, or a step that was refused or done though
//! it should not have been, is told as wrong.

use crate::calls::{hex, unhex};
use crate::listing::list;
use crate::subject::{Subject, Times, Wanted};
use crate::telegram::{No, START};

/// The sorts of lines in the order of their numbers, and as the listing names them.
pub const SORTS: [&str; 3] = ["read", "refused", "dropped"];
const SAID: [&str; 3] = ["ok", "refused", "dropped"];
/// What must have been met of lines that were counted.
const LINES: [&str; 9] = [
    "ok",
    "refused 3",
    "refused 4",
    "refused 5",
    "refused 7",
    "refused 8",
    "refused 9",
    "dropped",
    "several of one chunk",
];
/// What must have been met of steps that were refused 76: by which number, and where.
const FULL: [&str; 9] = [
    "read",
    "refused",
    "dropped",
    "the first step",
    "after other lines",
    "a frame from before",
    "a frame over 494",
    "again",
    "again further on",
];
/// What must have been met of steps that were refused 76 though they would be refused 60 as well.
const BOTH: [&str; 5] = ["read", "refused", "dropped", "its line has a place", "its line has none"];
/// What must have been met of steps that were refused 60 while some number was full.
const PLACE: [&str; 3] = ["no line", "another's number", "a later line's number"];
/// What must have been met of chunks without a line while all three numbers were full.
const NO_LINE: [&str; 4] = ["no bytes", "outside of frames", "opens a frame", "within a frame"];
/// What must have been met of the tally when it was asked for.
const SHOWN: [&str; 6] = ["after 76", "after 60", "after rx.new", "after desk.new", "a frame is open", "all full"];
/// What must have been met, under nine heads.
const WANTED: [(&str, &[&str]); 9] = [
    ("line", &LINES),
    ("up to the largest", &SORTS),
    ("while another is full", &SORTS),
    ("76", &FULL),
    ("76 ahead of 60", &BOTH),
    ("60", &PLACE),
    ("no line", &NO_LINE),
    ("set", &["cleared", "all full", "one full", "others", "a frame is open"]),
    ("get", &SHOWN),
];
/// So many faults are told; others go untold.
const MOST_FAULTS: usize = 5;

/// The bytes of the receiver and the numbers of the tally as calls and answers tell them, and how often each thing was
/// met.
#[derive(Default)]
pub struct Tallies {
    /// The place of the first byte since the receiver was made, and the bytes taken since.
    first: u64,
    fed: Vec<u8>,
    numbers: [u32; 3],
    /// The number that the latest chunk was refused with, and how many lines there were then.
    refused: Option<(No, usize)>,
    /// What made something anew since the tally was asked for.
    anew: Vec<&'static str>,
    times: Times,
    faults: Vec<String>,
}

impl Subject for Tallies {
    const NAME: &'static str = "tally, ";
    const WANTED: Wanted = &WANTED;

    fn fresh() -> Tallies {
        Tallies::default()
    }

    /// Hears of a call and its answer.
    fn hear(&mut self, call: &str, answer: &str) {
        let words: Vec<&str> = call.split(' ').collect();
        match words[..] {
            _ if answer == "bad line" => (),
            ["desk.new"] => self.anew.push("after desk.new"),
            ["rx.new", place] => {
                self.first = place.parse().unwrap_or(0);
                self.fed.clear();
                self.refused = None;
                self.anew.push("after rx.new");
            }
            ["rx.feed", chunk] => {
                if let (Some(chunk), Some(told)) = (unhex(chunk.as_bytes()), told(chunk, answer)) {
                    self.taken(&chunk, told);
                }
            }
            ["tally.set", read, refused, dropped] => {
                self.numbers = [read, refused, dropped].map(|number| number.parse().unwrap_or(0));
                self.was_set();
            }
            ["tally.get"] => self.shown(answer),
            _ => (),
        }
    }

    fn times(&mut self) -> &mut Times {
        &mut self.times
    }

    fn faults(&self) -> Vec<String> {
        self.faults.iter().take(MOST_FAULTS).map(|fault| format!("tally: {fault}, which must not occur")).collect()
    }
}

impl Tallies {
    /// Whether a frame is open.
    fn is_open(&self) -> bool {
        is_open(&self.fed)
    }

    /// How many numbers are full.
    fn full(&self) -> usize {
        self.numbers.iter().filter(|number| **number == u32::MAX).count()
    }

    /// The tally was set.
    fn was_set(&mut self) {
        let thing = match (self.numbers, self.full()) {
            ([0, 0, 0], _) => "cleared",
            (_, 3) => "all full",
            (_, 1) => "one full",
            _ => "others",
        };
        self.count("set", thing);
        self.count_if(self.is_open(), "set", "a frame is open");
    }

    /// The tally was asked for.
    fn shown(&mut self, answer: &str) {
        let [read, refused, dropped] = self.numbers;
        let right = format!("ok read={read} refused={refused} dropped={dropped}");
        if answer != right {
            self.faults.push(format!("\"{answer}\" is told where \"{right}\" is right"));
        }
        self.count_if(matches!(self.refused, Some((76, _))), "get", "after 76");
        self.count_if(matches!(self.refused, Some((60, _))), "get", "after 60");
        self.count_if(self.is_open(), "get", "a frame is open");
        self.count_if(self.full() == 3, "get", "all full");
        std::mem::take(&mut self.anew).into_iter().for_each(|made| self.count("get", made));
    }

    /// A chunk was offered, and so many bytes of it were taken with these lines, before this number if it was refused.
    fn taken(&mut self, chunk: &[u8], Told { number, taken, lines }: Told) {
        let before = self.fed.clone();
        let (chunk_end, end) = (before.len() + chunk.len(), before.len() + taken);
        let has_place = self.first.checked_add(chunk_end as u64).is_some();
        lines.iter().for_each(|line| self.line(line));
        self.count_if(lines.len() > 1, "line", "several of one chunk");
        if lines.is_empty() && number.is_none() && self.full() == 3 {
            self.no_line(chunk);
        }
        let joined = [&before, chunk].concat();
        self.fed = joined[..end].to_vec();
        let so_far = all_lines(&self.fed).len();
        if self.is_cut_wrongly(&before, &lines, number) {
            self.faults.push(format!("{taken} bytes and {lines:?} are told of {}", hex(chunk)));
        }
        let next: Option<usize> = all_lines(&joined).get(so_far).and_then(|line| sort(line));
        let is_full = next.map_or(false, |next| self.numbers[next] == u32::MAX);
        let right = match (is_full, has_place) {
            (true, _) => Some(76),
            (false, false) => Some(60),
            (false, true) => None,
        };
        if number != right {
            self.faults.push(format!("a chunk is answered {number:?} where {right:?} is right"));
        }
        match (number, next) {
            (Some(76), Some(next)) => self.told_76(&joined, before.len(), next, so_far, has_place),
            (Some(60), next) => self.told_60(&joined, next, so_far),
            _ => (),
        }
        self.refused = number.map(|number| (number, so_far)).or(self.refused.filter(|_| taken == 0));
    }

    /// Whether what was told of a chunk is not what all bytes joined say: other lines, or bytes taken behind the last of
    /// them though the step was refused.
    fn is_cut_wrongly(&self, before: &[u8], lines: &[&str], number: Option<No>) -> bool {
        let (old, new) = (all_lines(before), all_lines(&self.fed));
        let last = self.fed.len().saturating_sub(1);
        let is_behind = self.fed.len() > before.len() && all_lines(&self.fed[..last]).len() == new.len();
        let told: Vec<Option<usize>> = lines.iter().map(|line| sort(line)).collect();
        let right: Vec<Option<usize>> = new.iter().skip(old.len()).map(|line| sort(line)).collect();
        told != right || (number.is_some() && is_behind)
    }

    /// A line was told, and is counted.
    fn line(&mut self, line: &str) {
        let said: Vec<&str> = line.split(' ').skip(2).collect();
        let sort = match sort(line) {
            Some(sort) => sort,
            None => return self.faults.push(format!("\"{line}\" is told")),
        };
        let is_other_full = (0..3).any(|other| other != sort && self.numbers[other] == u32::MAX);
        match self.numbers[sort].checked_add(1) {
            Some(number) => self.numbers[sort] = number,
            None => self.faults.push(format!("\"{line}\" is told though its number is full")),
        }
        let is_refused = said[0] == "refused";
        self.count("line", said[..if is_refused { 2 } else { 1 }].join(" ").as_str());
        self.count_if(self.numbers[sort] == u32::MAX, "up to the largest", SORTS[sort]);
        self.count_if(is_other_full, "while another is full", SORTS[sort]);
    }

    /// A chunk was taken without a line while all numbers were full.
    fn no_line(&mut self, chunk: &[u8]) {
        let thing = match (self.is_open(), chunk.contains(&START)) {
            _ if chunk.is_empty() => "no bytes",
            (true, _) => "within a frame",
            (false, true) => "opens a frame",
            (false, false) => "outside of frames",
        };
        self.count("no line", thing);
    }

    /// A step was refused 76 after so many lines: that of a line of this sort, in a chunk that began so far in the joined
    /// bytes.
    fn told_76(&mut self, joined: &[u8], chunk: usize, sort: usize, so_far: usize, has_place: bool) {
        let (line, is_first) = (all_lines(joined)[so_far].clone(), self.fed.len() == chunk);
        let start = line.split(' ').nth(1).and_then(|place| place.parse().ok()).unwrap_or(0);
        self.count("76", SORTS[sort]);
        self.count("76", if is_first { "the first step" } else { "after other lines" });
        self.count_if(start < chunk, "76", "a frame from before");
        self.count_if(line.ends_with("refused 5"), "76", "a frame over 494");
        self.count_if(self.refused == Some((76, so_far)) && is_first, "76", "again");
        self.count_if(matches!(self.refused, Some((76, lines)) if lines < so_far), "76", "again further on");
        if !has_place {
            let end = (self.fed.len()..=joined.len()).find(|end| all_lines(&joined[..*end]).len() > so_far);
            let has_end = end.map_or(false, |end| self.first.checked_add(end as u64).is_some());
            self.count("76 ahead of 60", SORTS[sort]);
            self.count("76 ahead of 60", if has_end { "its line has a place" } else { "its line has none" });
        }
    }

    /// A chunk was refused 60 after so many lines, the next line being of this sort.
    fn told_60(&mut self, joined: &[u8], next: Option<usize>, so_far: usize) {
        let later = all_lines(joined).iter().skip(so_far + 1).filter_map(|line| sort(line)).collect::<Vec<usize>>();
        let is_full = |sort: &usize| self.numbers[*sort] == u32::MAX;
        let (is_another, is_later) = (next.is_some() && self.full() > 0, later.iter().any(is_full));
        self.count_if(next.is_none() && self.full() == 3, "60", "no line");
        self.count_if(is_another, "60", "another's number");
        self.count_if(is_later, "60", "a later line's number");
    }
}

/// What an answer to `rx.feed` tells of a chunk: the number it was refused with, how many of its bytes were taken, and
/// their lines.
pub struct Told<'a> {
    pub number: Option<No>,
    pub taken: usize,
    pub lines: Vec<&'a str>,
}

/// The same of this chunk and this answer, if it is one.
pub fn told<'a>(chunk: &str, answer: &'a str) -> Option<Told<'a>> {
    let (head, lines) = answer.split_once("lines=")?;
    let words: Vec<&str> = head.split_whitespace().collect();
    let length = if chunk == "-" { 0 } else { chunk.len() / 2 };
    let (number, taken) = match words[..] {
        ["ok"] => (None, length),
        ["no", number, taken] => (Some(number.parse().ok()?), taken.strip_prefix("taken=")?.parse().ok()?),
        _ => return None,
    };
    Some(Told { number, taken, lines: lines.split(';').filter(|line| !line.is_empty()).collect() })
}

/// The lines of these bytes in one reading of them, but for that of an open frame; their places are from 0.
pub fn all_lines(bytes: &[u8]) -> Vec<String> {
    list(bytes).lines().filter(|line| sort(line).is_some()).map(str::to_string).collect()
}

/// The sort of a line that is counted.
pub fn sort(line: &str) -> Option<usize> {
    let said = line.strip_prefix("at ")?.split(' ').nth(1)?;
    SAID.iter().position(|known| *known == said)
}

/// Whether a frame is open after these bytes.
fn is_open(bytes: &[u8]) -> bool {
    list(bytes).lines().any(|line| line.ends_with(" open"))
}
