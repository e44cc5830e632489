//! How often each call was answered in each way, and whether every way occurred.

use crate::altered::Altered;
use crate::calls::lines;
use crate::dues::Dues;
use crate::edited::Edited;
use crate::filters::Filters;
use crate::folders::Folders;
use crate::looks::Looks;
use crate::places::Places;
use crate::rests::{opens, Rests};
use crate::scans::Scans;
use crate::sheets::Sheets;
use crate::subject::Subject;
use crate::tallies::{told, Tallies};
use crate::telegram::No;
use crate::turns::Turns;
use std::collections::BTreeMap;

/// Each call with the numbers its order lists.
const ORDERS: [(&str, &[No]); 45] = [
    ("rem", &[]),
    ("read", &[1, 2, 3, 4, 5, 6, 7, 8, 9]),
    ("write", &[5, 8, 9, 6]),
    ("val.get", &[40, 41, 42]),
    ("val.put", &[40, 43, 44]),
    ("cat", &[50]),
    ("bench.new", &[34]),
    ("bench.add", &[30, 31, 32, 33]),
    ("bench.set", &[38, 43]),
    ("bench.tele", &[1, 2, 3, 4, 5, 7, 8, 9, 35, 36, 37]),
    ("bench.dump", &[]),
    ("desk.new", &[]),
    ("desk.open", &[10, 11, 12, 13, 14, 75, 15, 16]),
    ("desk.reply", &[1, 2, 3, 4, 5, 6, 7, 8, 9, 61, 17, 18, 19, 20]),
    ("desk.cancel", &[21]),
    ("desk.expire", &[22]),
    ("desk.expall", &[]),
    ("desk.dump", &[]),
    ("lane.join", &[10, 11, 12, 13, 14, 71, 72]),
    ("lane.grant", &[73, 74, 75, 15]),
    ("lane.withdraw", &[55]),
    ("lane.dump", &[]),
    ("varia.new", &[]),
    ("varia.short", &[59, 63, 10, 11, 14, 15, 16]),
    ("varia.long", &[59, 63, 10, 11, 14, 15, 16]),
    ("varia.att", &[62, 10, 11, 14, 15, 16]),
    ("varia.monitor", &[10, 11, 14, 15, 16]),
    ("varia.status", &[10, 11, 14, 15, 16]),
    ("varia.display", &[64]),
    ("varia.moving", &[]),
    ("varia.dump", &[]),
    ("scan.new", &[]),
    ("scan.step", &[10, 15, 16]),
    ("scan.dump", &[]),
    ("tally.set", &[]),
    ("tally.get", &[]),
    ("rx.new", &[]),
    ("rx.feed", &[76, 60]),
    ("rx.end", &[]),
    ("sheet.write", &[79, 68, 69, 57]),
    ("sheet.check", &[65, 66, 67, 68, 69, 70]),
    ("sheet.read", &[65, 66, 67, 68, 69, 70, 56, 57]),
    ("sheet.rem", &[80, 65, 66, 67, 68, 69, 70, 77]),
    ("sheet.remmod", &[80, 65, 66, 67, 68, 69, 70, 77]),
    ("sheet.add", &[80, 65, 66, 67, 68, 69, 70, 78, 79]),
];
/// The lines that must also have been said of frames which lie in more than one chunk.
const OVER_BORDERS: [&str; 4] = ["ok", "refused 5", "dropped", "open"];
/// What is told of each subject, from a script's calls and answers.
const SUBJECTS: [fn(&[&[u8]], &[&[u8]]) -> (String, Vec<String>); 12] = [
    Rests::report,
    Filters::report,
    Places::report,
    Sheets::report,
    Dues::report,
    Looks::report,
    Turns::report,
    Folders::report,
    Altered::report,
    Scans::report,
    Tallies::report,
    Edited::report,
];
/// Stands for a line that begins with the name of no call.
const NO_CALL: &str = "(no call)";

/// How a line was answered.
#[derive(Clone, Copy, PartialEq, Eq, PartialOrd, Ord)]
enum Way {
    Ok,
    No(No),
    BadLine,
    NoBench,
    NoBox,
    NoScan,
    Unknown,
}

type Counts = BTreeMap<(&'static str, Way), usize>;

/// The name of the call a script line begins with.
fn name(line: &[u8]) -> &'static str {
    let first = line.split(|byte| *byte == b' ').next().unwrap_or(&[]);
    ORDERS.iter().map(|(name, _)| *name).find(|name| name.as_bytes() == first).unwrap_or(NO_CALL)
}

/// The way an answer line answers a call of this name. Number 3 has a place, and no other number has one. An opening
/// has a count, and so have its numbers 10 to 16 and 75, but no other number; a step of the scan that opens nothing
/// waits or is done instead. Of the numbers only a grant's 75 has a job, and only those of a chunk have bytes taken and
/// lines. A closing has a folder, and no other answer has one.
fn way(name: &str, answer: &[u8]) -> Way {
    let text = String::from_utf8_lossy(answer);
    let words: Vec<&str> = text.split(' ').collect();
    let has = |field: &str| words.iter().any(|word| word.starts_with(field));
    let closes = ["desk.reply", "desk.cancel", "desk.expire"].contains(&name);
    let opened = ["count=", "waiting=", "done=1"].into_iter().filter(|field| has(field)).collect::<Vec<&str>>();
    let may_wait = name == "scan.step" && opened.len() == 1;
    let way = match words[..] {
        ["bad", "line"] => Way::BadLine,
        ["no", "bench"] => Way::NoBench,
        ["no", "box"] => Way::NoBox,
        ["no", "scan"] => Way::NoScan,
        ["ok", ..] => Way::Ok,
        ["no", number, ..] => number.parse().map_or(Way::Unknown, Way::No),
        _ => Way::Unknown,
    };
    match way {
        Way::Ok if opens(name) && opened != ["count="] && !may_wait => Way::Unknown,
        Way::No(_) if [has("taken="), has("lines=")] != [name == "rx.feed"; 2] => Way::Unknown,
        Way::No(no) if has("place=") != (no == 3) => Way::Unknown,
        Way::No(no) if has("count=") != (opens(name) && matches!(no, 10..=16 | 75)) => Way::Unknown,
        Way::No(no) if has("job=") != (name == "lane.grant" && no == 75) => Way::Unknown,
        way if has("folder=") != (closes && way == Way::Ok) => Way::Unknown,
        way => way,
    }
}

/// The table of a script and its answers, and whether nothing is missing from it.
pub fn count(script: &[u8], answers: &[u8]) -> (String, bool) {
    let (calls, answers) = (lines(script), lines(answers));
    let mut counts = Counts::new();
    for (call, answer) in calls.iter().zip(&answers) {
        let name = name(call);
        *counts.entry((name, way(name, answer))).or_default() += 1;
    }
    let mut complaints: Vec<String> = ORDERS.iter().flat_map(|(name, order)| missing(&counts, name, order)).collect();
    complaints
        .extend(counts.keys().filter(|(name, way)| !is_listed(name, *way)).map(|(name, way)| unlisted(name, *way)));
    let over_borders = Chunks::of(&calls, &answers).times;
    let never = OVER_BORDERS.iter().zip(over_borders).filter(|(_, times)| *times == 0);
    complaints.extend(never.map(|(line, _)| format!("over chunk borders: {line} never occurred")));
    let mut of_subjects = String::new();
    for report in SUBJECTS {
        let (lines, missing) = report(&calls, &answers);
        of_subjects += &lines;
        complaints.extend(missing);
    }
    if calls.len() != answers.len() {
        complaints.push(format!("{} calls but {} answers", calls.len(), answers.len()));
    }
    let told: String = complaints.iter().map(|line| format!("{line}\n")).collect();
    (table(&counts) + &borders_line(over_borders) + &of_subjects + &told, complaints.is_empty())
}

/// What calls and answers tell of the chunks: the place of the next byte, where the latest chunk of any bytes began,
/// and how often each of those lines was said of a frame from before it.
#[derive(Default)]
struct Chunks {
    next: u64,
    chunk: u64,
    times: [usize; OVER_BORDERS.len()],
}

impl Chunks {
    /// The chunks of a whole script.
    fn of(calls: &[&[u8]], answers: &[&[u8]]) -> Chunks {
        let mut chunks = Chunks::default();
        for (call, answer) in calls.iter().zip(answers) {
            chunks.hear(&String::from_utf8_lossy(call), &String::from_utf8_lossy(answer));
        }
        chunks
    }

    /// Hears of a call and its answer; only a call on the receiver has something to tell, and of a refused chunk the
    /// bytes that were taken.
    fn hear(&mut self, call: &str, answer: &str) {
        let (name, word) = call.split_once(' ').unwrap_or((call, ""));
        match (name, answer.split_once('=').unwrap_or((answer, ""))) {
            ("rx.new", ("ok", _)) => {
                self.next = word.parse().unwrap_or(0);
                self.chunk = self.next;
            }
            ("rx.feed", _) => {
                if let Some(told) = told(word, answer) {
                    if told.taken > 0 {
                        self.chunk = self.next;
                        self.next += told.taken as u64;
                    }
                    told.lines.iter().for_each(|line| self.count(line));
                }
            }
            ("rx.end", ("ok text", text)) => text.split("\\n").for_each(|line| self.count(line)),
            _ => (),
        }
    }

    /// Counts a line that is one of those, its frame begun before the chunk.
    fn count(&mut self, line: &str) {
        let (place, said) = line.strip_prefix("at ").and_then(|rest| rest.split_once(' ')).unwrap_or_default();
        let is_before = place.parse().map_or(false, |place: u64| place < self.chunk);
        if let Some(sort) = OVER_BORDERS.iter().position(|sort| is_before && said.starts_with(sort)) {
            self.times[sort] += 1;
        }
    }
}

/// What should have occurred for a call and never did.
fn missing(counts: &Counts, name: &'static str, order: &[No]) -> Vec<String> {
    let mut wanted = vec![Way::Ok];
    wanted.extend(order.iter().map(|no| Way::No(*no)));
    wanted.extend([Way::NoBench, Way::NoBox, Way::NoScan].into_iter().filter(|way| is_listed(name, *way)));
    wanted.retain(|way| !counts.contains_key(&(name, *way)));
    wanted.iter().map(|way| format!("{name}: {} never occurred", words(*way))).collect()
}

/// Whether a call may be answered this way at all; number 6 is not in the order of bench.tele.
fn is_listed(name: &str, way: Way) -> bool {
    match way {
        Way::BadLine => true,
        Way::NoBench => name.starts_with("bench.") && name != "bench.new",
        Way::NoBox => name.starts_with("varia.") && name != "varia.new",
        Way::NoScan => name.starts_with("scan.") && name != "scan.new",
        Way::Ok => name != NO_CALL,
        Way::No(no) => ORDERS.iter().any(|(known, order)| *known == name && order.contains(&no)),
        Way::Unknown => false,
    }
}

/// The complaint about an answer that must not occur.
fn unlisted(name: &str, way: Way) -> String {
    format!("{name}: {} must not occur", words(way))
}

/// A way of answering in words.
fn words(way: Way) -> String {
    match way {
        Way::Ok => "ok".to_string(),
        Way::No(no) => format!("no {no}"),
        Way::BadLine => "bad line".to_string(),
        Way::NoBench => "no bench".to_string(),
        Way::NoBox => "no box".to_string(),
        Way::NoScan => "no scan".to_string(),
        Way::Unknown => "an unknown answer".to_string(),
    }
}

/// One line for each call: ok, bad line, no bench, no box, no scan, and then each refusal number with its count.
fn table(counts: &Counts) -> String {
    let heads = ["ok", "bad line", "no bench", "no box", "no scan"].map(|head| format!("{head:>10}")).concat();
    let mut text = format!("{:<14}{heads}  refusals\n", "call");
    for name in ORDERS.iter().map(|(name, _)| *name).chain([NO_CALL]) {
        let times = |way| counts.get(&(name, way)).copied().unwrap_or(0);
        let ways = [Way::Ok, Way::BadLine, Way::NoBench, Way::NoBox, Way::NoScan];
        let each = ways.map(|way| format!("{:>10}", times(way))).concat();
        text += &format!("{name:<14}{each}{}\n", refusals(counts, name));
    }
    text
}

/// The line below the table: how often each of the lines over chunk borders occurred.
fn borders_line(times: [usize; OVER_BORDERS.len()]) -> String {
    let each: String = OVER_BORDERS.iter().zip(times).map(|(line, times)| format!("  {line}:{times}")).collect();
    format!("over chunk borders{each}\n")
}

/// The refusal numbers of a call with their counts, by rising number.
fn refusals(counts: &Counts, name: &str) -> String {
    let of_call = counts.iter().filter(|((known, _), _)| *known == name);
    of_call
        .filter_map(|((_, way), times)| if let Way::No(no) = way { Some(format!("  {no}:{times}")) } else { None })
        .collect()
}
