//! The promise of a fair turn held against the lanes: a request that is p-th in its lane at some moment and isn't
//! withdrawn is opened or taken out within 16 times p grants that do one or the other. On any runs of calls, under a
//! flood of one job's requests, and where the bound is reached.

use crate::calls::{hex, unhex, Rehearsal};
use crate::lanes::{LANES, MOST_WAITING};
use crate::queue::{field, Queue, Waiting};
use crate::random::Random;
use crate::script;
use crate::telegram::{Message, LONGEST_TELEGRAM};

/// How many rounds a flood has, and once in how many of them another job than the flooding one has a request.
const FLOOD: u32 = 600;
const TRICKLE: usize = 60;
/// The folder that another job holds while the lanes are full.
const HELD: u32 = 3;

/// A run under way: the rehearsal, the lanes as its answers tell them, which job each grant served, how many of those
/// requests were taken out, and how many grants were answered 15.
struct Run {
    rehearsal: Rehearsal,
    queue: Queue,
    served: Vec<u32>,
    taken_out: usize,
    calls: usize,
    refused: usize,
}

impl Run {
    /// Runs these lines from a fresh start, or tells the first fault: a line whose answer is wrong, or a request that
    /// waits at the end.
    fn of(lines: &[String]) -> Result<Run, String> {
        let (rehearsal, queue) = (Rehearsal::new(), Queue::new());
        let mut run = Run { rehearsal, queue, served: Vec::new(), taken_out: 0, calls: 0, refused: 0 };
        for line in lines {
            let start: String = line.chars().take(60).collect();
            run.call(line).map_err(|fault| format!("{fault}, at call {}: {start}", run.calls))?;
        }
        match run.queue.waiting() {
            0 => Ok(run),
            waiting => Err(format!("{waiting} requests still wait")),
        }
    }

    /// Runs a line. What it answers must be what the lanes show then, and no request may be late.
    fn call(&mut self, line: &str) -> Result<(), String> {
        let words: Vec<&str> = line.split(' ').collect();
        let before = self.rehearsal.answer(b"desk.dump");
        let answer = self.rehearsal.answer(line.as_bytes());
        self.calls += 1;
        self.refused += usize::from(answer.starts_with("no 15 ") && words[0] == "lane.grant");
        if let Some((_, request)) = self.queue.hear(&words, &answer) {
            let is_taken_out = answer.starts_with("no 75 ");
            self.served.push(request.job);
            self.taken_out += usize::from(is_taken_out);
            if is_taken_out && self.rehearsal.answer(b"desk.dump") != before {
                return Err("the desk changed though the request was taken out".to_string());
            }
            if !is_taken_out && !self.is_opened(&request, words[1], &answer) {
                return Err("another request than the oldest was opened".to_string());
            }
        }
        if self.rehearsal.answer(b"lane.dump") != self.queue.dump() {
            return Err("the lanes are not what the answers tell".to_string());
        }
        self.queue.late.first().map_or(Ok(()), |late| Err(late.clone()))
    }

    /// Whether this very request was opened, at that clock: by the telegram and by the ticket.
    fn is_opened(&mut self, request: &Waiting, clock: &str, answer: &str) -> bool {
        let fields: Vec<&str> = request.shown.split(':').collect();
        let byte = |place: usize| fields[place].parse().unwrap_or(0);
        let address = field(answer, "address=").unwrap_or(0);
        let data = unhex(fields[4].as_bytes()).unwrap_or_default();
        let message = Message { dest: byte(1), source: address, type_no: byte(2), register: byte(3), data };
        let [job, module, type_no, register, _, wait, folder] = fields[..] else { return false };
        let ticket = format!("{address}:{job}:{module}:{type_no}:{register}:{wait}:{clock}:{folder}");
        let dump = self.rehearsal.answer(b"desk.dump");
        let tickets = dump.split(' ').find_map(|word| word.strip_prefix("tickets=")).unwrap_or("");
        let is_held = tickets.split(',').any(|held| held == ticket);
        is_held && answer.contains(&format!(" buf={}", hex(&message.telegram())))
    }
}

/// A joining of this job on this folder, with data of its own.
fn join(job: u32, serial: u32, folder: u32) -> String {
    format!("lane.join {job} 15 5 48 {} 1 {folder}", hex(&serial.to_be_bytes()))
}

/// A grant at this clock, and then every ticket expires; 2000 ms later its address has rested.
fn grant(clock: u32) -> [String; 2] {
    let room = hex(&[0; LONGEST_TELEGRAM]);
    [format!("lane.grant {clock} {room}"), format!("desk.expall {} 95", clock + 1)]
}

/// Before each grant job 1 asks for more than its lane takes, and each of fifteen others now and then for one thing. At
/// last what still waits is granted.
fn flood(random: &mut Random) -> Vec<String> {
    let mut lines = Vec::new();
    let most = (LANES * MOST_WAITING) as u32;
    for round in 0..FLOOD + most {
        if round < FLOOD {
            lines.extend((0..=4).map(|more| join(1, 100 * round + more, 0)));
            let others = (2..=16).filter(|_| random.one_in(TRICKLE));
            lines.extend(others.map(|job| join(job, 100 * round + job + 10, 0)).collect::<Vec<String>>());
        }
        lines.extend(grant(2000 * round));
    }
    lines
}

/// 16 jobs whose lanes are full, in the order of their lanes, and as many grants, while a 17th job holds a folder for
/// long; so many of every 16 requests are on that folder, and are taken out.
fn all_full(on_folder: u32) -> Vec<String> {
    let most = (LANES * MOST_WAITING) as u32;
    let held = format!("desk.open 17 15 4 102 - 60000 {HELD} 0 {}", hex(&[0; 20]));
    let joins = (0..most).map(|serial| join(serial % 16 + 1, serial, if serial % 16 < on_folder { HELD } else { 0 }));
    let grants = (0..most).flat_map(|round| grant(900 * round));
    [held].into_iter().chain(joins).chain(grants).collect()
}

/// The numbers of the grants that served this job, from 1.
fn grants_of(run: &Run, job: u32) -> Vec<usize> {
    (1..).zip(&run.served).filter(|(_, served)| **served == job).map(|(number, _)| number).collect()
}

/// What is told of so many runs, of the flood and of the full lanes, or the first fault.
fn told(seed: u64, runs: u64) -> Result<String, String> {
    let mut random = Random::new(seed);
    let (mut calls, mut grants, mut taken_out, mut refused) = (0, 0, 0, 0);
    for _ in 0..runs {
        let number = random.bits();
        let run = Run::of(&script::lane_run(number)).map_err(|fault| format!("run {number}: {fault}"))?;
        (calls, grants) = (calls + run.calls, grants + run.served.len());
        (taken_out, refused) = (taken_out + run.taken_out, refused + run.refused);
    }
    let flood = Run::of(&flood(&mut random)).map_err(|fault| format!("flood: {fault}"))?;
    let (flooding, all) = (grants_of(&flood, 1).len(), flood.served.len());
    for on_folder in [0, 8, 15, 16] {
        let full = Run::of(&all_full(on_folder)).map_err(|fault| format!("full lanes: {fault}"))?;
        let of_last = grants_of(&full, 16);
        if of_last != [16, 32, 48, 64] {
            return Err(format!("16 p is not reached: lane 16 is served by the grants {of_last:?}"));
        }
        if full.taken_out != MOST_WAITING * on_folder as usize {
            return Err(format!("full lanes: {} requests taken out, {on_folder} of 16 on the folder", full.taken_out));
        }
    }
    Ok(format!(
        "lanes: seed {seed}, {runs} runs, {calls} calls, {grants} grants that open a request or take it out, \
         {taken_out} answered 75, {refused} answered 15, none late; a flood of one job has {flooding} of {all} grants; \
         16 p is reached for p of 1 to 4"
    ))
}

/// Holds the promise against so many runs; tells how many calls and grants that were, or the first fault.
pub fn report(seed: u64, runs: u64) -> (String, bool) {
    match told(seed, runs) {
        Ok(told) => (format!("{told}\n"), true),
        Err(fault) => (format!("FAILED {fault}\n"), false),
    }
}
