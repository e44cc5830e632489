//! The scan held against what it promises, on runs with whole scans among other calls: turn n asks module n, at most one
//! ticket of the scan is open at a time, a refused opening is no turn, each turn's result is what became of its ticket,
//! and the scan ends after exactly 160 turns.

use crate::calls::Rehearsal;
use crate::queue::field;
use crate::random::Random;
use crate::rests::is_idle;
use crate::roll::{Roll, TURNS};
use crate::script;
use std::collections::BTreeSet;

/// A run under way: the rehearsal, the scan as its answers tell it, the modules that it has asked, the addresses of its
/// tickets that the desk has, how many of its openings were refused, and the results of the scans that are whole.
struct Run {
    rehearsal: Rehearsal,
    roll: Roll,
    asked: Vec<u8>,
    open: BTreeSet<u8>,
    calls: usize,
    refused: usize,
    whole: Vec<String>,
}

impl Run {
    /// Runs these lines from a fresh start, or tells the first fault; one whole scan must be among them.
    fn of(lines: &[String]) -> Result<Run, String> {
        let (rehearsal, roll, asked, open) = (Rehearsal::new(), Roll::new(), Vec::new(), BTreeSet::new());
        let mut run = Run { rehearsal, roll, asked, open, calls: 0, refused: 0, whole: Vec::new() };
        for line in lines {
            let start: String = line.chars().take(60).collect();
            run.call(line).map_err(|fault| format!("{fault}, at call {}: {start}", run.calls))?;
        }
        match run.whole.is_empty() {
            false => Ok(run),
            true => Err("no scan has ended".to_string()),
        }
    }

    /// Runs a line. What it answers must be what scan and desk show then.
    fn call(&mut self, line: &str) -> Result<(), String> {
        let words: Vec<&str> = line.split(' ').collect();
        let answer = self.rehearsal.answer(line.as_bytes());
        self.calls += 1;
        if is_idle(&answer) {
            return Ok(());
        }
        let finished = self.roll.results.len();
        self.roll.hear(&words, &answer);
        match words[0] {
            "scan.new" | "desk.new" => {
                self.asked.clear();
                self.open.clear();
            }
            "scan.step" => {
                self.refused += usize::from(answer.starts_with("no "));
                self.asked.extend(field::<u8>(&answer, "module="));
                self.open.extend(field::<u8>(&answer, "address="));
            }
            _ => (),
        }
        self.open.retain(|address| self.rehearsal.desk.tickets.contains_key(address));
        if finished < self.roll.results.len() && self.roll.is_done() {
            self.whole.push(self.roll.results.clone());
        }
        self.check()
    }

    /// What must hold after each call.
    fn check(&mut self) -> Result<(), String> {
        for shown in ["scan.dump", "desk.dump"] {
            let answer = self.rehearsal.answer(shown.as_bytes());
            self.roll.hear(&[shown], &answer);
        }
        let (turns, is_out) = (self.roll.results.len(), self.roll.out.is_some());
        let modules: Vec<u8> = (1..=TURNS as u8).take(turns + usize::from(is_out)).collect();
        match self.roll.faults.first() {
            Some(fault) => Err(fault.clone()),
            None if self.asked != modules => Err(format!("{turns} turns are finished, {:?} were asked", self.asked)),
            None if self.open.len() != usize::from(is_out) => Err(format!("the scan has tickets on {:?}", self.open)),
            None => Ok(()),
        }
    }
}

/// What is told of so many runs, or the first fault.
fn told(seed: u64, runs: u64) -> Result<String, String> {
    let mut random = Random::new(seed);
    let (mut calls, mut refused, mut results) = (0, 0, String::new());
    let mut whole = 0;
    for _ in 0..runs {
        let number = random.bits();
        let run = Run::of(&script::scan_run(number)).map_err(|fault| format!("run {number}: {fault}"))?;
        (calls, refused, whole) = (calls + run.calls, refused + run.refused, whole + run.whole.len());
        results.extend(run.whole);
    }
    let [absent, read, refusing] = ['a', '1', '2'].map(|letter| results.matches(letter).count());
    Ok(format!(
        "scans: seed {seed}, {runs} runs, {calls} calls, {whole} whole scans of {TURNS} turns: {absent} absent, {read} \
         with a datagram, {refusing} with another reply; {refused} openings refused, none of them a turn"
    ))
}

/// Holds the promise against so many runs; tells how many calls and scans that were, or the first fault.
pub fn report(seed: u64, runs: u64) -> (String, bool) {
    match told(seed, runs) {
        Ok(told) => (format!("{told}\n"), true),
        Err(fault) => (format!("FAILED scans: {fault}\n"), false),
    }
}
