//! The model: a plain reading of the lab's papers, against which the proved library is tested.

mod accident;
mod altered;
mod bench;
mod calls;
mod capture;
mod catalogue;
mod chunks;
mod count;
mod cuts;
mod desk;
mod dues;
mod edited;
mod edits;
mod expiries;
mod fair;
mod faults;
mod filters;
mod flips;
mod folders;
mod holders;
mod lab;
mod lanes;
mod listing;
mod looks;
mod noise;
mod pages;
mod places;
mod queue;
mod random;
mod receiver;
mod remainder;
mod rests;
mod roll;
mod scan;
mod scans;
mod script;
mod sheet;
mod sheets;
mod shift;
mod subject;
mod sums;
mod tallies;
mod tally;
mod telegram;
mod texts;
mod turns;
mod values;
mod varia;
mod vectors;

use std::io::{self, Read, Write};
use std::path::Path;
use std::process::ExitCode;

const USAGE: &str = "usage: model answer | script SEED CALLS | count SCRIPT ANSWERS | cuts | list | capture SEED | \
chunks SEED CAPTURES | expiries SEED DESKS | lanes SEED RUNS | folders SEED CALLS | noise SEED ROUNDS | \
scans SEED RUNS | tallies SEED CAPTURES | sheet WORDS.. | texts SEED COUNT DIR | lab | vectors";

/// 0 when all is well, 1 when a check fails, 2 when the command can't be carried out.
fn main() -> ExitCode {
    let words: Vec<String> = std::env::args_os().skip(1).map(|word| word.to_string_lossy().into_owned()).collect();
    match run(&words.iter().map(String::as_str).collect::<Vec<&str>>()) {
        Ok(true) => ExitCode::SUCCESS,
        Ok(false) => ExitCode::from(1),
        Err(error) => {
            eprintln!("model: {error}");
            ExitCode::from(2)
        }
    }
}

/// Carries out a subcommand and answers whether its checks hold.
fn run(words: &[&str]) -> io::Result<bool> {
    match words {
        ["answer"] => put(calls::answers(&input()?), true),
        ["script", seed, calls] => put(script::write(number(seed)?, number(calls)? as usize), true),
        ["count", script, answers] => {
            let (table, complete) = count::count(&std::fs::read(script)?, &std::fs::read(answers)?);
            put(table, complete)
        }
        ["cuts"] => put(cuts::script(), true),
        ["list"] => put(listing::list(&input()?), true),
        ["capture", seed] => put(capture::capture(number(seed)?), true),
        ["chunks", seed, captures] => {
            let (report, no_difference) = chunks::report(number(seed)?, number(captures)?);
            put(report, no_difference)
        }
        ["expiries", seed, desks] => {
            let (report, no_difference) = expiries::report(number(seed)?, number(desks)?);
            put(report, no_difference)
        }
        ["lanes", seed, runs] => {
            let (report, none_late) = fair::report(number(seed)?, number(runs)?);
            put(report, none_late)
        }
        ["folders", seed, calls] => {
            let (report, none_shared) = accident::report(number(seed)?, number(calls)? as usize);
            put(report, none_shared)
        }
        ["noise", seed, rounds] => {
            let (report, all_refused) = noise::report(number(seed)?, number(rounds)?);
            put(report, all_refused)
        }
        ["scans", seed, runs] => {
            let (report, all_right) = shift::report(number(seed)?, number(runs)?);
            put(report, all_right)
        }
        ["tallies", seed, captures] => {
            let (report, no_difference) = sums::report(number(seed)?, number(captures)?);
            put(report, no_difference)
        }
        ["sheet", args @ ..] => {
            let ended = texts::run(&args.iter().map(|arg| arg.as_bytes()).collect::<Vec<&[u8]>>(), input);
            let verdict = put(ended.out, true)?;
            io::stdout().lock().flush()?;
            io::stderr().lock().write_all(ended.said.as_bytes())?;
            Ok(verdict)
        }
        ["texts", seed, count, folder] => {
            let (report, all_met) = pages::report(number(seed)?, number(count)? as usize, Path::new(folder))?;
            put(report, all_met)
        }
        ["lab"] => put(lab::night(), true),
        ["vectors"] => {
            let (report, all_hold) = vectors::report();
            put(report, all_hold)
        }
        _ => Err(io::Error::new(io::ErrorKind::Other, USAGE)),
    }
}

/// All of standard input.
fn input() -> io::Result<Vec<u8>> {
    let mut bytes = Vec::new();
    io::stdin().lock().read_to_end(&mut bytes)?;
    Ok(bytes)
}

/// Writes to standard output and hands the verdict on.
fn put(bytes: impl AsRef<[u8]>, verdict: bool) -> io::Result<bool> {
    io::stdout().lock().write_all(bytes.as_ref())?;
    Ok(verdict)
}

/// A seed, or a number of calls, captures, desks, runs or rounds.
fn number(word: &str) -> io::Result<u64> {
    word.parse().map_err(|_| io::Error::new(io::ErrorKind::Other, USAGE))
}
