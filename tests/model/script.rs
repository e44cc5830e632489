//! Seeded call scripts: sections over every call, run on a rehearsal of their own so that walks go deep.

mod bench_walk;
mod desk_walk;
pub mod edit_walk;
mod expall_walk;
mod folder_walk;
mod lane_walk;
mod look_walk;
mod noise_walk;
mod numbers;
mod receiver_walk;
mod rest_walk;
mod rough;
mod scan_walk;
pub mod sheet_walk;
mod tally_walk;
mod telegrams;
mod varia_walk;

use crate::calls::Rehearsal;
use crate::random::Random;

/// A script under way: its lines and the desk, lanes, box, scan, bench, receiver and tally they have led to.
pub struct Script {
    random: Random,
    rehearsal: Rehearsal,
    lines: Vec<Vec<u8>>,
}

/// A part of a script.
type Section = fn(&mut Script);

/// One round of sections; a script is made of rounds, each in another order.
const ROUND: [Section; 22] = [
    rough::any_numbers,
    rough::bad_lines,
    telegrams::remainders,
    telegrams::reads,
    telegrams::writes,
    numbers::value_reads,
    numbers::value_writes,
    numbers::catalogue_queries,
    bench_walk::registers,
    bench_walk::full_bench,
    bench_walk::telegrams,
    bench_walk::telegrams,
    desk_walk::full_desk,
    desk_walk::rounds_of_the_turn,
    desk_walk::expiries,
    desk_walk::mixed,
    desk_walk::mixed,
    rest_walk::edges,
    rest_walk::open_and_resting,
    rest_walk::all_resting,
    rest_walk::late_answers,
    rest_walk::any_clocks,
];

/// The sections on the receiver, after each round. They have a generator of their own, so that a seed's other lines are
/// what they were without them.
const RECEIVER_ROUND: [Section; 5] = [
    rough::receiver_lines,
    receiver_walk::captures,
    receiver_walk::around_the_limit,
    receiver_walk::runaways,
    receiver_walk::last_places,
];

/// The sections on the filter box, after those on the receiver, with a generator of their own as well.
const VARIA_ROUND: [Section; 10] = [
    rough::varia_lines,
    varia_walk::endings,
    varia_walk::order,
    varia_walk::blocked,
    varia_walk::full_desk,
    varia_walk::refused,
    varia_walk::anew,
    varia_walk::displays,
    varia_walk::mixed,
    varia_walk::at_the_bench,
];

/// The sections on frames whose substitution is broken, after those on the filter box, with a generator of their own as
/// well.
const PLACE_ROUND: [Section; 4] = [
    telegrams::broken_frames,
    bench_walk::broken_telegrams,
    desk_walk::broken_replies,
    receiver_walk::broken_frames,
];

/// The sections on settings sheets, after those on broken frames, with a generator of their own as well.
const SHEET_ROUND: [Section; 10] = [
    rough::sheet_lines,
    sheet_walk::writes,
    sheet_walk::limits,
    sheet_walk::misordered,
    sheet_walk::unwritable,
    sheet_walk::right_sheets,
    sheet_walk::altered,
    sheet_walk::headers,
    sheet_walk::offsets,
    sheet_walk::several_faults,
];

/// The sections on the call that expires everything due, after those on settings sheets, with a generator of their own
/// as well.
const EXPALL_ROUND: [Section; 6] = [
    rough::expall_lines,
    expall_walk::all_due,
    expall_walk::some_due,
    expall_walk::resting,
    expall_walk::boxes,
    expall_walk::mixed,
];

/// The sections on how far an opening looks, after those on the call that expires everything due, with a generator of
/// their own as well.
const LOOK_ROUND: [Section; 3] = [look_walk::distances, look_walk::resting, look_walk::boxes];

/// The sections on the lanes, after those on how far an opening looks, with a generator of their own as well.
const LANE_ROUND: [Section; 10] = [
    rough::lane_lines,
    lane_walk::full_lanes,
    lane_walk::comebacks,
    lane_walk::full_desk,
    lane_walk::rooms,
    lane_walk::withdrawals,
    lane_walk::lengths,
    lane_walk::tickets,
    lane_walk::boxes,
    lane_walk::mixed,
];

/// The sections on folders, after those on the lanes, with a generator of their own as well.
const FOLDER_ROUND: [Section; 7] = [
    rough::folder_lines,
    folder_walk::accident,
    folder_walk::alike,
    folder_walk::taken_out,
    folder_walk::full_desk,
    folder_walk::mixed,
    folder_walk::mixed,
];

/// The sections on noise that is no burst, after those on folders, with a generator of their own as well.
const NOISE_ROUND: [Section; 3] = [noise_walk::reads, noise_walk::replies, noise_walk::telegrams];

/// The sections on the scan, after those on noise, with a generator of their own as well.
const SCAN_ROUND: [Section; 5] =
    [rough::scan_lines, scan_walk::whole, scan_walk::of_one_result, scan_walk::anew, scan_walk::mixed];

/// The sections on the tally, after those on the scan, with a generator of their own as well. Each ends with the tally
/// cleared, so that the other sections meet no full number.
const TALLY_ROUND: [Section; 5] =
    [rough::tally_lines, tally_walk::near_full, tally_walk::last_places, tally_walk::no_line, tally_walk::anew];

/// The sections on settings thrown out of a sheet and added to it, after those on the tally, with a generator of their
/// own as well.
const EDIT_ROUND: [Section; 12] = [
    rough::edit_lines,
    edit_walk::removals,
    edit_walk::modules,
    edit_walk::additions,
    edit_walk::not_allowed,
    edit_walk::keys_there,
    edit_walk::full_sheets,
    edit_walk::unaddable,
    edit_walk::wrong_sheets,
    edit_walk::stated,
    edit_walk::freed,
    edit_walk::to_and_fro,
];

/// A rehearsal with a desk of any sort, to try the call on that expires everything due; a scan is out there in half of
/// the cases.
pub fn crowded(seed: u64) -> Rehearsal {
    let mut script = Script::new(seed);
    expall_walk::crowd(&mut script);
    scan_walk::beside(&mut script);
    script.rehearsal
}

/// The lines of a run, to hold the promise of a fair turn against.
pub fn lane_run(seed: u64) -> Vec<String> {
    let mut script = Script::new(seed);
    lane_walk::run(&mut script);
    script.lines.iter().map(|line| String::from_utf8_lossy(line).into_owned()).collect()
}

/// The lines of a run with a whole scan, to hold its turns against what they ask and what becomes of them.
pub fn scan_run(seed: u64) -> Vec<String> {
    let mut script = Script::new(seed);
    let section = script.random.pick(&[scan_walk::whole, scan_walk::of_one_result]);
    section(&mut script);
    script.lines.iter().map(|line| String::from_utf8_lossy(line).into_owned()).collect()
}

/// The script of a seed, of so many lines, each ended by one newline.
pub fn write(seed: u64, calls: usize) -> Vec<u8> {
    let mut script = Script::new(seed);
    bench_walk::no_bench_yet(&mut script);
    expall_walk::no_desk_yet(&mut script);
    desk_walk::no_desk_yet(&mut script);
    lane_walk::no_desk_yet(&mut script);
    receiver_walk::no_receiver_yet(&mut script);
    varia_walk::no_box_yet(&mut script);
    scan_walk::no_scan_yet(&mut script);
    rough::longest_lines(&mut script);
    sheet_walk::largest(&mut script);
    edit_walk::largest(&mut script);
    let mut receiver_random = Random::new(!seed);
    let mut varia_random = Random::new(seed.rotate_left(32) ^ 0x5641_5249_4100);
    let mut place_random = Random::new(!seed.rotate_left(32) ^ 0x504C_4143_4500);
    let mut sheet_random = Random::new(seed.rotate_left(16) ^ 0x5348_4545_5400);
    let mut expall_random = Random::new(seed.rotate_left(48) ^ 0x4558_5041_4C4C);
    let mut look_random = Random::new(seed.rotate_left(8) ^ 0x4C4F_4F4B_0000);
    let mut lane_random = Random::new(seed.rotate_left(24) ^ 0x4C41_4E45_5300);
    let mut folder_random = Random::new(seed.rotate_left(40) ^ 0x464F_4C44_4552);
    let mut noise_random = Random::new(seed.rotate_left(56) ^ 0x4E4F_4953_4500);
    let mut scan_random = Random::new(seed.rotate_left(4) ^ 0x5343_414E_0000);
    let mut tally_random = Random::new(seed.rotate_left(12) ^ 0x5441_4C4C_5900);
    let mut edit_random = Random::new(seed.rotate_left(20) ^ 0x4544_4954_5300);
    while script.lines.len() < calls {
        script.round(ROUND);
        script.round_with(&mut receiver_random, RECEIVER_ROUND);
        script.round_with(&mut varia_random, VARIA_ROUND);
        script.round_with(&mut place_random, PLACE_ROUND);
        script.round_with(&mut sheet_random, SHEET_ROUND);
        script.round_with(&mut expall_random, EXPALL_ROUND);
        script.round_with(&mut look_random, LOOK_ROUND);
        script.round_with(&mut lane_random, LANE_ROUND);
        script.round_with(&mut folder_random, FOLDER_ROUND);
        script.round_with(&mut noise_random, NOISE_ROUND);
        script.round_with(&mut scan_random, SCAN_ROUND);
        script.round_with(&mut tally_random, TALLY_ROUND);
        script.round_with(&mut edit_random, EDIT_ROUND);
    }
    script.lines.truncate(calls);
    script.lines.iter().flat_map(|line| [line.as_slice(), b"\n"].concat()).collect()
}

impl Script {
    /// A script of no lines, whose generator starts from this seed.
    fn new(seed: u64) -> Script {
        Script { random: Random::new(seed), rehearsal: Rehearsal::new(), lines: Vec::new() }
    }

    /// Adds these sections in a random order.
    fn round<const N: usize>(&mut self, mut sections: [Section; N]) {
        self.random.shuffle(&mut sections);
        sections.iter().for_each(|section| section(self));
    }

    /// The same with a generator of their own.
    fn round_with<const N: usize>(&mut self, random: &mut Random, sections: [Section; N]) {
        std::mem::swap(&mut self.random, random);
        self.round(sections);
        std::mem::swap(&mut self.random, random);
    }

    /// Adds a call line to the script and runs it on the rehearsal.
    fn call(&mut self, line: impl AsRef<[u8]>) {
        self.answer(line);
    }

    /// The same, and hands the answer over.
    fn answer(&mut self, line: impl AsRef<[u8]>) -> String {
        self.lines.push(line.as_ref().to_vec());
        self.rehearsal.answer(line.as_ref())
    }
}

/// A lent buffer of this length, full of bytes that are easy to know again, none of them 0.
fn buffer(length: usize) -> Vec<u8> {
    (0..length).map(|place| 161 + (place % 64) as u8).collect()
}

/// A room for a need: longer in half of the cases, else the very length, one less, or any less.
fn room(random: &mut Random, needed: usize) -> usize {
    match random.below(8) {
        6 => needed.saturating_sub(1),
        7 => random.below(needed + 1),
        _ => enough(random, needed),
    }
}

/// A room that is enough: longer in two of three cases, else the very length.
fn enough(random: &mut Random, needed: usize) -> usize {
    match random.below(6) {
        0 | 1 => needed,
        2 => needed + 1,
        3 | 4 => needed + random.between(2, 12),
        _ => needed + random.between(13, 60),
    }
}

/// A room that is too little for a need of at least 1.
fn too_little(random: &mut Random, needed: usize) -> usize {
    match random.one_in(2) {
        true => needed - 1,
        false => random.below(needed),
    }
}
