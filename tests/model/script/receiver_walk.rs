//! Walks over the receiver: captures in chunks, frames around 494 bytes, runaways, and the last places there are.

use super::Script;
use crate::calls::{hex, LONGEST_LINE};
use crate::capture;
use crate::chunks::{cut_at, places};
use crate::faults::{all_substituted, break_in, broken, filled, frame_of, longest, message, runaway, tiny, BREAKS};
use crate::telegram::{END, LONGEST_TELEGRAM, START, SUBSTITUTION};

/// The most bytes that a line can feed.
pub const MOST_FED: usize = (LONGEST_LINE - "rx.feed ".len()) / 2;
/// The bytes of a chunk that is longer than any the driver has, and still short enough to feed many of them.
const LONG_CHUNK: usize = 4092;
/// At how many places a capture is cut at most, so that the chunks of one don't fill the script.
const MOST_PLACES: usize = 8;
/// Lines that would make a fresh receiver, were they calls.
const NO_NEW: [&str; 8] = [
    "rx.new",
    "rx.new ",
    "rx.new -",
    "rx.new -1",
    "rx.new 0x0",
    "rx.new 0 0",
    "rx.new 18446744073709551616",
    "rx.new 340282366920938463463374607431768211456",
];

/// The start of every script: calls on the receiver before any was made are on a fresh one, whose next place is 0.
pub fn no_receiver_yet(script: &mut Script) {
    for line in ["rx.end", "rx.feed -", "rx.feed 0a05", "rx.feed 0d0a0d", "rx.new x", "rx.feed 0d0d", "rx.end"] {
        script.call(line);
    }
}

/// Makes a fresh receiver, its places from 0 on, over a power of two, or anywhere that leaves room.
fn new_receiver(script: &mut Script) {
    let place = script.random.pick(&[0, 0, 1, 65530, 4294967000, 4294967295, 9223372036854775000]);
    let place = if script.random.one_in(3) { script.random.bits() / 2 } else { place };
    script.call(format!("rx.new {place}"));
}

/// Adds a chunk.
fn feed(script: &mut Script, chunk: &[u8]) {
    script.call(format!("rx.feed {}", hex(chunk)));
}

/// Feeds a capture cut at these places. Between its chunks the receiver is now and then asked what is left to say, or
/// a line is no call: neither changes it.
fn feed_cut(script: &mut Script, capture: &[u8], places: &[usize]) {
    for chunk in cut_at(capture, places) {
        feed(script, chunk);
        match script.random.below(10) {
            0 => script.call("rx.end"),
            1 => no_new(script),
            _ => (),
        }
    }
}

/// A receiver that is not made: the one there was stays.
fn no_new(script: &mut Script) {
    let line = script.random.pick(&NO_NEW);
    script.call(line);
}

/// Captures of every sort, cut at random; two of them one after the other on the same receiver.
pub fn captures(script: &mut Script) {
    for _ in 0..6 {
        new_receiver(script);
        for _ in 0..2 {
            let capture = capture::short(script.random.bits());
            let places = places(&mut script.random, &capture, MOST_PLACES);
            feed_cut(script, &capture, &places);
            script.call("rx.end");
        }
    }
}

/// Frames of the most bytes that are read, of one less and of one more.
pub fn around_the_limit(script: &mut Script) {
    cut_near_the_limit(script, longest().telegram());
    cut_near_the_limit(script, all_substituted().telegram());
    for length in [LONGEST_TELEGRAM - 1, LONGEST_TELEGRAM, LONGEST_TELEGRAM + 1].iter().cycle().take(9) {
        let frame = frame_of(&mut script.random, *length);
        cut_near_the_limit(script, frame);
    }
}

/// A frame and a telegram after it, cut at the first bytes and once or more around the 494th.
fn cut_near_the_limit(script: &mut Script, frame: Vec<u8>) {
    new_receiver(script);
    let random = &mut script.random;
    let capture = [frame, message(random).telegram()].concat();
    let mut places: Vec<usize> = (0..random.between(1, 3)).map(|_| LONGEST_TELEGRAM - 3 + random.below(6)).collect();
    places.push(random.below(4));
    places.sort_unstable();
    feed_cut(script, &capture, &places);
    script.call("rx.end");
}

/// Frames whose substitution is broken, in each way there is: of any message, and of the most bytes that are read, of
/// one less and of one more.
pub fn broken_frames(script: &mut Script) {
    for way in BREAKS {
        let message = message(&mut script.random);
        for frame in broken(&mut script.random, &message, way) {
            cut_at_a_94(script, frame);
        }
        for length in [LONGEST_TELEGRAM - 1, LONGEST_TELEGRAM, LONGEST_TELEGRAM + 1] {
            let mut frame = filled(&mut script.random, length);
            break_in(&mut script.random, &mut frame, way);
            cut_at_a_94(script, frame);
        }
    }
}

/// A few bytes, a frame and a telegram after it, cut behind a 94 of that frame and anywhere else.
fn cut_at_a_94(script: &mut Script, frame: Vec<u8>) {
    new_receiver(script);
    let random = &mut script.random;
    let before = vec![65; random.below(4)];
    let marked: Vec<usize> = (0..frame.len()).filter(|place| frame[*place] == SUBSTITUTION).collect();
    let behind = marked.first().map_or(0, |first| if random.one_in(2) { *first } else { random.pick(&marked) }) + 1;
    let mut places = vec![before.len() + behind, random.below(frame.len())];
    places.sort_unstable();
    let capture = [before, frame, message(random).telegram()].concat();
    feed_cut(script, &capture, &places);
    script.call("rx.end");
}

/// Frames that run on over several chunks, then closed, dropped or left open; what comes next is read as ever.
pub fn runaways(script: &mut Script) {
    for mark in [END, START] {
        new_receiver(script);
        run_away(script);
        script.call("rx.end");
        let next = [vec![mark], message(&mut script.random).telegram()].concat();
        let cut = script.random.below(4);
        feed_cut(script, &next, &[cut]);
        run_away(script);
        script.call("rx.end");
    }
}

/// A frame's start and some chunks of bytes without a mark.
fn run_away(script: &mut Script) {
    let lengths = [1, 2, 200, LONGEST_TELEGRAM - 1, LONGEST_TELEGRAM, 1000, LONG_CHUNK];
    let (first, others) = (script.random.pick(&lengths), script.random.between(1, 4));
    let start = runaway(&mut script.random, first);
    feed(script, &start);
    for _ in 0..others {
        let length = script.random.pick(&lengths);
        let more = runaway(&mut script.random, length + 1);
        feed(script, &more[1..]);
    }
}

/// Places near the largest: a chunk that would carry the place past it is refused and leaves the receiver as it was, so
/// that a shorter one after it is taken.
pub fn last_places(script: &mut Script) {
    for _ in 0..5 {
        let capture = capture::short(script.random.bits());
        let length = capture.len();
        let room = script.random.pick(&[0, 1, 2, length / 2, length.saturating_sub(1), length, length + 1, length + 9]);
        script.call(format!("rx.new {}", u64::MAX - room as u64));
        let places = places(&mut script.random, &capture, MOST_PLACES);
        feed_cut(script, &capture, &places);
        up_to_the_last(script);
    }
}

/// All that can still be taken, refused with one byte more before it, and again a byte after it.
fn up_to_the_last(script: &mut Script) {
    let left = (u64::MAX - script.rehearsal.receiver.place) as usize;
    let marks: Vec<u8> = (0..=left).map(|_| script.random.pick(&[START, END, 0])).collect();
    for chunk in [&marks, &marks[..left], &tiny(&mut script.random), &[], &[END]] {
        feed(script, chunk);
        script.call("rx.end");
    }
}
