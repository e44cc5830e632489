//! Messages made by the seed, and every sort of damage to them, for scripts and captures.

use crate::flips::invert;
use crate::random::Random;
use crate::telegram::{self, with_remainder, Message, No, CODES, END, MOST_DATA, START, SUBSTITUTION};

/// The bytes that are substituted.
const SPECIALS: [u8; 3] = [START, END, SUBSTITUTION];
/// Bytes that are wrong after a 94.
const NO_CODES: [u8; 11] = [65, 64, 73, 75, 76, 78, 94, 157, 159, 0, 255];

/// Which 94s of a frame are faulty: the first byte after the start, the last one before the end, two, one with a right
/// pair before it, or one before a right pair's own.
#[derive(Clone, Copy)]
pub enum Break {
    First,
    Last,
    Two,
    AfterAPair,
    Doubled,
}

pub const BREAKS: [Break; 5] = [Break::First, Break::Last, Break::Two, Break::AfterAPair, Break::Doubled];

/// An address that is not 0, near a limit or a special byte in half of the cases.
pub fn address(random: &mut Random) -> u8 {
    match random.one_in(2) {
        true => random.pick(&[1, 10, 13, 74, 94, 158, 160, 161, 162, 254, 255]),
        false => random.between(1, 255) as u8,
    }
}

/// A length of data: mostly short, now and then at the 240 bytes a message may carry.
pub fn length(random: &mut Random) -> usize {
    match random.below(8) {
        0..=2 => random.pick(&[0, 1, 2, 4, 8]),
        3..=5 => random.below(24),
        6 => random.below(MOST_DATA + 1),
        _ => random.pick(&[MOST_DATA - 1, MOST_DATA, MOST_DATA]),
    }
}

/// So many data bytes: of any value, or only such as are substituted, or such as look substituted.
pub fn data(random: &mut Random, length: usize) -> Vec<u8> {
    match random.below(6) {
        0 => (0..length).map(|_| random.pick(&SPECIALS)).collect(),
        1 => (0..length).map(|_| random.pick(&[10, 13, 94, 74, 77, 158, 65, 0])).collect(),
        2 => vec![random.pick(&[0, 255]); length],
        _ => random.bytes(length),
    }
}

/// A message that the reader accepts.
pub fn message(random: &mut Random) -> Message {
    let (dest, source) = (address(random), address(random));
    let length = length(random);
    let message =
        Message { dest, source, type_no: random.below(10) as u8, register: random.byte(), data: data(random, length) };
    if random.one_in(4) && message.data.len() < 24 {
        return with_special_remainder(random, message);
    }
    message
}

/// The message of the longest telegram there is: every byte but the type is substituted, 493 bytes in all.
pub fn longest() -> Message {
    let mut data = vec![SUBSTITUTION; MOST_DATA];
    data[234] = END;
    Message { dest: END, source: END, type_no: 9, register: SUBSTITUTION, data }
}

/// The same with a type that is substituted too: its frame has 494 bytes, the most there can be, and is refused 9.
pub fn all_substituted() -> Message {
    let mut data = vec![SUBSTITUTION; MOST_DATA];
    data[9] = END;
    Message { type_no: SUBSTITUTION, data, ..longest() }
}

/// The message with another register, so that a remainder byte is substituted where one is found.
fn with_special_remainder(random: &mut Random, mut message: Message) -> Message {
    for _ in 0..200 {
        message.register = random.byte();
        if message.bytes().iter().rev().take(2).any(|byte| SPECIALS.contains(byte)) {
            break;
        }
    }
    message
}

/// Inverts one or more bits, all within 16 neighbouring bits, each byte taken highest bit first.
pub fn flip_within_16(random: &mut Random, message: &mut [u8]) {
    let width = 16.min(message.len() * 8);
    if width == 0 {
        return;
    }
    let pattern = match random.below(4) {
        0 => 1 << random.below(width),
        1 => (1 << width) - 1,
        _ => random.between(1, (1 << width) - 1),
    };
    flip(random, message, pattern, width);
}

/// Inverts 4 bits among 17 in the pattern of the polynomial itself, which no remainder shows.
pub fn flip_unseen(random: &mut Random, message: &mut [u8]) {
    flip(random, message, 0b1_0001_0000_0010_0001, 17);
}

/// Inverts the bits of a pattern so many bits wide, its highest bit first, somewhere in the message.
fn flip(random: &mut Random, message: &mut [u8], pattern: usize, width: usize) {
    let first = random.between(0, message.len() * 8 - width);
    for bit in (0..width).filter(|bit| (pattern >> (width - 1 - bit)) % 2 == 1) {
        invert(message, first + bit);
    }
}

/// A frame of this message with the fault of that row and, by chance, faults of rows after it.
/// Row 6 is a matter of the lent buffer and is left to the caller.
pub fn spoil(random: &mut Random, message: &Message, row: No) -> Vec<u8> {
    let has: Vec<bool> = (0..=9).map(|no| no == row || (no > row && random.one_in(3))).collect();
    let mut bytes = spoiled_fields(random, message, &has).bytes();
    if has[4] {
        bytes = cut_short(random, &bytes);
    }
    if has[7] {
        flip_within_16(random, &mut bytes);
    }
    let mut frame = telegram::frame(&bytes);
    if has[3] {
        put_wrong_substitution(random, &mut frame);
    }
    if has[2] {
        let mark = random.pick(&[START, END]);
        put_between(random, &mut frame, &[mark]);
    }
    if has[1] {
        break_an_end(random, &mut frame);
    }
    frame
}

/// Rows 5, 8 and 9: too much data, address 0 at either end, a type over 9.
fn spoiled_fields(random: &mut Random, message: &Message, has: &[bool]) -> Message {
    let mut spoiled = message.clone();
    if has[5] {
        let length = MOST_DATA + random.pick(&[1, 1, 2, 10, 60]);
        spoiled.data = data(random, length);
    }
    if has[8] {
        let (dest, source) = random.pick(&[(0, 1), (1, 0), (0, 0)]);
        spoiled.dest *= dest;
        spoiled.source *= source;
    }
    if has[9] {
        spoiled.type_no = random.pick(&[10, 10, 11, 13, 94, 127, 128, 255]);
    }
    spoiled
}

/// Row 4: at most 5 bytes of a message, with a right remainder of their own or without.
fn cut_short(random: &mut Random, message: &[u8]) -> Vec<u8> {
    let length = random.pick(&[0, 1, 2, 3, 4, 5, 5, 5]);
    match random.one_in(2) {
        true => message[..length].to_vec(),
        false => with_remainder(message[..length.saturating_sub(2)].to_vec()),
    }
}

/// Row 3: a 94 and a byte that is none of the codes, or a 94 just before the end.
fn put_wrong_substitution(random: &mut Random, frame: &mut Vec<u8>) {
    if random.one_in(3) {
        frame.insert(frame.len() - 1, SUBSTITUTION);
    } else {
        let wrong = random.pick(&NO_CODES);
        put_between(random, frame, &[SUBSTITUTION, wrong]);
    }
}

/// Overwrites bytes between the ends of a frame of at least 8 bytes, so that its substitution breaks in this way. What
/// is overwritten may have been a part of a pair, and then the break is another one.
pub fn break_in(random: &mut Random, frame: &mut [u8], way: Break) {
    let last = frame.len() - 2;
    let (code, wrong) = (random.pick(&CODES), random.pick(&NO_CODES));
    let mut put = |place: usize, bytes: &[u8]| frame[place..place + bytes.len()].copy_from_slice(bytes);
    match way {
        Break::First => put(1, &[SUBSTITUTION, wrong]),
        Break::Last => put(last, &[SUBSTITUTION]),
        Break::Two => {
            put(random.between(1, last - 1), &[SUBSTITUTION, wrong]);
            put(random.between(1, last), &[SUBSTITUTION]);
        }
        Break::AfterAPair => {
            put(1, &[SUBSTITUTION, code]);
            put(random.between(3, last - 1), &[SUBSTITUTION, wrong]);
        }
        Break::Doubled => put(random.between(1, last - 2), &[SUBSTITUTION, SUBSTITUTION, code]),
    }
}

/// A frame of so many bytes, both ends included, with none between them that is substituted.
pub fn filled(random: &mut Random, length: usize) -> Vec<u8> {
    let plain = |byte| if SPECIALS.contains(&byte) { 65 } else { byte };
    let between = random.bytes(length - 2).into_iter().map(plain);
    [START].into_iter().chain(between).chain([END]).collect()
}

/// Frames of this message with their substitution broken in this way: one as it is, one with a mark between its ends as
/// well, so that it is 2, and one with more data than a telegram has.
pub fn broken(random: &mut Random, message: &Message, way: Break) -> [Vec<u8>; 3] {
    let long = Message { data: random.bytes(700), ..message.clone() };
    let mut frames = [message.telegram(), message.telegram(), long.telegram()];
    frames.iter_mut().for_each(|frame| break_in(random, frame, way));
    let mark = random.pick(&[START, END]);
    put_between(random, &mut frames[1], &[mark]);
    frames
}

/// Row 1: another first or last byte, a missing one, or next to nothing left.
fn break_an_end(random: &mut Random, frame: &mut Vec<u8>) {
    let last = frame.len() - 1;
    match random.below(6) {
        0 => frame[0] = random.pick(&[10, 12, 14, 94, 0, 141]),
        1 => frame[last] = random.pick(&[13, 9, 11, 94, 0, 138]),
        2 => frame.truncate(last),
        3 => drop(frame.remove(0)),
        4 => frame.truncate(random.below(2)),
        _ => frame.reverse(),
    }
}

/// Puts bytes somewhere between the ends.
fn put_between(random: &mut Random, frame: &mut Vec<u8>, bytes: &[u8]) {
    let place = random.between(1, frame.len() - 1);
    frame.splice(place..place, bytes.iter().copied());
}

/// One to three accidents on the wire, whatever they make of the frame.
pub fn damage(random: &mut Random, frame: &mut Vec<u8>) {
    for _ in 0..random.pick(&[1, 1, 2, 3]) {
        if frame.len() >= 2 {
            accident(random, frame);
        }
    }
}

/// One accident to a frame of at least 2 bytes.
fn accident(random: &mut Random, frame: &mut Vec<u8>) {
    let place = random.below(frame.len());
    match random.below(10) {
        0 => frame[place] ^= 1 << random.below(8),
        1 => frame[place] = random.byte(),
        2 => put_between(random, frame, &[START]),
        3 => put_between(random, frame, &[END]),
        4 => put_between(random, frame, &[SUBSTITUTION]),
        5 => put_wrong_substitution(random, frame),
        6 => frame.truncate(place),
        7 => drop(frame.drain(..place)),
        8 => drop(frame.remove(place)),
        _ => spoil_a_pair(random, frame),
    }
}

/// A substituted pair loses its 94, its 64 or its code, as when a sender forgets the conversion.
fn spoil_a_pair(random: &mut Random, frame: &mut Vec<u8>) {
    let place = match frame.windows(2).position(|pair| pair[0] == SUBSTITUTION && CODES.contains(&pair[1])) {
        Some(place) => place,
        None => return,
    };
    match random.below(3) {
        0 => drop(frame.remove(place)),
        1 => drop(frame.splice(place..place + 2, [frame[place + 1] - 64])),
        _ => frame[place + 1] = random.byte(),
    }
}

/// A frame's start and bytes after it without another mark, so many in all.
pub fn runaway(random: &mut Random, length: usize) -> Vec<u8> {
    let unmarked = |byte| if [START, END].contains(&byte) { SUBSTITUTION } else { byte };
    [START].into_iter().chain(random.bytes(length - 1).into_iter().map(unmarked)).collect()
}

/// A frame of so many bytes, both ends included, with nothing but 94 between them: the reader says 3, however long it
/// is, and also where bytes of it are lost.
pub fn wrong_frame(length: usize) -> Vec<u8> {
    [vec![START], vec![SUBSTITUTION; length - 2], vec![END]].concat()
}

/// A frame of so many bytes, both ends included: of any bytes, of row 3's faults, or of substituted pairs.
pub fn frame_of(random: &mut Random, length: usize) -> Vec<u8> {
    match random.below(3) {
        0 => [runaway(random, length - 1), vec![END]].concat(),
        1 => wrong_frame(length),
        _ => frame_of_pairs(random, length),
    }
}

/// A frame of so many bytes, every byte of its message substituted; where the length is odd, all but the type.
fn frame_of_pairs(random: &mut Random, length: usize) -> Vec<u8> {
    let mut frame = vec![START];
    for _ in 0..(length - 2) / 2 {
        frame.extend([SUBSTITUTION, random.pick(&CODES)]);
    }
    if length % 2 == 1 {
        frame.insert(5, random.below(10) as u8);
    }
    frame.push(END);
    frame
}

/// A frame of a few bytes, most of them marks.
pub fn tiny(random: &mut Random) -> Vec<u8> {
    let length = random.below(6);
    (0..length).map(|_| random.pick(&[13, 10, 94, 13, 10, 94, 74, 77, 158, 0, 65])).collect()
}
