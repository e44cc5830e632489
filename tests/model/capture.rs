//! Captures made by the seed: a line with traffic of four rigs, noise, and damage of every sort.

use crate::bench::Bench;
use crate::desk::{Desk, Request};
use crate::faults::{
    all_substituted, break_in, broken, damage, data, filled, flip_within_16, frame_of, longest, message, runaway, spoil,
    tiny, BREAKS,
};
use crate::random::Random;
use crate::telegram::{frame, Message, No, END, LONGEST_TELEGRAM, MOST_DATA, START};
use crate::values::KINDS;

/// The addresses of the four rigs' modules; two of them are bytes that are substituted.
const RIGS: [u8; 4] = [15, 10, 94, 160];
/// The registers of each module.
const REGISTERS: [u8; 7] = [0x10, 0x30, 0x31, 0x5E, 0x66, 0x71, 0x0D];

/// What one exchange takes, in ms: a round of all 95 addresses takes longer than a rest, so that no address is
/// passed over.
const EXCHANGE: u32 = 20;

/// The line: one desk, the clock on the wall, and four rigs that answer.
struct Line {
    random: Random,
    desk: Desk,
    clock: u32,
    rigs: Vec<Bench>,
}

/// A piece of a capture, made anew each time.
type Piece = fn(&mut Line) -> Vec<u8>;

/// All pieces, the right traffic most often.
const ANY: [Piece; 10] = [exchange, exchange, exchange, noise, other_message, damaged, spoiled, cut, too_long, starts];

/// The pieces of an ordinary night.
const NIGHT: [Piece; 8] = [exchange, exchange, exchange, exchange, exchange, exchange, noise, cut];
/// So many neighbouring seeds give each sort of capture.
const SORTS: u64 = 17;

impl Line {
    /// The line of this seed, before any traffic.
    fn new(seed: u64) -> Line {
        let rigs = RIGS.iter().filter_map(|own| rig(*own)).collect();
        Line { random: Random::new(seed), desk: Desk::new(), clock: 0, rigs }
    }
}

/// The capture of a seed. Neighbouring seeds give each sort in turn: all that goes wrong on a line, lengths around
/// 65536, frames around 494 bytes, runaways with each end they may come to, and a long night.
pub fn capture(seed: u64) -> Vec<u8> {
    let mut line = Line::new(seed);
    let short = line.random.between(20, 3000);
    let around = line.random.between(65400, 65700);
    match seed % SORTS {
        0 if seed % (2 * SORTS) == 0 => Vec::new(),
        0 => tiny(&mut line.random),
        1 => record(&mut line, &[noise], short),
        2 => record(&mut line, &[exchange], short),
        3 => record(&mut line, &[damaged, spoiled, badly_substituted, exchange], short),
        4 => record(&mut line, &[cut, exchange], short),
        5 => record(&mut line, &[too_long, exchange], 5 * short),
        6 => record(&mut line, &[starts, exchange], short),
        7 => record(&mut line, &ANY, short),
        8 => record(&mut line, &ANY, 65535),
        9 => record(&mut line, &ANY, 65536),
        10 => record(&mut line, &ANY, 65537),
        11 => record(&mut line, &ANY, around),
        12 => record(&mut line, &[near_limit, broken_near_limit, exchange], 10_000 + short),
        13 => ended_runaway(&mut line, short, 100_000 + short, END),
        14 => ended_runaway(&mut line, short, 100_000 + short, START),
        15 => open_runaway(&mut line, short, 100_000 + short),
        _ => record(&mut line, &NIGHT, 300_000 + short),
    }
}

/// A short capture of any of those sorts, scaled down as far as they go.
pub fn short(seed: u64) -> Vec<u8> {
    let mut line = Line::new(seed);
    let few = line.random.between(1, 39);
    let some = line.random.between(40, 300);
    let many = LONGEST_TELEGRAM - 1 + line.random.pick(&[0, 1, 2, 3, 50, 200]);
    match line.random.below(15) {
        0 => tiny(&mut line.random),
        1 => record(&mut line, &[noise], few),
        2 | 3 => record(&mut line, &[exchange], few),
        4 => record(&mut line, &[starts, exchange], few),
        5 => record(&mut line, &ANY, few),
        6 => record(&mut line, &[damaged, spoiled, badly_substituted, exchange], some),
        7 => record(&mut line, &[cut, exchange], some),
        8 => record(&mut line, &NIGHT, some),
        9 => record(&mut line, &ANY, some),
        10 => [near_limit(&mut line), exchange(&mut line)].concat(),
        11 => [broken_near_limit(&mut line), exchange(&mut line)].concat(),
        12 => ended_runaway(&mut line, few, many, END),
        13 => ended_runaway(&mut line, few, many, START),
        _ => open_runaway(&mut line, few, many),
    }
}

/// A rig's module on this address, with a register of each kind and every right.
fn rig(own: u8) -> Option<Bench> {
    let mut bench = Bench::new(own).ok()?;
    for (register, kind) in REGISTERS.iter().zip(KINDS) {
        bench.add(*register, kind, 7).ok()?;
    }
    Some(bench)
}

/// A record of exactly this length from such pieces; its last frame may be cut, or closed just at the end.
fn record(line: &mut Line, pieces: &[Piece], length: usize) -> Vec<u8> {
    let mut record = Vec::new();
    while record.len() < length {
        let piece = line.random.pick(pieces);
        record.extend(piece(line));
    }
    record.truncate(length);
    if line.random.one_in(3) {
        record[length - 1] = line.random.pick(&[START, END]);
    }
    record
}

/// So much traffic, and a frame that runs on for so many bytes and has come to no end.
fn open_runaway(line: &mut Line, traffic: usize, length: usize) -> Vec<u8> {
    let mut capture = record(line, &ANY, traffic);
    capture.extend(runaway(&mut line.random, length));
    capture
}

/// The same, the frame closed by a 10 or dropped by a second 13, and as much traffic after it.
fn ended_runaway(line: &mut Line, traffic: usize, length: usize, mark: u8) -> Vec<u8> {
    let mut capture = open_runaway(line, traffic, length);
    capture.push(mark);
    capture.extend(record(line, &ANY, traffic));
    capture
}

/// A request to one of the rigs and its reply; now and then the reply is lost and the ticket cancelled.
fn exchange(line: &mut Line) -> Vec<u8> {
    let rig = line.random.below(line.rigs.len());
    line.clock = line.clock.wrapping_add(EXCHANGE);
    let request = request(&mut line.random, line.rigs[rig].address, line.clock);
    let (address, mut traffic) = match line.desk.open(&request, usize::MAX) {
        Ok(opened) => (opened.address, opened.telegram),
        Err(_) => return Vec::new(),
    };
    let reply = line.rigs[rig].tele(&traffic, usize::MAX).unwrap_or_default();
    if !line.random.one_in(10) && line.desk.reply(&reply, MOST_DATA).is_ok() {
        traffic.extend(reply);
        return traffic;
    }
    line.desk.cancel(request.job, address, line.clock).map_or_else(|_| Vec::new(), |_| traffic)
}

/// A request for a module, of a size that fits some of its registers.
fn request(random: &mut Random, module: u8, clock: u32) -> Request {
    let type_no = random.pick(&[4, 4, 4, 5, 6, 7, 9]);
    let length = if type_no == 4 { 0 } else { random.pick(&[1, 2, 4, 8]) };
    let (job, register, data) = (random.between(1, 40) as u32, random.pick(&REGISTERS), data(random, length));
    Request { job, module, type_no, register, data, wait: 100, folder: 0, clock }
}

/// Bytes outside of any order.
fn noise(line: &mut Line) -> Vec<u8> {
    let length = line.random.below(60);
    line.random.bytes(length)
}

/// A right frame between any two addresses, of any length.
fn other_message(line: &mut Line) -> Vec<u8> {
    message(&mut line.random).telegram()
}

/// A frame after accidents on the wire, or with neighbouring bits altered.
fn damaged(line: &mut Line) -> Vec<u8> {
    let message = message(&mut line.random);
    if line.random.one_in(3) {
        let mut bytes = message.bytes();
        flip_within_16(&mut line.random, &mut bytes);
        return frame(&bytes);
    }
    let mut frame = message.telegram();
    damage(&mut line.random, &mut frame);
    frame
}

/// A frame with the fault of some row of the reader.
fn spoiled(line: &mut Line) -> Vec<u8> {
    let message = message(&mut line.random);
    let row = line.random.between(1, 9) as No;
    spoil(&mut line.random, &message, row)
}

/// Frames whose substitution is broken in some way.
fn badly_substituted(line: &mut Line) -> Vec<u8> {
    let (message, way) = (message(&mut line.random), line.random.pick(&BREAKS));
    broken(&mut line.random, &message, way).concat()
}

/// A frame that breaks off.
fn cut(line: &mut Line) -> Vec<u8> {
    let mut frame = message(&mut line.random).telegram();
    frame.truncate(line.random.below(frame.len()));
    frame
}

/// A frame over 494 bytes, its remainder right all the same.
fn too_long(line: &mut Line) -> Vec<u8> {
    let length = line.random.pick(&[241, 486, 488, 490, 600, 2000]);
    let data = data(&mut line.random, length);
    Message { data, ..message(&mut line.random) }.telegram()
}

/// A frame of the most bytes that are read, one less or one more.
fn near_limit(line: &mut Line) -> Vec<u8> {
    match line.random.below(8) {
        0 => longest().telegram(),
        1 => all_substituted().telegram(),
        2 => frame_of(&mut line.random, LONGEST_TELEGRAM - 1),
        3 | 4 => frame_of(&mut line.random, LONGEST_TELEGRAM),
        _ => frame_of(&mut line.random, LONGEST_TELEGRAM + 1),
    }
}

/// A frame of such a length whose substitution is broken in some way.
fn broken_near_limit(line: &mut Line) -> Vec<u8> {
    let length = LONGEST_TELEGRAM - 1 + line.random.below(3);
    let mut frame = filled(&mut line.random, length);
    let way = line.random.pick(&BREAKS);
    break_in(&mut line.random, &mut frame, way);
    frame
}

/// Many starts, now and then an end or a byte between them.
fn starts(line: &mut Line) -> Vec<u8> {
    let length = line.random.below(30);
    (0..length).map(|_| line.random.pick(&[START, START, START, START, END, 0, 94])).collect()
}
