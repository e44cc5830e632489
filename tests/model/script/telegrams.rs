//! Sections over single telegrams: the remainder, the reader, the writer.

use super::{buffer, enough, room, too_little, Script};
use crate::calls::hex;
use crate::faults::{broken, damage, data, flip_unseen, flip_within_16, longest, message, spoil, tiny, BREAKS};
use crate::random::Random;
use crate::telegram::{frame, Message, No, MOST_DATA};

/// Remainders of any strings, of whole messages, and of two strings and their exclusive or.
pub fn remainders(script: &mut Script) {
    for length in [0, 1, 2, 3, 17, MOST_DATA, 244, 246, 400] {
        let bytes = script.random.bytes(length);
        script.call(format!("rem {}", hex(&bytes)));
    }
    for _ in 0..10 {
        let whole = message(&mut script.random).bytes();
        script.call(format!("rem {}", hex(&whole)));
        one_and_other(script);
    }
}

/// Two equally long strings and their exclusive or.
fn one_and_other(script: &mut Script) {
    let length = script.random.below(40);
    let (one, other) = (script.random.bytes(length), script.random.bytes(length));
    let both: Vec<u8> = one.iter().zip(&other).map(|(a, b)| a ^ b).collect();
    for bytes in [one, other, both] {
        script.call(format!("rem {}", hex(&bytes)));
    }
}

/// The reader: right frames, each row's fault, altered bits, accidents on the wire, tiny and long frames.
pub fn reads(script: &mut Script) {
    for _ in 0..60 {
        right_frame(script);
    }
    for row in (1..=9).cycle().take(9 * 14) {
        spoiled_frame(script, row);
    }
    for _ in 0..40 {
        altered_bits(script);
        damaged_frame(script);
    }
    for _ in 0..20 {
        unseen_alteration(script);
        tiny_frame(script);
        long_frame(script);
    }
    for room in [MOST_DATA - 1, MOST_DATA, MOST_DATA + 1] {
        read(script, &longest().telegram(), room);
    }
}

/// Adds a read of this frame into a buffer of that length.
pub fn read(script: &mut Script, frame: &[u8], room: usize) {
    script.call(format!("read {} {}", hex(frame), hex(&buffer(room))));
}

/// A right frame, with buffers around the very length of its data.
fn right_frame(script: &mut Script) {
    let message = message(&mut script.random);
    let room = room(&mut script.random, message.data.len());
    read(script, &message.telegram(), room);
}

/// A frame with the fault of this row, others after it, and a buffer that leaves the row the lowest.
fn spoiled_frame(script: &mut Script, row: No) {
    let random = &mut script.random;
    let mut message = message(random);
    if row == 6 && message.data.is_empty() {
        message.data = data(random, 2);
    }
    let needed = message.data.len();
    let room = match row {
        1..=5 => room(random, needed),
        6 => too_little(random, needed),
        _ => enough(random, needed),
    };
    let frame = spoil(random, &message, row);
    read(script, &frame, room);
}

/// An accepted message altered within 16 neighbouring bits and framed again: a check fault.
fn altered_bits(script: &mut Script) {
    let mut bytes = message(&mut script.random).bytes();
    flip_within_16(&mut script.random, &mut bytes);
    let room = enough(&mut script.random, MOST_DATA);
    read(script, &frame(&bytes), room);
}

/// An accepted message altered by the polynomial itself: the check cannot see it.
fn unseen_alteration(script: &mut Script) {
    let mut bytes = message(&mut script.random).bytes();
    flip_unseen(&mut script.random, &mut bytes);
    let room = enough(&mut script.random, bytes.len() - 6);
    read(script, &frame(&bytes), room);
}

/// A frame after accidents on the wire.
fn damaged_frame(script: &mut Script) {
    let message = message(&mut script.random);
    let mut frame = message.telegram();
    damage(&mut script.random, &mut frame);
    let room = room(&mut script.random, message.data.len());
    read(script, &frame, room);
}

/// A frame of next to nothing.
fn tiny_frame(script: &mut Script) {
    let frame = tiny(&mut script.random);
    let room = script.random.below(3);
    read(script, &frame, room);
}

/// A frame around the longest message, with right and wrong remainders and any buffer.
fn long_frame(script: &mut Script) {
    let random = &mut script.random;
    let length = random.pick(&[239, 240, 241, 242, 300, 488, 489, 490, 600]);
    let data = data(random, length);
    let mut bytes = Message { data, ..message(random) }.bytes();
    if random.one_in(3) {
        flip_within_16(random, &mut bytes);
    }
    let room = random.pick(&[0, 100, 239, 240, 241, 300, length]);
    read(script, &frame(&bytes), room);
}

/// The reader on frames whose substitution is broken, in each way there is, with any buffer.
pub fn broken_frames(script: &mut Script) {
    for way in BREAKS.iter().cycle().take(BREAKS.len() * 4) {
        let message = message(&mut script.random);
        for frame in broken(&mut script.random, &message, *way) {
            let room = room(&mut script.random, message.data.len());
            read(script, &frame, room);
        }
    }
}

/// The writer: right messages, and each row's fault with others after it.
pub fn writes(script: &mut Script) {
    for _ in 0..60 {
        let message = message(&mut script.random);
        let room = room(&mut script.random, message.telegram().len());
        write(script, &message, room);
    }
    for row in [5, 8, 9, 6].iter().cycle().take(4 * 20) {
        spoiled_write(script, *row);
    }
    for room in [492, 493, 494] {
        write(script, &longest(), room);
    }
}

/// Adds a write of this message into a buffer of that length.
fn write(script: &mut Script, message: &Message, room: usize) {
    let Message { dest, source, type_no, register, data } = message;
    script.call(format!("write {dest} {source} {type_no} {register} {} {}", hex(data), hex(&buffer(room))));
}

/// A message that can't be written for this row, with later faults of the order 5, 8, 9, 6 by chance.
fn spoiled_write(script: &mut Script, row: No) {
    let random = &mut script.random;
    let from_row = [5, 8, 9, 6].into_iter().skip_while(|no| *no != row);
    let faults: Vec<No> = from_row.filter(|no| *no == row || random.one_in(3)).collect();
    let mut message = message(random);
    for fault in &faults {
        spoil_message(random, &mut message, *fault);
    }
    let needed = message.telegram().len();
    let room = if faults.contains(&6) { too_little(random, needed) } else { enough(random, needed) };
    write(script, &message, room);
}

/// Makes a message unwritable by row 5, 8 or 9; row 6 is a matter of the buffer.
fn spoil_message(random: &mut Random, message: &mut Message, row: No) {
    match row {
        5 => message.data = vec![random.byte(); MOST_DATA + random.pick(&[1, 1, 2, 100])],
        8 => (message.dest, message.source) = random.pick(&[(0, message.source), (message.dest, 0), (0, 0)]),
        9 => message.type_no = random.pick(&[10, 10, 11, 13, 94, 255]),
        _ => (),
    }
}
