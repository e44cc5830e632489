//! Noise that is no burst: an odd number of a message's bits altered, or exactly two, wherever they lie. Bits are
//! counted from 0 in the order of the papers: byte after byte, each highest bit first.

use crate::random::Random;
use crate::remainder::bits_of;
use std::ops::Range;

/// The bits of destination, source, type and register, the first of a message.
pub const FIELDS: usize = 32;
/// The bits of the remainder, the last of a message.
pub const CHECK: usize = 16;

/// A sort of noise: what it is called, and which bits it alters in a message of so many.
pub type Noise = (&'static str, fn(&mut Random, usize) -> Vec<usize>);

/// Noise of an odd number of bits, then of two.
pub const NOISES: [Noise; 14] = [
    ("1 bit", |random, all| some(random, 1, 0..all)),
    ("3 bits", |random, all| some(random, 3, 0..all)),
    ("5 to 15 bits", |random, all| {
        let count = random.pick(&[5, 7, 9, 11, 13, 15]);
        some(random, count, 0..all)
    }),
    ("any odd number", |random, all| odd(random, 0..all)),
    ("all but 1 to 15", |random, all| {
        let kept = random.pick(&[1, 3, 5, 7, 9, 11, 13, 15]);
        some(random, all - kept, 0..all)
    }),
    ("odd in the fields", |random, _| odd(random, 0..FIELDS)),
    ("odd in the check", |random, all| odd(random, all - CHECK..all)),
    ("odd with both ends", |random, all| [ends(all), odd(random, 1..all - 1)].concat()),
    ("two anywhere", |random, all| some(random, 2, 0..all)),
    ("two neighbours", |random, all| apart(random, all, 1)),
    ("two in the fields", |random, _| some(random, 2, 0..FIELDS)),
    ("two in the check", |random, all| some(random, 2, all - CHECK..all)),
    ("one of two in the check", |random, all| {
        [some(random, 1, 0..all - CHECK), some(random, 1, all - CHECK..all)].concat()
    }),
    ("both ends", |_, all| ends(all)),
];

/// So many different bits of these.
fn some(random: &mut Random, count: usize, among: Range<usize>) -> Vec<usize> {
    let mut bits: Vec<usize> = among.collect();
    random.shuffle(&mut bits);
    bits.truncate(count);
    bits
}

/// An odd number of different bits of these, of which there is an even number.
fn odd(random: &mut Random, among: Range<usize>) -> Vec<usize> {
    let count = 2 * random.below(among.len() / 2) + 1;
    some(random, count, among)
}

/// The first bit and the last one.
fn ends(all: usize) -> Vec<usize> {
    vec![0, all - 1]
}

/// Two bits, the second so many places behind the first.
pub fn apart(random: &mut Random, all: usize, distance: usize) -> Vec<usize> {
    let first = random.below(all - distance);
    vec![first, first + distance]
}

/// Whether so many altered bits are such noise.
pub fn is_noise(count: usize) -> bool {
    count == 2 || count % 2 == 1
}

/// Inverts one bit.
pub fn invert(message: &mut [u8], bit: usize) {
    message[bit / 8] ^= 128 >> (bit % 8);
}

/// The message with these bits altered.
pub fn altered(message: &[u8], bits: &[usize]) -> Vec<u8> {
    let mut altered = message.to_vec();
    bits.iter().for_each(|bit| invert(&mut altered, *bit));
    altered
}

/// The message with another byte at this place. Where that alters an even number of bits, but not two, the last bit of
/// the message is altered too, so that it is such noise in any case. The place is ahead of the remainder.
pub fn towards(message: &[u8], place: usize, byte: u8) -> Vec<u8> {
    let mut altered = message.to_vec();
    altered[place] = byte;
    if !is_noise(differing(message, &altered).len()) {
        invert(&mut altered, 8 * message.len() - 1);
    }
    altered
}

/// The bits in which two equally long messages differ, by rising place.
pub fn differing(one: &[u8], other: &[u8]) -> Vec<usize> {
    let pairs = bits_of(one).into_iter().zip(bits_of(other));
    pairs.enumerate().filter(|(_, (a, b))| a != b).map(|(bit, _)| bit).collect()
}
