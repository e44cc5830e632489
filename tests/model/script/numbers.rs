//! Sections over values and the catalogue.

use super::{buffer, room, Script};
use crate::calls::hex;
use crate::catalogue;
use crate::random::Random;
use crate::values::{greatest, least, size, stored, KINDS};

/// The ends of the values a script can show.
const LEAST_SHOWN: i128 = -9223372036854775808;
const GREATEST_SHOWN: i128 = 18446744073709551615;
/// Kinds that are none.
const NO_KINDS: [u8; 4] = [0, 8, 9, 255];

/// A number near an end of a kind, past it, near 0, or anywhere in the kind; always one a script can show.
pub fn number(random: &mut Random, kind: u8) -> i128 {
    let (least, greatest) = (least(kind).unwrap_or(0), greatest(kind).unwrap_or(255));
    let number = match random.below(8) {
        0 => least,
        1 => greatest,
        2 => least - 1,
        3 => greatest + 1,
        4 => random.pick(&[0, 1, -1, 10, 13, 94, 127, 128, -128, -129, 255, 256, 32768, 65536, -2147483649]),
        5 => random.pick(&[LEAST_SHOWN, GREATEST_SHOWN, 9223372036854775807, 9223372036854775808]),
        _ => least + i128::from(random.bits()).rem_euclid(greatest - least + 1),
    };
    number.clamp(LEAST_SHOWN, GREATEST_SHOWN)
}

/// A number of the kind.
pub fn fitting(random: &mut Random, kind: u8) -> i128 {
    number(random, kind).clamp(least(kind).unwrap_or(0), greatest(kind).unwrap_or(0))
}

/// A number past the kind's ends, mostly one past; what lies past U64's end no script can show.
pub fn unfitting(random: &mut Random, kind: u8) -> i128 {
    let below = least(kind).unwrap_or(0) - 1;
    let above = greatest(kind).unwrap_or(0) + 1;
    let past: Vec<i128> = [below, above, LEAST_SHOWN, GREATEST_SHOWN, 2 * below]
        .into_iter()
        .filter(|past| is_past(kind, *past))
        .collect();
    random.pick(&past)
}

/// Whether a number can be shown and does not fit the kind.
fn is_past(kind: u8, number: i128) -> bool {
    (LEAST_SHOWN..=GREATEST_SHOWN).contains(&number) && stored(kind, number).is_err()
}

/// Elements of arrays of every kind, at the end, past it and far past it.
pub fn value_reads(script: &mut Script) {
    for kind in KINDS {
        for _ in 0..12 {
            element(script, kind);
        }
        wrong_length(script, kind);
        wrong_length(script, kind);
    }
    for kind in NO_KINDS.iter().cycle().take(16) {
        let length = script.random.below(10);
        let bytes = script.random.bytes(length);
        let index = script.random.below(10);
        script.call(format!("val.get {kind} {} {index}", hex(&bytes)));
    }
}

/// An element of an array of this kind, or one that is not there.
fn element(script: &mut Script, kind: u8) {
    let random = &mut script.random;
    let count = random.pick(&[1, 1, 2, 3, 8, 30]);
    let bytes: Vec<u8> = (0..count).flat_map(|_| stored(kind, fitting(random, kind)).unwrap_or_default()).collect();
    let index = match random.below(4) {
        0 => random.pick(&[1 << 31, 1 << 32, 1 << 60, 1 << 61, 1 << 62, 1 << 63, u64::MAX - 1, u64::MAX]),
        1 => random.pick(&[count - 1, count, count + 1, bytes.len() as u64]),
        _ => random.bits() % count,
    };
    script.call(format!("val.get {kind} {} {index}", hex(&bytes)));
}

/// A length that is 0 or, for the larger kinds, no multiple of the size.
fn wrong_length(script: &mut Script, kind: u8) {
    let random = &mut script.random;
    let size = size(kind).unwrap_or(1);
    let length = if random.one_in(2) { 0 } else { size * random.below(4) + random.below(size) };
    let index = random.pick(&[0, 1, u64::MAX]);
    let bytes = random.bytes(length);
    script.call(format!("val.get {kind} {} {index}", hex(&bytes)));
}

/// Values of every kind near both ends, into buffers around the kind's size.
pub fn value_writes(script: &mut Script) {
    for kind in KINDS.iter().chain(&NO_KINDS[..2]).cycle().take(9 * 14) {
        let value = number(&mut script.random, *kind);
        let room = room(&mut script.random, size(*kind).unwrap_or(2));
        script.call(format!("val.put {kind} {value} {}", hex(&buffer(room))));
    }
    for kind in KINDS {
        let value = fitting(&mut script.random, kind);
        let short = script.random.below(size(kind).unwrap_or(1));
        script.call(format!("val.put {kind} {value} {}", hex(&buffer(short))));
    }
}

/// Every row of the catalogue, the registers beside it, and the same register of other module types.
pub fn catalogue_queries(script: &mut Script) {
    for (type_no, register) in catalogue::pairs() {
        for near in [register - 1, register, register + 1] {
            script.call(format!("cat {type_no} {near}"));
        }
        let other = script.random.pick(&[0x66, 0x67, 0x68, 0x69, 0x73, 0x74, 0x75, 0x61, 0, 255]);
        script.call(format!("cat {other} {register}"));
    }
    for _ in 0..15 {
        let (type_no, register) = (script.random.pick(&[0x67, 0x68, 0x74]), script.random.byte());
        script.call(format!("cat {type_no} {register}"));
    }
}
