//! Register values: seven kinds, lowest byte first, signed kinds in two's complement.

use crate::telegram::{lowest, No};

/// All kinds, U8 to U64.
pub const KINDS: [u8; 7] = [1, 2, 3, 4, 5, 6, 7];

/// The size of a kind in bytes, or 40 for what is no kind.
pub fn size(kind: u8) -> Result<usize, No> {
    match kind {
        1 | 2 => Ok(1),
        3 | 4 => Ok(2),
        5 | 6 => Ok(4),
        7 => Ok(8),
        _ => Err(40),
    }
}

/// How many numbers so many bytes can tell apart.
fn span(size: usize) -> i128 {
    (0..size).fold(1, |span, _| span * 256)
}

/// The least number of a kind: I8, I16 and I32 reach half their span below 0.
pub fn least(kind: u8) -> Result<i128, No> {
    let span = span(size(kind)?);
    Ok(if [2, 4, 6].contains(&kind) { -span / 2 } else { 0 })
}

/// The greatest number of a kind.
pub fn greatest(kind: u8) -> Result<i128, No> {
    Ok(least(kind)? + span(size(kind)?) - 1)
}

/// The bytes a number is stored as, lowest first, or 40 or 43.
pub fn stored(kind: u8, value: i128) -> Result<Vec<u8>, No> {
    let size = size(kind)?;
    lowest(&[(43, value < least(kind)? || value > greatest(kind)?)])?;
    let mut left = value.rem_euclid(span(size));
    let mut bytes = Vec::new();
    for _ in 0..size {
        bytes.push((left % 256) as u8);
        left /= 256;
    }
    Ok(bytes)
}

/// Writes a value for a buffer with this room: 40, 43, 44.
pub fn put(kind: u8, value: i128, room: usize) -> Result<Vec<u8>, No> {
    let bytes = stored(kind, value)?;
    lowest(&[(44, bytes.len() > room)])?;
    Ok(bytes)
}

/// Reads the element of that index, counted from 0: 40, 41, 42.
pub fn get(kind: u8, bytes: &[u8], index: u64) -> Result<i128, No> {
    let size = size(kind)?;
    lowest(&[(41, bytes.is_empty() || bytes.len() % size != 0)])?;
    let elements: Vec<&[u8]> = bytes.chunks(size).collect();
    lowest(&[(42, i128::from(index) >= elements.len() as i128)])?;
    let number = elements[index as usize].iter().rev().fold(0, |number, byte| number * 256 + i128::from(*byte));
    Ok(if number > greatest(kind)? { number - span(size) } else { number })
}
