//! A call script of a few captures, each joined and then cut at every place: each must end alike.

use crate::calls::hex;
use crate::chunks::cut_at;
use crate::faults::{all_substituted, longest, wrong_frame};
use crate::telegram::{END, LONGEST_TELEGRAM, START};
use crate::vectors::SAMPLE_CAPTURE;

/// The chunks of the call scripts' example, joined.
const EXAMPLE_CAPTURE: [u8; 10] = [0x0D, 0xA2, 0x0F, 0x03, 0x0D, 0x30, 0x48, 0x2F, 0x0A, 0x0D];
/// Frames with a faulty 94: after a right pair and before one, the last byte before the end, the first after the start
/// and another, and one that a second start drops.
const BROKEN_CAPTURE: [u8; 25] = [
    13, 94, 74, 94, 94, 74, 10, 13, 162, 15, 94, 158, 94, 10, 13, 94, 65, 94, 64, 10, 13, 94, 13, 94, 10,
];
/// A capture of more bytes is not cut everywhere.
const CUT_EVERYWHERE: usize = 100;
/// How near to its ends and to the longest telegram's end such a capture is cut.
const NEAR: usize = 8;

/// The captures: the papers' own, frames up to the limit and past it, and a runaway with each end it may come to.
fn captures() -> Vec<Vec<u8>> {
    let runaway = &wrong_frame(501)[..500];
    vec![
        SAMPLE_CAPTURE.to_vec(),
        EXAMPLE_CAPTURE.to_vec(),
        vec![START, START, END],
        BROKEN_CAPTURE.to_vec(),
        longest().telegram(),
        all_substituted().telegram(),
        wrong_frame(LONGEST_TELEGRAM),
        wrong_frame(LONGEST_TELEGRAM + 1),
        [&wrong_frame(500), &SAMPLE_CAPTURE[..]].concat(),
        [runaway, &SAMPLE_CAPTURE].concat(),
        runaway.to_vec(),
    ]
}

/// The places where a capture of this length is cut.
fn places(length: usize) -> Vec<usize> {
    let is_near = |place: usize| [0, LONGEST_TELEGRAM, length].iter().any(|limit| limit.abs_diff(place) <= NEAR);
    (0..=length).filter(|place| length <= CUT_EVERYWHERE || is_near(*place)).collect()
}

/// The call lines of a capture in chunks.
fn calls(chunks: &[&[u8]]) -> String {
    let feeds: String = chunks.iter().map(|chunk| format!("rx.feed {}\n", hex(chunk))).collect();
    format!("rx.new 0\n{feeds}rx.end\n")
}

/// The whole script, each line ended by one newline.
pub fn script() -> String {
    let each = |capture: Vec<u8>| {
        let cut: String = places(capture.len()).iter().map(|place| calls(&cut_at(&capture, &[*place]))).collect();
        calls(&[&capture]) + &cut
    };
    captures().into_iter().map(each).collect()
}
