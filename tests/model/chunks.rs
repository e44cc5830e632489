//! The receiver held against the listing: a capture in chunks, however cut, and one reading of its bytes joined.

use crate::calls::hex;
use crate::capture;
use crate::listing::{list, HEADER};
use crate::random::Random;
use crate::receiver::Receiver;
use crate::tally::Tally;
use crate::telegram::{END, LONGEST_TELEGRAM, START};

/// A capture shorter than this may be cut at every place.
const CUT_EVERYWHERE: usize = 40;
/// How many times a capture is cut at random, and at how many places at most.
const RANDOM_CUTS: usize = 8;
const MOST_PLACES: usize = 12;

/// The chunks of a capture that is cut at these places, in rising order. A place that stands there twice gives a chunk
/// of no bytes, and so does either end.
pub fn cut_at<'a>(capture: &'a [u8], places: &[usize]) -> Vec<&'a [u8]> {
    let from = [0].iter().chain(places);
    let to = places.iter().copied().chain([capture.len()]);
    from.zip(to).map(|(from, to)| &capture[*from..to]).collect()
}

/// Places to cut at: none, every one of a short capture, or at most so many at random.
pub fn places(random: &mut Random, capture: &[u8], most: usize) -> Vec<usize> {
    if random.one_in(6) {
        return Vec::new();
    }
    if capture.len() < CUT_EVERYWHERE && random.one_in(4) {
        return (0..=capture.len()).collect();
    }
    let mut places: Vec<usize> = (0..random.between(1, most)).map(|_| place(random, capture)).collect();
    places.sort_unstable();
    places
}

/// A place to cut at: anywhere, before or after a mark, or where a frame is about to get too long.
fn place(random: &mut Random, capture: &[u8]) -> usize {
    let anywhere = random.between(0, capture.len());
    let start = capture[..anywhere].iter().rposition(|byte| *byte == START).unwrap_or(0);
    let mark = capture[anywhere..].iter().position(|byte| [START, END].contains(byte)).unwrap_or(0);
    let place = match random.below(5) {
        0 => anywhere + mark,
        1 => anywhere + mark + 1,
        2 => start + LONGEST_TELEGRAM + random.below(5) - 2,
        _ => anywhere,
    };
    place.min(capture.len())
}

/// All the ways to cut a capture that are compared: at random, not at all and into single bytes, and a short one at
/// every place and at every pair of places.
fn cuts(random: &mut Random, capture: &[u8]) -> Vec<Vec<usize>> {
    let length = capture.len();
    let mut cuts: Vec<Vec<usize>> = (0..RANDOM_CUTS).map(|_| places(random, capture, MOST_PLACES)).collect();
    cuts.extend([Vec::new(), (0..=length).collect()]);
    if length < CUT_EVERYWHERE {
        cuts.extend((0..=length).map(|place| vec![place]));
        cuts.extend((0..=length).flat_map(|first| (first..=length).map(move |second| vec![first, second])));
    }
    cuts
}

/// One reading of a capture's bytes joined: the listing of each beginning of it, and the receiver and the tally after
/// one chunk.
struct Joined {
    listings: Vec<String>,
    receiver: Receiver,
    tally: Tally,
}

impl Joined {
    /// The joined reading of this capture.
    fn new(capture: &[u8]) -> Joined {
        let (mut receiver, mut tally) = (Receiver::new(0), Tally::cleared());
        receiver.feed(capture, &mut tally);
        Joined { listings: (0..=capture.len()).map(|length| list(&capture[..length])).collect(), receiver, tally }
    }

    /// Whether the same capture in these chunks is read alike: after each chunk all lines so far and what is left to
    /// say, and at the end the receiver itself and the tally.
    fn is_read_alike(&self, chunks: &[&[u8]]) -> bool {
        let (mut receiver, mut tally) = (Receiver::new(0), Tally::cleared());
        let mut lines = format!("{HEADER}\n");
        let mut length = 0;
        let alike = chunks.iter().all(|chunk| {
            lines.extend(receiver.feed(chunk, &mut tally).lines.iter().map(|line| format!("{line}\n")));
            length += chunk.len();
            lines.clone() + &receiver.rest() == self.listings[length]
        });
        alike && receiver == self.receiver && tally == self.tally
    }
}

/// Compares so many short captures; tells how many cuts that were, or the first that made a difference.
pub fn report(seed: u64, captures: u64) -> (String, bool) {
    let mut random = Random::new(seed);
    let mut compared = 0;
    for _ in 0..captures {
        let capture = capture::short(random.bits());
        let joined = Joined::new(&capture);
        for places in cuts(&mut random, &capture) {
            if !joined.is_read_alike(&cut_at(&capture, &places)) {
                return (format!("FAILED {} is read otherwise when cut at {places:?}\n", hex(&capture)), false);
            }
            compared += 1;
        }
    }
    (format!("chunks: seed {seed}, {captures} captures, {compared} cuts, no difference\n"), true)
}
