//! Noise that is no burst held against the reader: a message that it accepts, of whatever length, altered in an odd
//! number of bits or in two, is refused 7. Then the grounds of that, for all pairs of bits and all odd numbers of them
//! at once: what each single bit leaves as remainder. And the bound, which no message reaches.

use crate::calls::hex;
use crate::faults::{data, message};
use crate::flips::{altered, apart, differing, is_noise, NOISES};
use crate::random::Random;
use crate::remainder::remainder;
use crate::telegram::{self, frame, Message, MOST_DATA};
use std::collections::BTreeMap;

/// The fewest and the most bytes of a message.
const SHORTEST: usize = 6;
const LONGEST: usize = SHORTEST + MOST_DATA;
/// What is tried beside the listed noises: two bits at each distance there is.
const EACH_DISTANCE: &str = "two at each distance";
/// The lengths that are told together.
const BANDS: [(usize, usize); 5] = [(SHORTEST, SHORTEST), (7, 85), (86, 165), (166, 245), (LONGEST, LONGEST)];
/// The nearest two bits that the remainder doesn't show, and the bytes that have room for them.
const UNSEEN: usize = 32767;
const UNSEEN_BYTES: usize = 4096;

/// What was tried so far.
struct Trials {
    /// What each single bit of the longest message leaves.
    singles: Vec<u16>,
    /// How often a noise was tried on a length.
    times: BTreeMap<(&'static str, usize), usize>,
}

impl Trials {
    /// Nothing tried.
    fn new() -> Trials {
        Trials { singles: singles(), times: BTreeMap::new() }
    }

    /// Tries each noise on a message of each length, and two bits at each distance on messages that are long enough.
    fn round(&mut self, random: &mut Random) -> Result<(), String> {
        let messages: Vec<Vec<u8>> = (0..=MOST_DATA).map(|length| accepted(random, length)).collect();
        for message in &messages {
            if telegram::read(&frame(message), MOST_DATA).is_err() {
                return Err(format!("{} is refused as it is", hex(message)));
            }
            let all = 8 * message.len();
            NOISES.iter().try_for_each(|(name, bits)| self.attempt(name, message, &bits(random, all)))?;
        }
        for distance in 1..8 * LONGEST {
            let shortest = SHORTEST.max(distance / 8 + 1);
            let any = random.between(shortest, LONGEST);
            let message = &messages[random.pick(&[shortest, any]) - SHORTEST];
            self.attempt(EACH_DISTANCE, message, &apart(random, 8 * message.len(), distance))?;
        }
        Ok(())
    }

    /// Alters these bits of an accepted message, frames it again and reads it. The remainder must be what the single
    /// bits leave together: where a bit stands from the end decides that, so the longest message's bits do for all.
    fn attempt(&mut self, name: &'static str, message: &[u8], bits: &[usize]) -> Result<(), String> {
        let altered = altered(message, bits);
        let from = self.singles.len() - 8 * message.len();
        let together = bits.iter().fold(0, |sum, bit| sum ^ self.singles[from + bit]);
        let refused = telegram::read(&frame(&altered), MOST_DATA).err().map(|refusal| refusal.no);
        let fault = match refused {
            _ if !is_noise(differing(message, &altered).len()) => Some("is no such noise".to_string()),
            _ if remainder(&altered) != together => Some("leaves something else than its bits together".to_string()),
            Some(7) => None,
            Some(number) => Some(format!("is refused {number}")),
            None => Some("is accepted".to_string()),
        };
        if let Some(fault) = fault {
            return Err(format!("{name}: {} altered in the bits {bits:?} {fault}", hex(message)));
        }
        *self.times.entry((name, message.len())).or_default() += 1;
        Ok(())
    }

    /// One line for each noise: how often it was tried on messages of those lengths.
    fn table(&self) -> String {
        let lengths = BANDS.map(|(least, most)| match most - least {
            0 => format!("{least} bytes"),
            _ => format!("{least} to {most}"),
        });
        let names = NOISES.iter().map(|(name, _)| *name).chain([EACH_DISTANCE]);
        let rows = names.map(|name| row(name, BANDS.map(|band| self.in_band(name, band).to_string())));
        [row("altered", lengths)].into_iter().chain(rows).collect()
    }

    /// How often this noise was tried on messages of these lengths.
    fn in_band(&self, name: &str, (least, most): (usize, usize)) -> usize {
        let of_band = |key: &(&str, usize)| key.0 == name && (least..=most).contains(&key.1);
        self.times.iter().filter(|(key, _)| of_band(key)).map(|(_, times)| times).sum()
    }
}

/// A line of the table.
fn row(name: &str, columns: [String; BANDS.len()]) -> String {
    let columns: String = columns.iter().map(|column| format!("{column:>12}")).collect();
    format!("{name:<24}{columns}\n")
}

/// The bytes of any message with so much data that the reader accepts.
fn accepted(random: &mut Random, length: usize) -> Vec<u8> {
    let data = data(random, length);
    Message { data, ..message(random) }.bytes()
}

/// What each single bit of the longest message leaves as remainder where all the others are 0.
fn singles() -> Vec<u16> {
    (0..8 * LONGEST).map(|bit| remainder(&altered(&[0; LONGEST], &[bit]))).collect()
}

/// The grounds: no two single bits leave the same, so no two together leave 0; each leaves an odd number of ones, and
/// so does every odd number of them, which is never 0. Tells how many pairs that are, or the first fault.
fn pairs(singles: &[u16]) -> Result<usize, String> {
    let mut pairs = 0;
    for (bit, one) in singles.iter().enumerate() {
        if one.count_ones() % 2 == 0 {
            return Err(format!("bit {bit} leaves an even number of ones"));
        }
        let others = &singles[bit + 1..];
        if let Some(between) = others.iter().position(|other| other == one) {
            return Err(format!("the bits {bit} and {} leave the same", bit + 1 + between));
        }
        pairs += others.len();
    }
    Ok(pairs)
}

/// The bound: two bits so far apart leave 0 in a string that is long enough, though nearer by one they don't. No
/// message is that long, but nobody may promise more.
fn bound() -> Result<(), String> {
    let leave = |first: usize| remainder(&altered(&[0; UNSEEN_BYTES], &[first, UNSEEN]));
    match (leave(0), leave(1)) {
        (0, 1..) => Ok(()),
        (far, near) => Err(format!("two bits {UNSEEN} apart leave {far}, and nearer by one {near}")),
    }
}

/// What is told of so many rounds, of all pairs and of the bound, or the first fault.
fn told(seed: u64, rounds: u64) -> Result<String, String> {
    let (mut random, mut trials) = (Random::new(seed), Trials::new());
    for _ in 0..rounds {
        trials.round(&mut random)?;
    }
    let (bits, pairs) = (trials.singles.len(), pairs(&trials.singles)?);
    bound()?;
    let tried: usize = trials.times.values().sum();
    Ok(format!(
        "{}noise: seed {seed}, {rounds} rounds, {tried} altered messages of {SHORTEST} to {LONGEST} bytes, all refused \
         7; {bits} bits, each leaves an odd number of ones; {pairs} pairs of them, none leaves 0; two bits {UNSEEN} \
         apart, in {UNSEEN_BYTES} bytes, leave 0\n",
        trials.table()
    ))
}

/// Holds the reader against so many rounds of noise; tells how much of each sort that was, by lengths, or the first
/// fault.
pub fn report(seed: u64, rounds: u64) -> (String, bool) {
    match told(seed, rounds) {
        Ok(told) => (told, rounds > 0),
        Err(fault) => (format!("FAILED noise: seed {seed}: {fault}\n"), false),
    }
}
