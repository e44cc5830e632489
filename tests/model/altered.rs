//! What a script's calls and answers tell of noise that is no burst: which bits were altered of a message that the same
//! call then took as it was, and what the altered one would have done. An altered message that is not refused 7, or
//! that leaves another desk or bench behind, is told as wrong.

use crate::calls::{hex, unhex};
use crate::flips::{differing, is_noise, CHECK, FIELDS};
use crate::queue::field;
use crate::subject::{Subject, Times, Wanted};
use crate::telegram::{frame, unframed, No, MOST_DATA};

/// What must have been met of altered bits in each call that reads a frame. "Near the start" is within destination,
/// source, type and register, "in the check" within the remainder, "far apart" over more than half of the message. With
/// "8 behind" an address has become 0, with "9 behind" the type one that is none.
const BITS: [&str; 16] = [
    "1 bit",
    "3 bits",
    "5 and more",
    "all but a few",
    "odd near the start",
    "odd in the check",
    "odd far apart",
    "two neighbours",
    "two near the start",
    "two in the check",
    "one of two in the check",
    "two far apart",
    "both ends",
    "8 behind",
    "9 behind",
    "substituted otherwise",
];
/// What must have been met of messages whose length is a limit. A write that the bench does has neither.
const LIMITS: [&str; 2] = ["read", "desk.reply"];
/// What must have been met, under seven heads. "Fits another" means that the altered message, if only it were read,
/// would close another ticket or be done to another register.
const WANTED: [(&str, &[&str]); 7] = [
    ("read", &BITS),
    ("desk.reply", &BITS),
    ("bench.tele", &BITS),
    ("6 bytes", &LIMITS),
    ("246 bytes", &LIMITS),
    ("fits another", &["desk.reply", "bench.tele"]),
    ("bench.tele of type", &["5", "6", "7", "9"]),
];
/// So many faults are told; others go untold.
const MOST_FAULTS: usize = 5;

/// A message that was offered.
struct Offer {
    message: Vec<u8>,
    /// Whether it was refused 7, with the lent buffer as it was.
    is_refused: bool,
    /// What the desk or the bench showed before it, and whether it showed the same after it.
    before: Option<String>,
    is_unchanged: bool,
}

/// The calls in a row that only the reader, only the desk or only the bench had, while they did nothing but read frames
/// and show the state.
#[derive(Default)]
struct Row {
    /// `read`, `desk` or `bench`.
    on: String,
    /// What the desk or the bench showed last, if it has taken nothing since.
    shown: Option<String>,
    offers: Vec<Offer>,
}

/// The row of calls that goes on, how often each thing was met, and what went wrong.
#[derive(Default)]
pub struct Altered {
    row: Row,
    times: Times,
    faults: Vec<String>,
}

impl Subject for Altered {
    const NAME: &'static str = "noise, ";
    const WANTED: Wanted = &WANTED;

    fn fresh() -> Altered {
        Altered::default()
    }

    /// Hears of a call and its answer. A call on anything else ends the row, and so does one of any other sort.
    fn hear(&mut self, call: &str, answer: &str) {
        let words: Vec<&str> = call.split(' ').collect();
        let on = words[0].split('.').next().unwrap_or_default();
        if on != self.row.on {
            self.row = Row { on: on.to_string(), ..Row::default() };
        }
        match words[..] {
            _ if ["bad line", "no bench"].contains(&answer) => (),
            ["desk.dump" | "bench.dump"] => self.show(answer),
            [name @ ("read" | "desk.reply" | "bench.tele"), frame, lent] => self.offer(name, frame, lent, answer),
            _ => self.row = Row::default(),
        }
    }

    fn times(&mut self) -> &mut Times {
        &mut self.times
    }

    fn faults(&self) -> Vec<String> {
        self.faults.iter().take(MOST_FAULTS).map(|fault| format!("noise: {fault}, which must not occur")).collect()
    }
}

impl Altered {
    /// The desk or the bench shows its state. In a row it has refused all frames since it did so last.
    fn show(&mut self, answer: &str) {
        for offer in &mut self.row.offers {
            offer.is_unchanged |= offer.before.as_deref() == Some(answer);
        }
        if let Some(before) = self.row.shown.replace(answer.to_string()).filter(|before| before != answer) {
            self.faults.push(format!("refused frames made \"{answer}\" of \"{before}\""));
        }
    }

    /// A call was offered this frame. Where the reader takes its message, those that were offered before it in the row
    /// may be that message altered.
    fn offer(&mut self, name: &str, frame: &str, lent: &str, answer: &str) {
        let message = match unhex(frame.as_bytes()).map(|frame| unframed(&frame)) {
            Some(Ok(message)) => message,
            _ => return,
        };
        let is_read = !matches!(number(answer), Some(1..=9));
        if is_read {
            let row = std::mem::take(&mut self.row);
            row.offers.iter().for_each(|offer| self.compare(name, offer, &message, answer));
            self.row.on = row.on;
        }
        let has_room = name == "bench.tele" || lent.len() >= 2 * MOST_DATA;
        if has_room {
            let (is_refused, before) = (answer == format!("no 7 buf={lent}"), self.row.shown.clone());
            self.row.offers.push(Offer { message, is_refused, before, is_unchanged: name == "read" });
        }
    }

    /// The reader took this message after that offer: was the offer the same with such noise, and what is to be said
    /// of it? The call must have been right altogether.
    fn compare(&mut self, name: &str, offer: &Offer, right: &[u8], answer: &str) {
        if offer.message.len() != right.len() || !is_noise(differing(right, &offer.message).len()) {
            return;
        }
        if !offer.is_refused {
            let (altered, right) = (hex(&offer.message), hex(right));
            self.faults.push(format!("{altered} is {right} altered, and {name} does not refuse it 7"));
        } else if offer.is_unchanged && is_right(name, answer) {
            self.altered(name, right, offer);
        }
    }

    /// Counts what there is to say of a right message and of what was offered with noise before it.
    fn altered(&mut self, name: &str, right: &[u8], offer: &Offer) {
        let (noisy, bits) = (&offer.message, differing(right, &offer.message));
        let (all, count) = (8 * right.len(), bits.len());
        let (first, last, is_odd) = (bits[0], bits[count - 1], count % 2 == 1);
        let (is_in_fields, is_in_check) = (last < FIELDS, first >= all - CHECK);
        let is_far = last - first > all / 2;
        let met = [
            (count == 1, "1 bit"),
            (count == 3, "3 bits"),
            (is_odd && (5..all - 16).contains(&count), "5 and more"),
            (is_odd && count >= all - 16, "all but a few"),
            (is_odd && is_in_fields, "odd near the start"),
            (is_odd && is_in_check, "odd in the check"),
            (is_odd && is_far, "odd far apart"),
            (!is_odd && last - first == 1, "two neighbours"),
            (!is_odd && is_in_fields, "two near the start"),
            (!is_odd && is_in_check, "two in the check"),
            (!is_odd && !is_in_check && last >= all - CHECK, "one of two in the check"),
            (!is_odd && is_far, "two far apart"),
            (!is_odd && last - first == all - 1, "both ends"),
            (noisy[..2].contains(&0), "8 behind"),
            (noisy[2] > 9, "9 behind"),
            (frame(noisy).len() != frame(right).len(), "substituted otherwise"),
        ];
        met.into_iter().for_each(|(is_met, thing)| self.count_if(is_met, name, thing));
        self.count(&format!("{} bytes", right.len()), name);
        self.count_if(fits_another(name, right, offer), "fits another", name);
        self.count(&format!("{name} of type"), &right[2].to_string());
    }
}

/// The number of a refusal.
fn number(answer: &str) -> Option<No> {
    answer.strip_prefix("no ")?.split(' ').next()?.parse().ok()
}

/// Whether a call was answered as it was meant: read, booked, or done by the bench, which then sends an ack.
fn is_right(name: &str, answer: &str) -> bool {
    let reply = || {
        let (length, buf): (usize, String) = (field(answer, "n=")?, field(answer, "buf=")?);
        unframed(unhex(buf.as_bytes())?.get(..length)?).ok()
    };
    number(answer).is_none() && (name != "bench.tele" || reply().map_or(false, |reply| reply[2] == 3))
}

/// Whether a reply's destination has become that of another ticket which it would fit as well as its own, or a
/// telegram's register another one of the same kind and rights, by what the desk or the bench showed before.
fn fits_another(name: &str, right: &[u8], offer: &Offer) -> bool {
    let (list, place, alike) = match name {
        "desk.reply" => ("tickets=", 0, 2..5),
        "bench.tele" => ("regs=", 3, 1..3),
        _ => return false,
    };
    let shown = offer.before.as_deref().and_then(|shown| shown.split(' ').find_map(|word| word.strip_prefix(list)));
    let entries: Vec<Vec<&str>> = shown.unwrap_or("-").split(',').map(|entry| entry.split(':').collect()).collect();
    let entry = |message: &[u8]| {
        let number = message[place].to_string();
        entries.iter().find(|entry| entry[0] == number).map(|entry| &entry[alike.clone()])
    };
    let is_same_else = (0..4).all(|other| other == place || offer.message[other] == right[other]);
    let is_other = offer.message[place] != right[place];
    is_same_else && is_other && entry(right).is_some() && entry(right) == entry(&offer.message)
}
