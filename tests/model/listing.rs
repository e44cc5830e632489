//! The night listing of a captured line: one reading of all its bytes joined.

use crate::telegram::{self, Message, Refusal, END, LONGEST_TELEGRAM, MOST_DATA, START};

/// The first line, without its newline.
pub const HEADER: &str = "Interbus capture";

/// What became of a frame that a 13 opened.
pub enum Fate {
    Read(Message),
    Refused(Refusal),
    Dropped,
    Open,
}

impl Fate {
    /// What the reader says of a whole frame, with 240 bytes of room.
    pub fn of(frame: &[u8]) -> Fate {
        match telegram::read(frame, MOST_DATA) {
            Ok(message) => Fate::Read(message),
            Err(refusal) => Fate::Refused(refusal),
        }
    }

    /// The line for a frame whose 13 stands at this place, without its newline.
    pub fn line(&self, place: u64) -> String {
        match self {
            Fate::Read(read) => {
                let Message { dest, source, type_no, register, data } = read;
                format!("at {place} ok {dest} {source} {type_no} {register} {}", data.len())
            }
            Fate::Refused(Refusal { no, place: None, .. }) => format!("at {place} refused {no}"),
            Fate::Refused(Refusal { no, place: Some(wrong), .. }) => format!("at {place} refused {no} in {wrong}"),
            Fate::Dropped => format!("at {place} dropped"),
            Fate::Open => format!("at {place} open"),
        }
    }
}

/// The last line, without its newline. An open frame is in none of the totals.
pub fn totals(read: u64, refused: u64, dropped: u64) -> String {
    format!("ok {read} refused {refused} dropped {dropped}")
}

/// The first place after this one where a 10 or a 13 stands.
fn next_mark(capture: &[u8], place: usize) -> Option<usize> {
    (place + 1..capture.len()).find(|next| [START, END].contains(&capture[*next]))
}

/// The fate of the frame whose 13 stands at this place: a second 13 drops it, a 10 closes it. A closed one is read,
/// but over 494 bytes it is refused 5, ahead of all the reader might say, and without a place.
fn fate(capture: &[u8], place: usize) -> Fate {
    match next_mark(capture, place) {
        None => Fate::Open,
        Some(next) if capture[next] == START => Fate::Dropped,
        Some(next) if next + 1 - place > LONGEST_TELEGRAM => Fate::Refused(5.into()),
        Some(next) => Fate::of(&capture[place..=next]),
    }
}

/// The whole listing of a capture, each line ended by one newline.
pub fn list(capture: &[u8]) -> String {
    let starts = (0..capture.len()).filter(|place| capture[*place] == START);
    let frames: Vec<(u64, Fate)> = starts.map(|place| (place as u64, fate(capture, place))).collect();
    let count = |wanted: fn(&Fate) -> bool| frames.iter().filter(|(_, fate)| wanted(fate)).count() as u64;
    let mut lines = vec![HEADER.to_string()];
    lines.extend(frames.iter().map(|(place, fate)| fate.line(*place)));
    lines.push(totals(
        count(|fate| matches!(fate, Fate::Read(_))),
        count(|fate| matches!(fate, Fate::Refused(_))),
        count(|fate| matches!(fate, Fate::Dropped)),
    ));
    lines.iter().map(|line| format!("{line}\n")).collect()
}
