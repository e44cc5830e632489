//! The telegram: framing and substitution, the reader's rows 1 to 9, the writer's rows 5, 8, 9, 6.

use crate::remainder::remainder;

/// A number from the table of what can't be done.
pub type No = u32;

/// What a call is refused with: the number; with number 3 the place in the frame of the first faulty 94, the start
/// byte's being 0; with opening's numbers how many addresses were considered; and with a grant's 75 the job whose
/// request was taken out. No other number has any of these.
#[derive(Clone, Copy)]
pub struct Refusal {
    pub no: No,
    pub place: Option<usize>,
    pub job: Option<u32>,
    pub count: Option<usize>,
}

impl From<No> for Refusal {
    /// A number alone.
    fn from(no: No) -> Refusal {
        Refusal { no, place: None, job: None, count: None }
    }
}

pub const START: u8 = 13;
pub const END: u8 = 10;
pub const SUBSTITUTION: u8 = 94;
/// What may stand after a substitution byte: 10, 13 and 94, each plus 64.
pub const CODES: [u8; 3] = [74, 77, 158];
/// The most data bytes of a message; also the room of the bench and of the listing.
pub const MOST_DATA: usize = 240;
/// The most bytes of a telegram, both ends included.
pub const LONGEST_TELEGRAM: usize = 494;

/// A message without its remainder.
#[derive(Clone)]
pub struct Message {
    pub dest: u8,
    pub source: u8,
    pub type_no: u8,
    pub register: u8,
    pub data: Vec<u8>,
}

impl Message {
    /// The whole message before substitution, its remainder added.
    pub fn bytes(&self) -> Vec<u8> {
        let mut bytes = vec![self.dest, self.source, self.type_no, self.register];
        bytes.extend(&self.data);
        with_remainder(bytes)
    }

    /// The telegram of this message.
    pub fn telegram(&self) -> Vec<u8> {
        frame(&self.bytes())
    }
}

/// The bytes and then their remainder, high byte first.
pub fn with_remainder(mut bytes: Vec<u8>) -> Vec<u8> {
    bytes.extend(remainder(&bytes).to_be_bytes());
    bytes
}

/// A message's bytes between start and end, every 10, 13 and 94 as 94 and then the byte plus 64.
pub fn frame(message: &[u8]) -> Vec<u8> {
    let mut framed = vec![START];
    for byte in message {
        if [START, END, SUBSTITUTION].contains(byte) {
            framed.extend([SUBSTITUTION, byte + 64]);
        } else {
            framed.push(*byte);
        }
    }
    framed.push(END);
    framed
}

/// The lowest row that applies is the answer; where none applies there is nothing to refuse.
pub fn lowest(rows: &[(No, bool)]) -> Result<(), No> {
    match rows.iter().filter(|(_, applies)| *applies).map(|(row, _)| *row).min() {
        Some(row) => Err(row),
        None => Ok(()),
    }
}

/// Writes a telegram for a buffer with this room. The order of the rows is 5, 8, 9, 6.
pub fn write(message: &Message, room: usize) -> Result<Vec<u8>, No> {
    lowest(&[
        (5, message.data.len() > MOST_DATA),
        (8, message.dest == 0 || message.source == 0),
        (9, message.type_no > 9),
    ])?;
    let telegram = message.telegram();
    lowest(&[(6, telegram.len() > room)])?;
    Ok(telegram)
}

/// The message of a frame as it was before substitution. There is one only where rows 1 to 3 do not apply.
pub fn unframed(frame: &[u8]) -> Result<Vec<u8>, Refusal> {
    let wrong: Vec<usize> = (1..=between(frame).len()).filter(|place| is_wrong_substitution(frame, *place)).collect();
    let refused = lowest(&[
        (1, not_from_start_to_end(frame)),
        (2, between(frame).iter().any(|byte| [START, END].contains(byte))),
        (3, !wrong.is_empty()),
    ]);
    refused.map_err(|no| Refusal { place: wrong.iter().copied().min().filter(|_| no == 3), ..no.into() })?;
    Ok(restored(between(frame)))
}

/// Reads a frame with this room for its data.
pub fn read(frame: &[u8], room: usize) -> Result<Message, Refusal> {
    let message = unframed(frame)?;
    lowest(&[
        (4, message.len() < 6),
        (5, message.len() > 6 + MOST_DATA),
        (6, message.len() > 6 + room),
        (7, remainder(&message) != 0),
        (8, message.iter().take(2).any(|address| *address == 0)),
        (9, message.iter().skip(2).take(1).any(|type_no| *type_no > 9)),
    ])?;
    Ok(Message {
        dest: message[0],
        source: message[1],
        type_no: message[2],
        register: message[3],
        data: message[4..message.len() - 2].to_vec(),
    })
}

/// Row 1: under 2 bytes, or not from 13 to 10.
fn not_from_start_to_end(frame: &[u8]) -> bool {
    frame.len() < 2 || frame.first() != Some(&START) || frame.last() != Some(&END)
}

/// The bytes between the ends.
fn between(frame: &[u8]) -> &[u8] {
    frame.get(1..frame.len().saturating_sub(1)).unwrap_or(&[])
}

/// Row 3 at one place between the ends: a 94 there whose next byte is none of the codes.
fn is_wrong_substitution(frame: &[u8], place: usize) -> bool {
    frame[place] == SUBSTITUTION && !CODES.contains(&frame[place + 1])
}

/// The message as it was before substitution: each 94 goes, and 64 is taken from the byte after it.
fn restored(between: &[u8]) -> Vec<u8> {
    let mut message = Vec::new();
    for (place, byte) in between.iter().enumerate() {
        if place > 0 && between[place - 1] == SUBSTITUTION {
            message.push(byte - 64);
        } else if *byte != SUBSTITUTION {
            message.push(*byte);
        }
    }
    message
}
