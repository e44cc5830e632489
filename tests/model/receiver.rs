//! The receiver of a capture that comes in chunks: it goes from byte to byte and keeps no more than the open frame.

use crate::listing::{totals, Fate};
use crate::tally::Tally;
use crate::telegram::{lowest, No, END, LONGEST_TELEGRAM, START};

/// A frame that a 13 at this place opened, and its bytes so far. Of a runaway only the first 494 are kept; it is known
/// by having so many without an end.
#[derive(Clone, PartialEq, Eq)]
struct Frame {
    place: u64,
    kept: Vec<u8>,
}

#[derive(Clone, PartialEq, Eq)]
pub struct Receiver {
    /// The place of the next byte.
    pub place: u64,
    open: Option<Frame>,
    read: u64,
    refused: u64,
    dropped: u64,
}

/// What came of a chunk: how many of its bytes were taken, their lines, and the number that stopped it, if one did.
pub struct Fed {
    pub taken: usize,
    pub lines: Vec<String>,
    pub refusal: Option<No>,
}

impl Receiver {
    /// A fresh receiver: no open frame, all totals 0, and its next byte has this place.
    pub fn new(place: u64) -> Receiver {
        Receiver { place, open: None, read: 0, refused: 0, dropped: 0 }
    }

    /// Takes a chunk by steps on what is left of it, the tally lent to each; an empty one is a step that takes nothing.
    pub fn feed(&mut self, chunk: &[u8], tally: &mut Tally) -> Fed {
        let mut fed = Fed { taken: 0, lines: Vec::new(), refusal: None };
        loop {
            match self.step(&chunk[fed.taken..], tally) {
                Ok((taken, ended)) => {
                    fed.taken += taken;
                    fed.lines.extend(ended.map(|(place, fate)| fate.line(place)));
                }
                Err(no) => fed.refusal = Some(no),
            }
            if fed.refusal.is_some() || fed.taken == chunk.len() {
                return fed;
            }
        }
    }

    /// Takes the bytes up to and including the one that ends the next line, or all where none ends. Answers how many
    /// it took and the place and the fate of the line's frame, which the tally has counted; 76 where its number would
    /// pass the largest, then 60 where what is left would carry the place past the largest.
    pub fn step(&mut self, left: &[u8], tally: &mut Tally) -> Result<(usize, Option<(u64, Fate)>), No> {
        let counted = self.ending(left).map_or(Ok(*tally), |fate| tally.with(&fate))?;
        lowest(&[(60, self.place.checked_add(left.len() as u64).is_none())])?;
        *tally = counted;
        for (before, byte) in left.iter().enumerate() {
            if let Some(ended) = self.take(*byte) {
                return Ok((before + 1, Some(ended)));
            }
        }
        Ok((left.len(), None))
    }

    /// What the next line will say of its frame, if a line ends in these bytes. That is found without their places, for
    /// there may be none for them.
    fn ending(&self, left: &[u8]) -> Option<Fate> {
        let mut trial = Receiver { place: 0, ..self.clone() };
        left.iter().find_map(|byte| trial.take(*byte)).map(|(_, fate)| fate)
    }

    /// Takes one byte and answers the place and the fate of the frame whose line it ends.
    fn take(&mut self, byte: u8) -> Option<(u64, Fate)> {
        let place = self.place;
        self.place += 1;
        match byte {
            START => self.open.replace(Frame { place, kept: vec![START] }).map(|frame| (frame.place, self.drop())),
            END => self.open.take().map(|frame| (frame.place, self.close(frame))),
            _ => {
                self.keep(byte);
                None
            }
        }
    }

    /// Keeps a byte of the open frame while there is use for it; outside of a frame it is passed over.
    fn keep(&mut self, byte: u8) {
        if let Some(frame) = self.open.as_mut().filter(|frame| frame.kept.len() < LONGEST_TELEGRAM) {
            frame.kept.push(byte);
        }
    }

    /// Counts a frame that a second 13 dropped.
    fn drop(&mut self) -> Fate {
        self.dropped += 1;
        Fate::Dropped
    }

    /// Counts a frame that a 10 closed: it is read where the 10 still has room among the 494, otherwise refused 5.
    fn close(&mut self, mut frame: Frame) -> Fate {
        let fate = if frame.kept.len() < LONGEST_TELEGRAM {
            frame.kept.push(END);
            Fate::of(&frame.kept)
        } else {
            Fate::Refused(5.into())
        };
        match fate {
            Fate::Read(_) => self.read += 1,
            _ => self.refused += 1,
        }
        fate
    }

    /// The place of the open frame's 13, if there is one.
    pub fn open_at(&self) -> Option<u64> {
        self.open.as_ref().map(|frame| frame.place)
    }

    /// What is left to say, each line ended by one newline: the open frame if there is one, and the totals.
    pub fn rest(&self) -> String {
        let open = self.open_at().into_iter().map(|place| Fate::Open.line(place));
        let totals = totals(self.read, self.refused, self.dropped);
        open.chain([totals]).map(|line| format!("{line}\n")).collect()
    }
}
