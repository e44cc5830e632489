//! The line tally: frames read, refused and dropped, one record lent to each listing step and changed where it lies.

use crate::listing::Fate;
use crate::telegram::No;

/// Each number is the count of such lines since the tally was cleared, on top of what it was set to. The tally is the
/// caller's: neither a fresh receiver nor a fresh desk clears it, nor does what is said at the end of a capture.
#[derive(Clone, Copy, Debug, PartialEq, Eq)]
pub struct Tally {
    pub read: u32,
    pub refused: u32,
    pub dropped: u32,
}

impl Tally {
    /// A tally that has counted nothing.
    pub fn cleared() -> Tally {
        Tally { read: 0, refused: 0, dropped: 0 }
    }

    /// The tally with this line counted too, or 76 where its number would pass 4294967295. A frame that is still open
    /// is none of the three.
    pub fn with(self, line: &Fate) -> Result<Tally, No> {
        let one_more = |number: u32| number.checked_add(1).ok_or(76u32);
        Ok(match line {
            Fate::Read(_) => Tally { read: one_more(self.read)?, ..self },
            Fate::Refused(_) => Tally { refused: one_more(self.refused)?, ..self },
            Fate::Dropped => Tally { dropped: one_more(self.dropped)?, ..self },
            Fate::Open => self,
        })
    }
}
