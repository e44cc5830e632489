//! The catalogue: a fixed table of module type and register.

use crate::telegram::No;
use crate::values::greatest;

/// What a row says about writing.
#[derive(Clone, Copy)]
enum Writes {
    Read,
    FromTo(i128, i128),
    WholeRange,
    FromOne,
}

use Writes::{FromOne, FromTo, Read, WholeRange};

/// What the catalogue answers: kind, right to write, lowest and highest written value.
pub struct Entry {
    pub kind: u8,
    pub write: bool,
    pub lowest: i128,
    pub highest: i128,
}

const SELECT: u8 = 0x67;
const VARIA: u8 = 0x68;
const COMPACT: u8 = 0x74;

/// Module type, registers, kind, and what may be written.
const TABLE: [(u8, &[u8], u8, Writes); 17] = [
    (SELECT, &[0x10, 0x11], 3, Read),
    (SELECT, &[0x32, 0x33], 1, FromTo(0, 7)),
    (SELECT, &[0x34, 0x35], 1, FromTo(0, 1)),
    (SELECT, &[0x90, 0x91, 0xA0, 0xA1], 5, Read),
    (VARIA, &[0x13, 0x66], 3, Read),
    (VARIA, &[0x32, 0x33, 0x34], 3, WholeRange),
    (COMPACT, &[0x1A, 0x66], 3, Read),
    (COMPACT, &[0x1B], 4, Read),
    (COMPACT, &[0x36, 0x71], 5, Read),
    (COMPACT, &[0x24], 3, FromTo(0, 4095)),
    (COMPACT, &[0x26], 3, FromTo(0, 100)),
    (COMPACT, &[0x30], 1, FromTo(0, 1)),
    (COMPACT, &[0x31], 1, FromTo(0, 5)),
    (COMPACT, &[0x33], 5, FromOne),
    (COMPACT, &[0x34], 3, FromOne),
    (COMPACT, &[0x35], 1, WholeRange),
    (COMPACT, &[0x3E], 1, FromTo(0, 100)),
];

/// Every pair of module type and register that has a row.
pub fn pairs() -> Vec<(u8, u8)> {
    TABLE
        .iter()
        .flat_map(|(type_no, registers, _, _)| registers.iter().map(move |register| (*type_no, *register)))
        .collect()
}

/// The row of this module type and register, or 50.
pub fn find(type_no: u8, register: u8) -> Result<Entry, No> {
    let row = TABLE.iter().find(|row| row.0 == type_no && row.1.contains(&register));
    let (_, _, kind, writes) = *row.ok_or(50u32)?;
    let (write, lowest, highest) = match writes {
        Read => (false, 0, 0),
        FromTo(lowest, highest) => (true, lowest, highest),
        WholeRange => (true, 0, greatest(kind)?),
        FromOne => (true, 1, greatest(kind)?),
    };
    Ok(Entry { kind, write, lowest, highest })
}
