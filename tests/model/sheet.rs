//! Settings sheets: an evening's register settings as bytes, to write, to check and to read.

use crate::telegram::No;
use crate::values;

/// The one version that is written and shown.
const VERSION: u128 = 1;
/// The most settings of a sheet.
pub const MOST_SETTINGS: usize = 128;
/// The bytes of the header; the records follow it.
pub const HEADER: usize = 12;
/// The bytes of a record.
pub const RECORD: usize = 8;
/// The most elements of a value, and the most bytes of all of them.
const MOST_ELEMENTS: u8 = 240;
const MOST_BYTES: u128 = 240;
/// The last module's address.
const LAST_MODULE: u8 = 160;

/// What a record says of its value: whose register it is for, which kind, how many elements.
#[derive(Clone, Copy, PartialEq, Eq)]
pub struct Head {
    pub module: u8,
    pub register: u8,
    pub kind: u8,
    pub count: u8,
}

/// A setting as it is handed over, or as a sheet has it.
#[derive(Clone, PartialEq, Eq)]
pub struct Setting {
    pub head: Head,
    pub value: Vec<u8>,
}

/// A record as it stands in a sheet, its offset from the start of the value area.
#[derive(Clone, Copy)]
pub struct Record {
    pub head: Head,
    pub offset: u128,
}

impl Head {
    /// What records rise by: the module, then the register.
    pub fn key(self) -> (u8, u8) {
        (self.module, self.register)
    }

    /// The bytes of such a value, its count times its size; none where there is no such kind.
    pub fn length(self) -> Option<u128> {
        values::size(self.kind).ok().map(|size| u128::from(self.count) * size as u128)
    }

    /// Whether module, kind and count are allowed, the count times the size too.
    pub fn is_allowed(self) -> bool {
        let is_module = self.module >= 1 && self.module <= LAST_MODULE;
        let is_count = self.count >= 1 && self.count <= MOST_ELEMENTS;
        is_module && is_count && self.length().map_or(false, |length| length <= MOST_BYTES)
    }
}

impl Setting {
    /// Whether the head is allowed, and the value of the length that it says.
    pub fn is_allowed(&self) -> bool {
        self.head.is_allowed() && self.head.length() == Some(self.value.len() as u128)
    }
}

/// Refused with this number where its condition holds. The request's numbers do not all rise in the order it gives them
/// in, so each is asked for in its turn.
pub fn refuse(no: No, applies: bool) -> Result<(), No> {
    match applies {
        true => Err(no),
        false => Ok(()),
    }
}

/// The number at a place of a sheet, so many bytes wide, lowest byte first.
pub fn number(sheet: &[u8], place: usize, width: usize) -> u128 {
    sheet[place..place + width].iter().rev().fold(0, |number, byte| number * 256 + u128::from(*byte))
}

/// The bytes of a number, so many, lowest first.
fn bytes(mut number: u128, width: usize) -> Vec<u8> {
    let mut bytes = Vec::new();
    for _ in 0..width {
        bytes.push((number % 256) as u8);
        number /= 256;
    }
    bytes
}

/// Whether each of these stands above the one before.
pub fn rises(heads: &[Head]) -> bool {
    (1..heads.len()).all(|place| heads[place - 1].key() < heads[place].key())
}

/// The sheet of these settings as they stand, right or wrong: the header, a record for each, the values without gaps.
pub fn laid_out(settings: &[Setting]) -> Vec<u8> {
    let (count, values_at) = (settings.len() as u128, (HEADER + RECORD * settings.len()) as u128);
    let mut sheet = [bytes(VERSION, 2), bytes(count, 2), bytes(HEADER as u128, 4), bytes(values_at, 4)].concat();
    for (place, Setting { head, .. }) in settings.iter().enumerate() {
        let before: usize = settings[..place].iter().map(|setting| setting.value.len()).sum();
        sheet.extend([head.module, head.register, head.kind, head.count]);
        sheet.extend(bytes(before as u128, 4));
    }
    sheet.extend(settings.iter().flat_map(|setting| setting.value.iter()));
    sheet
}

/// Writes the sheet of these settings for a buffer with this room: 79, 68, 69, 57, each over all settings before the
/// next.
pub fn write(settings: &[Setting], room: usize) -> Result<Vec<u8>, No> {
    let heads: Vec<Head> = settings.iter().map(|setting| setting.head).collect();
    refuse(79, settings.len() > MOST_SETTINGS)?;
    refuse(68, !rises(&heads))?;
    refuse(69, !settings.iter().all(Setting::is_allowed))?;
    let sheet = laid_out(settings);
    refuse(57, sheet.len() > room)?;
    Ok(sheet)
}

/// The records that the header of a sheet of at least 12 bytes counts, as far as the sheet has them whole.
pub fn records(sheet: &[u8]) -> Vec<Record> {
    let whole = (sheet.len() - HEADER) / RECORD;
    let places = (0..whole).take(number(sheet, 2, 2) as usize).map(|record| HEADER + RECORD * record);
    let record = |place: usize| Record {
        head: Head {
            module: sheet[place],
            register: sheet[place + 1],
            kind: sheet[place + 2],
            count: sheet[place + 3],
        },
        offset: number(sheet, place + 4, 4),
    };
    places.map(record).collect()
}

/// The four faults of a header that are number 67: over 128 records, either offset, fewer bytes than up to the values.
pub fn header_faults(sheet: &[u8]) -> [bool; 4] {
    let (count, records_at, values_at) = (number(sheet, 2, 2), number(sheet, 4, 4), number(sheet, 8, 4));
    [
        count > MOST_SETTINGS as u128,
        records_at != HEADER as u128,
        values_at != HEADER as u128 + RECORD as u128 * count,
        (sheet.len() as u128) < values_at,
    ]
}

/// Checks a sheet: 65 to 70, each over the whole sheet before the next. Answers its settings.
pub fn check(sheet: &[u8]) -> Result<Vec<Setting>, No> {
    refuse(65, sheet.len() < HEADER)?;
    refuse(66, number(sheet, 0, 2) != VERSION)?;
    refuse(67, header_faults(sheet).contains(&true))?;
    let records = records(sheet);
    let heads: Vec<Head> = records.iter().map(|record| record.head).collect();
    refuse(68, !rises(&heads))?;
    refuse(69, !heads.iter().all(|head| head.is_allowed()))?;
    let lengths: Vec<u128> = heads.iter().filter_map(|head| head.length()).collect();
    let starts: Vec<u128> = (0..=lengths.len()).map(|place| lengths[..place].iter().sum()).collect();
    let values_at = number(sheet, 8, 4);
    let is_misplaced = records.iter().zip(&starts).any(|(record, start)| record.offset != *start);
    refuse(70, is_misplaced || sheet.len() as u128 != values_at + starts[lengths.len()])?;
    let at = |start: u128| (values_at + start) as usize;
    let value = |place: usize| sheet[at(starts[place])..at(starts[place + 1])].to_vec();
    Ok((0..heads.len()).map(|place| Setting { head: heads[place], value: value(place) }).collect())
}

/// Checks a sheet and reads the record of that index, counted from 0, for a buffer with this room: 65 to 70, 56, 57.
pub fn read(sheet: &[u8], index: u64, room: usize) -> Result<Setting, No> {
    let settings = check(sheet)?;
    refuse(56, u128::from(index) >= settings.len() as u128)?;
    let setting = settings[index as usize].clone();
    refuse(57, setting.value.len() > room)?;
    Ok(setting)
}
