//! Walks over settings sheets: settings in order and out of it, allowed and not, into buffers of every room; right
//! sheets, read at each end and past it; and sheets with one fault or several in header, records and values.

use super::{buffer, enough, room, too_little, Script};
use crate::calls::{hex, MOST_NAMED};
use crate::random::Random;
use crate::sheet::{laid_out, number, records, Head, Setting, HEADER, MOST_SETTINGS, RECORD};
use crate::telegram::No;
use crate::values::{size, KINDS};
use std::collections::BTreeSet;

/// Kinds, counts and addresses above the last module's that are not allowed.
pub const NO_KINDS: [u8; 5] = [0, 8, 9, 128, 255];
pub const NO_COUNTS: [u8; 3] = [0, 241, 255];
pub const NO_MODULES: [u8; 3] = [161, 162, 255];
/// Counts around the most that each size allows.
const COUNTS: [u8; 16] = [0, 1, 2, 29, 30, 31, 59, 60, 61, 119, 120, 121, 239, 240, 241, 255];
/// Versions of which a reader shows nothing.
const NO_VERSIONS: [u64; 8] = [0, 2, 3, 255, 256, 257, 258, 65535];
/// A header with nothing right in it.
const ALL_WRONG: [u8; HEADER] = [2, 0, 129, 0, 13, 0, 0, 0, 13, 0, 0, 128];
/// Indexes past the last record of every sheet.
pub const FAR: [u64; 10] =
    [128, 255, 256, 65536, 4294967294, 4294967295, 4294967296, 4294967297, 9223372036854775808, 18446744073709551615];
/// What a 32-bit number wraps at.
pub const WRAP: u64 = 4294967296;
/// The most bytes of a value.
pub const MOST_BYTES: usize = 240;

/// So many keys that rise: of one module, of one register or a few in each module, of a few modules, or of any.
fn keys(random: &mut Random, count: usize) -> Vec<(u8, u8)> {
    let (way, module) = (random.below(4), random.pick(&[1, 15, 16, 159, 160]));
    let mut keys = BTreeSet::new();
    while keys.len() < count {
        keys.insert(match way {
            0 => (module, random.byte()),
            1 => (random.between(1, 160) as u8, random.pick(&[0, 1, 255])),
            2 => (random.pick(&[1, 2, 15, 16, 159, 160]), random.byte()),
            _ => (random.between(1, 160) as u8, random.byte()),
        });
    }
    keys.into_iter().collect()
}

/// The most elements of a kind that so many bytes hold.
pub fn most_elements(kind: u8, bytes: usize) -> usize {
    bytes / size(kind).unwrap_or(1)
}

/// A kind, and a count of at most so many bytes, which are 8 or more: mostly few elements, now and then the most.
pub fn shape(random: &mut Random, bytes: usize) -> (u8, u8) {
    let kind = random.pick(&KINDS);
    let most = most_elements(kind, bytes);
    let count = match random.below(6) {
        0 => most,
        1 | 2 => random.between(1, most),
        3 => random.between(1, most.min(4)),
        _ => 1,
    };
    (kind, count as u8)
}

/// A setting with a value of the length that its head says, or of its count where there is no such kind.
pub fn valued(random: &mut Random, head: Head) -> Setting {
    let length = head.length().unwrap_or(u128::from(head.count)) as usize;
    Setting { head, value: random.bytes(length) }
}

/// So many settings in order, all allowed, with values of at most so many bytes.
pub fn settings(random: &mut Random, count: usize, bytes: usize) -> Vec<Setting> {
    let mut settings = Vec::new();
    for (module, register) in keys(random, count) {
        let (kind, count) = shape(random, bytes);
        settings.push(valued(random, Head { module, register, kind, count }));
    }
    settings
}

/// A few settings, at least three, so that there is a first, a last and one between; mostly with short values.
pub fn few(random: &mut Random) -> Vec<Setting> {
    let (count, bytes) = (random.between(3, 8), random.pick(&[8, 8, 16, MOST_BYTES]));
    settings(random, count, bytes)
}

/// Settings as a call line names them.
pub fn named(settings: &[Setting]) -> String {
    if settings.is_empty() {
        return "-".to_string();
    }
    let name = |Setting { head, value }: &Setting| {
        format!("{}:{}:{}:{}:{}", head.module, head.register, head.kind, head.count, hex(value))
    };
    settings.iter().map(name).collect::<Vec<String>>().join(";")
}

/// Adds a write of these settings into a buffer of that length.
fn write(script: &mut Script, settings: &[Setting], room: usize) {
    script.call(format!("sheet.write {} {}", named(settings), hex(&buffer(room))));
}

/// Adds a check of this sheet.
fn check(script: &mut Script, sheet: &[u8]) {
    script.call(format!("sheet.check {}", hex(sheet)));
}

/// Adds a read of this sheet's record of that index into a buffer of that length.
fn read(script: &mut Script, sheet: &[u8], index: u64, room: usize) {
    script.call(format!("sheet.read {} {index} {}", hex(sheet), hex(&buffer(room))));
}

/// Adds a read with an index and a room that may be refused as well, behind all that is wrong with the sheet.
fn read_anyhow(script: &mut Script, sheet: &[u8]) {
    let random = &mut script.random;
    let index = if random.one_in(3) { random.pick(&FAR) } else { random.below(4) as u64 };
    let room = random.pick(&[0, 1, 8, MOST_BYTES]);
    read(script, sheet, index, room);
}

/// Adds a check of this sheet, or a read.
fn judge(script: &mut Script, sheet: &[u8]) {
    match script.random.one_in(2) {
        true => check(script, sheet),
        false => read_anyhow(script, sheet),
    }
}

/// Puts a number at a place of a sheet, so many bytes wide, lowest byte first, what is above them left out.
fn put(sheet: &mut [u8], place: usize, width: usize, number: u64) {
    sheet[place..place + width].copy_from_slice(&number.to_le_bytes()[..width]);
}

/// The writer: lists of every length up to the most that a line names, and buffers of every room.
pub fn writes(script: &mut Script) {
    let lengths = [0, 1, 2, 3, MOST_SETTINGS - 1, MOST_SETTINGS, MOST_SETTINGS + 1, MOST_NAMED - 1, MOST_NAMED];
    for count in lengths {
        let settings = settings(&mut script.random, count, 8);
        let room = room(&mut script.random, laid_out(&settings).len());
        write(script, &settings, room);
    }
    for most in [MOST_SETTINGS, MOST_NAMED] {
        for _ in 0..3 {
            let count = script.random.between(4, most);
            let settings = settings(&mut script.random, count, 8);
            let room = enough(&mut script.random, laid_out(&settings).len());
            write(script, &settings, room);
        }
    }
    for room in [0, HEADER - 1, HEADER, HEADER + 1] {
        write(script, &[], room);
    }
    for _ in 0..3 {
        let settings = few(&mut script.random);
        let needed = laid_out(&settings).len();
        for room in [0, HEADER, needed - 1, needed, needed + 1, needed + 9] {
            write(script, &settings, room);
        }
    }
}

/// One setting of each kind around its most elements, with a value of the right length, one byte less or one more; what
/// is not allowed too; each also as a sheet.
pub fn limits(script: &mut Script) {
    for kind in KINDS {
        let most = most_elements(kind, MOST_BYTES) as u8;
        let other = script.random.pick(&COUNTS);
        for count in [1, most, most + 1, other] {
            let module = script.random.pick(&[1, 15, 16, 160]);
            at_a_limit(script, module, kind, count);
        }
    }
    for kind in NO_KINDS {
        let count = script.random.pick(&COUNTS);
        at_a_limit(script, 15, kind, count);
    }
    for count in NO_COUNTS {
        let kind = script.random.pick(&KINDS);
        at_a_limit(script, 15, kind, count);
    }
    for module in [0, 1, 160, 161, 255] {
        let (kind, count) = shape(&mut script.random, 8);
        at_a_limit(script, module, kind, count);
    }
}

/// A setting of this head, written, and its sheet checked and read; then perhaps with another length of its value.
fn at_a_limit(script: &mut Script, module: u8, kind: u8, count: u8) {
    let random = &mut script.random;
    let register = random.byte();
    let mut setting = [valued(random, Head { module, register, kind, count })];
    let sheet = laid_out(&setting);
    let (needed, least) = (enough(random, sheet.len()), room(random, setting[0].value.len()));
    write(script, &setting, needed);
    check(script, &sheet);
    read(script, &sheet, 0, least);
    match script.random.below(4) {
        0 => setting[0].value.push(161),
        1 => drop(setting[0].value.pop()),
        _ => return,
    }
    write(script, &setting, needed + 1);
    judge(script, &laid_out(&setting));
}

/// A key that is not above this one: the same, a lower register where there is one, or a lower module.
fn not_above(random: &mut Random, way: usize, (module, register): (u8, u8)) -> (u8, u8) {
    match way {
        0 if register > 0 => (module, random.below(usize::from(register)) as u8),
        1 if module > 1 => (random.between(1, usize::from(module) - 1) as u8, random.byte()),
        _ => (module, register),
    }
}

/// Puts the setting of this place, not the first, out of order.
fn misorder(random: &mut Random, settings: &mut [Setting], place: usize, way: usize) {
    let (module, register) = not_above(random, way, settings[place - 1].head.key());
    let head = &mut settings[place].head;
    *head = Head { module, register, ..*head };
}

/// Settings out of order in each way, and the sheets of them: at the second, at the last, and anywhere.
pub fn misordered(script: &mut Script) {
    for way in 0..3 {
        let random = &mut script.random;
        let settings = few(random);
        let last = settings.len() - 1;
        for place in [1, last, random.between(1, last)] {
            let mut wrong = settings.clone();
            misorder(&mut script.random, &mut wrong, place, way);
            let sheet = laid_out(&wrong);
            let room = room(&mut script.random, sheet.len());
            write(script, &wrong, room);
            judge(script, &sheet);
        }
    }
}

/// Makes the setting of this place one that is not allowed. Only the first gets module 0, and only the last one an
/// address above all modules, since another would be out of order.
pub fn forbid(random: &mut Random, settings: &mut [Setting], place: usize) {
    let last = settings.len() - 1;
    let setting = &mut settings[place];
    match random.below(8) {
        0 | 1 if place == 0 => setting.head.module = 0,
        0 | 1 if place == last => setting.head.module = random.pick(&NO_MODULES),
        0 | 2 => setting.value.push(random.byte()),
        1 | 3 => drop(setting.value.pop()),
        4 => setting.head.kind = random.pick(&NO_KINDS),
        5 => setting.head.count = random.pick(&NO_COUNTS),
        6 => {
            let count = random.pick(&NO_COUNTS);
            *setting = valued(random, Head { count, ..setting.head });
        }
        _ => {
            let count = most_elements(setting.head.kind, MOST_BYTES) as u8 + 1;
            *setting = valued(random, Head { count, ..setting.head });
        }
    }
}

/// The writer's refusals: each with later ones of its order by chance, 68 and 69 with either first in the list, and
/// values of which one has a byte too much and the next one a byte too few.
pub fn unwritable(script: &mut Script) {
    for row in [79, 68, 69, 57].iter().cycle().take(4 * 10) {
        spoiled_write(script, *row);
    }
    for _ in 0..3 {
        let random = &mut script.random;
        let mut settings = few(random);
        let place = random.between(1, settings.len() - 1);
        let moved = settings[place].value.remove(0);
        settings[place - 1].value.push(moved);
        let sheet = laid_out(&settings);
        let room = enough(random, sheet.len());
        write(script, &settings, room);
        judge(script, &sheet);
    }
    for is_in_order in [true, false].iter().cycle().take(6) {
        let random = &mut script.random;
        let mut settings = few(random);
        let (out_of_order, not_allowed) = two_places(random, settings.len(), *is_in_order);
        forbid(random, &mut settings, not_allowed);
        let way = random.below(3);
        misorder(random, &mut settings, out_of_order, way);
        let room = room(random, laid_out(&settings).len());
        write(script, &settings, room);
    }
}

/// Two places of a list, neither the first of it: the lower one first, or the higher one.
fn two_places(random: &mut Random, length: usize, is_in_order: bool) -> (usize, usize) {
    let higher = random.between(2, length - 1);
    let lower = random.between(1, higher - 1);
    match is_in_order {
        true => (lower, higher),
        false => (higher, lower),
    }
}

/// Settings that can't be written for this row, with later faults of the order 79, 68, 69, 57 by chance.
fn spoiled_write(script: &mut Script, row: No) {
    let random = &mut script.random;
    let from_row = [79, 68, 69, 57].into_iter().skip_while(|no| *no != row);
    let faults: Vec<No> = from_row.filter(|no| *no == row || random.one_in(3)).collect();
    let mut settings = if row == 79 {
        let count = random.between(MOST_SETTINGS + 1, MOST_NAMED);
        settings(random, count, 8)
    } else {
        few(random)
    };
    if faults.contains(&69) {
        let place = random.below(settings.len());
        forbid(random, &mut settings, place);
    }
    if faults.contains(&68) {
        let (place, way) = (random.between(1, settings.len() - 1), random.below(3));
        misorder(random, &mut settings, place, way);
    }
    let needed = laid_out(&settings).len();
    let room = if faults.contains(&57) { too_little(random, needed) } else { enough(random, needed) };
    write(script, &settings, room);
}

/// Right sheets, from none to the most records: checked, and read at both ends, between them and past them.
pub fn right_sheets(script: &mut Script) {
    for count in [0, 1, 2, MOST_SETTINGS - 1, MOST_SETTINGS] {
        let sheet = laid_out(&settings(&mut script.random, count, 8));
        right_sheet(script, &sheet);
    }
    for _ in 0..8 {
        let sheet = laid_out(&few(&mut script.random));
        right_sheet(script, &sheet);
    }
    let sheet = laid_out(&few(&mut script.random));
    for index in FAR {
        let room = script.random.pick(&[0, 1, MOST_BYTES]);
        read(script, &sheet, index, room);
    }
}

/// A right sheet, checked and read; of one record into buffers around its value's length.
fn right_sheet(script: &mut Script, sheet: &[u8]) {
    check(script, sheet);
    let lengths: Vec<usize> = records(sheet).iter().map(|record| record.head.length().unwrap_or(0) as usize).collect();
    if let Some(last) = lengths.len().checked_sub(1) {
        for index in [0, last] {
            let room = room(&mut script.random, lengths[index]);
            read(script, sheet, index as u64, room);
        }
        let index = script.random.below(lengths.len());
        for room in [0, lengths[index] - 1, lengths[index], lengths[index] + 1] {
            read(script, sheet, index as u64, room);
        }
    }
    let far = script.random.pick(&FAR);
    for index in [lengths.len() as u64, far] {
        let room = script.random.pick(&[0, 1, MOST_BYTES]);
        read(script, sheet, index, room);
    }
}

/// Right sheets with one byte changed, cut or added, mostly before the values; and with any bytes put in for several.
pub fn altered(script: &mut Script) {
    for _ in 0..8 {
        let sheet = laid_out(&few(&mut script.random));
        for _ in 0..8 {
            let altered = alter(&mut script.random, &sheet);
            judge(script, &altered);
        }
        let mut any = sheet;
        let times = script.random.pick(&[4, 8, 30]);
        for byte in any.iter_mut().skip(HEADER) {
            if script.random.one_in(times) {
                *byte = script.random.pick(&[0, 1, 2, 3, 7, 8, 160, 161, 240, 241, 255]);
            }
        }
        judge(script, &any);
    }
}

/// The sheet with one byte changed, cut or added.
fn alter(random: &mut Random, sheet: &[u8]) -> Vec<u8> {
    let mut altered = sheet.to_vec();
    let values_at = HEADER + RECORD * records(sheet).len();
    let place = if random.one_in(4) { random.below(sheet.len()) } else { random.below(values_at) };
    match random.below(9) {
        0 | 1 => altered[place] ^= 1 << random.below(8),
        2 => altered[place] = random.byte(),
        3 => altered[place] = altered[place].wrapping_add(1),
        4 => altered[place] = altered[place].wrapping_sub(1),
        5 => drop(altered.remove(place)),
        6 => altered.insert(place, random.byte()),
        7 => altered.truncate(sheet.len() - 1),
        _ => altered.push(random.byte()),
    }
    altered
}

/// Sheets with a wrong header: other versions, every length below the header's with all of it right and with all of it
/// wrong, counts and offsets, too few bytes for the records, more records than a sheet has with all else right, and a
/// count that takes the offset of the values with it.
pub fn headers(script: &mut Script) {
    for version in NO_VERSIONS {
        let mut sheet = laid_out(&few(&mut script.random));
        put(&mut sheet, 0, 2, version);
        judge(script, &sheet);
    }
    let right = laid_out(&few(&mut script.random));
    for length in 0..=HEADER {
        check(script, &right[..length]);
        judge(script, &ALL_WRONG[..length]);
    }
    for (place, width, wrong) in header_changes(&right) {
        let mut sheet = right.clone();
        put(&mut sheet, place, width, wrong);
        judge(script, &sheet);
    }
    let values_at = number(&right, 8, 4) as usize;
    let between = script.random.between(HEADER, values_at - 1);
    for length in [HEADER, between, values_at - 1] {
        judge(script, &right[..length]);
    }
    let many = script.random.between(MOST_SETTINGS + 2, MOST_NAMED);
    for count in [MOST_SETTINGS + 1, many] {
        let sheet = laid_out(&settings(&mut script.random, count, 8));
        check(script, &sheet);
        read_anyhow(script, &sheet);
    }
    for change in [-1, 1, 2] {
        let mut sheet = laid_out(&few(&mut script.random));
        let count = (records(&sheet).len() as i64 + change) as u64;
        put(&mut sheet, 2, 2, count);
        put(&mut sheet, 8, 4, HEADER as u64 + RECORD as u64 * count);
        judge(script, &sheet);
    }
}

/// Wrong numbers for the header of a sheet that has a few records, each with its place and its width: for the count,
/// for the offset of the records, for that of the values.
fn header_changes(sheet: &[u8]) -> Vec<(usize, usize, u64)> {
    let (count, records_at, values_at) = (number(sheet, 2, 2) as u64, HEADER as u64, number(sheet, 8, 4) as u64);
    let high = [256, 65536, 16777216, WRAP / 2];
    let counts = [0, count - 1, count + 1, 128, 129, 255, 256, count + 256, 65535].map(|wrong| (2, 2, wrong));
    let near = [0, 8, 11, 13, 20, values_at, records_at << 8, records_at << 24, WRAP - 1].map(|wrong| (4, 4, wrong));
    let far = high.map(|high| (4, 4, records_at + high));
    let values_near = [0, 12, values_at - 8, values_at - 1, values_at + 1, values_at + 8].map(|wrong| (8, 4, wrong));
    let values_far = high.map(|high| (8, 4, values_at + high));
    let values_wrapped = [WRAP - values_at, WRAP - 1, values_at << 24].map(|wrong| (8, 4, wrong));
    [&counts[..], &near, &far, &values_near, &values_far, &values_wrapped].concat()
}

/// Makes the header of a sheet that has a few records wrong by a number of it, or by the sheet's own length.
fn spoil_header(random: &mut Random, sheet: &mut Vec<u8>) {
    if random.one_in(4) {
        return sheet.truncate(random.between(HEADER, number(sheet, 8, 4) as usize - 1));
    }
    let (place, width, wrong) = random.pick(&header_changes(sheet));
    put(sheet, place, width, wrong);
}

/// Sheets whose values are not where the records say, or not all of the rest: offsets one off, with high bytes, into
/// the header, from the start of the sheet, exchanged, with a gap; one byte less at the end, and one more.
pub fn offsets(script: &mut Script) {
    for _ in 0..30 {
        let mut sheet = laid_out(&few(&mut script.random));
        let record = script.random.below(records(&sheet).len());
        misplace(&mut script.random, &mut sheet, record);
        judge(script, &sheet);
    }
    for _ in 0..3 {
        let sheet = laid_out(&few(&mut script.random));
        let (shorter, longer) = (sheet[..sheet.len() - 1].to_vec(), [&sheet[..], &[0]].concat());
        for wrong in [exchanged(&sheet), with_a_gap(&sheet), shorter, longer] {
            judge(script, &wrong);
        }
    }
    for added in 1..4 {
        let sheet = [laid_out(&[]), buffer(added)].concat();
        judge(script, &sheet);
    }
    for offset in ["01", "03"] {
        script.call(format!("sheet.check 010002000c0000001c0000000f300301000000000f320102{offset}00000034120102"));
    }
}

/// Where a record's offset stands in a sheet.
fn offset_place(record: usize) -> usize {
    HEADER + RECORD * record + 4
}

/// Gives this record another offset.
fn misplace(random: &mut Random, sheet: &mut [u8], record: usize) {
    let (place, values_at) = (offset_place(record), number(sheet, 8, 4) as u64);
    let right = number(sheet, place, 4) as u64;
    let wrong = match random.below(7) {
        0 => right + 1,
        1 => right + WRAP - 1,
        2 => right + random.pick(&[256, 65536, 16777216, WRAP / 2]),
        3 => right + values_at,
        4 => WRAP - random.pick(&[1, 8, HEADER as u64, values_at]),
        5 => u64::from((right as u32).swap_bytes()),
        _ => random.bits(),
    };
    put(sheet, place, 4, if wrong % WRAP == right { right + 1 } else { wrong });
}

/// The sheet with the offsets of its first two records exchanged.
fn exchanged(sheet: &[u8]) -> Vec<u8> {
    let (first, second) = (number(sheet, offset_place(0), 4) as u64, number(sheet, offset_place(1), 4) as u64);
    let mut exchanged = sheet.to_vec();
    put(&mut exchanged, offset_place(0), 4, second);
    put(&mut exchanged, offset_place(1), 4, first);
    exchanged
}

/// The sheet with one byte between its last value and the others.
fn with_a_gap(sheet: &[u8]) -> Vec<u8> {
    let place = offset_place(records(sheet).len() - 1);
    let (values_at, offset) = (number(sheet, 8, 4) as usize, number(sheet, place, 4) as usize);
    let mut gap = sheet.to_vec();
    put(&mut gap, place, 4, offset as u64 + 1);
    gap.insert(values_at + offset, 0);
    gap
}

/// Each number of the reader alone and each pair of them, in different records where both are of records, either first.
pub fn several_faults(script: &mut Script) {
    for low in 65..=70 {
        for high in low..=70 {
            for is_in_order in [true, false] {
                let random = &mut script.random;
                let settings = few(random);
                let (first, second) = two_places(random, settings.len(), is_in_order);
                let mut sheet = laid_out(&settings);
                spoil(random, &mut sheet, high, second);
                if low != high {
                    spoil(random, &mut sheet, low, first);
                }
                check(script, &sheet);
                read_anyhow(script, &sheet);
            }
        }
    }
}

/// Gives a sheet the fault of this row, at this record where it is one of records, which is not the first.
pub fn spoil(random: &mut Random, sheet: &mut Vec<u8>, row: No, record: usize) {
    let place = HEADER + RECORD * record;
    match row {
        65 => sheet.truncate(random.below(HEADER)),
        66 => put(sheet, 0, 2, random.pick(&NO_VERSIONS)),
        67 => spoil_header(random, sheet),
        68 => {
            let (way, before) = (random.below(3), place - RECORD);
            let (module, register) = not_above(random, way, (sheet[before], sheet[before + 1]));
            sheet[place..place + 2].copy_from_slice(&[module, register]);
        }
        69 => forbid_record(random, sheet, record),
        _ => misplace(random, sheet, record),
    }
}

/// Makes this record one that is not allowed; only the last gets an address above all modules.
fn forbid_record(random: &mut Random, sheet: &mut [u8], record: usize) {
    let place = HEADER + RECORD * record;
    match random.below(5) {
        0 if record + 1 == records(sheet).len() => sheet[place] = random.pick(&NO_MODULES),
        0 | 1 => sheet[place + 2] = random.pick(&NO_KINDS),
        2 => sheet[place + 3] = random.pick(&NO_COUNTS),
        _ => {
            let kind = random.pick(&KINDS);
            sheet[place + 2] = kind;
            sheet[place + 3] = most_elements(kind, MOST_BYTES) as u8 + 1;
        }
    }
}

/// Once a script, since its lines are long: the largest sheet there is, checked and read, and with one byte less and
/// one more; its settings, since no line has room for them and their buffer; and the most that a line can have written.
pub fn largest(script: &mut Script) {
    let of = |count: u8| -> Vec<Setting> {
        let head = |register| Head { module: 1, register, kind: 1, count };
        let value = |register: u8| (0..count).map(|place| place.wrapping_mul(7).wrapping_add(register)).collect();
        (0..MOST_SETTINGS as u8).map(|register| Setting { head: head(register), value: value(register) }).collect()
    };
    let (settings, mut sheet) = (of(MOST_BYTES as u8), laid_out(&of(MOST_BYTES as u8)));
    check(script, &sheet);
    read(script, &sheet, MOST_SETTINGS as u64 - 1, MOST_BYTES);
    read(script, &sheet, MOST_SETTINGS as u64, 0);
    check(script, &sheet[..sheet.len() - 1]);
    sheet.push(0);
    check(script, &sheet);
    write(script, &settings, 16);
    let written = of(120);
    for room in [laid_out(&written).len() - 1, laid_out(&written).len()] {
        write(script, &written, room);
    }
}
