//! What a script's calls and answers tell of settings sheets: which lists and sheets were taken and into which rooms,
//! by which fault each number was told, and which faults stood behind it.

use crate::calls::{parse_settings, unhex};
use crate::sheet::{header_faults, laid_out, number, records, Head, Record, Setting, HEADER, MOST_SETTINGS};
use crate::subject::{Subject, Times, Wanted};
use crate::telegram::No;

/// What must have been met of lists that were written, and of sheets that were right; the last four are values of 240
/// bytes.
const TAKEN: [&str; 9] = ["none", "one", "128", "module 1", "module 160", "240 of 1", "120 of 2", "60 of 4", "30 of 8"];
/// What must have been met of rooms: 57 in the first two of them.
const ROOMS: [&str; 5] = ["none at all", "one short", "exact", "one longer", "longer"];
/// What must have been met of settings, and of records, that are not above the one before.
const NOT_ABOVE: [&str; 3] = ["equal", "lower register", "lower module"];
/// What must have been met of settings, and of records, that are not allowed.
const NOT_ALLOWED: [&str; 9] =
    ["module 0", "module 161", "module 255", "kind 0", "kind 8", "count 0", "count 241", "count 255", "over 240 bytes"];
/// What must have been met of headers; "alone" where nothing else is wrong with the sheet.
const HEADERS: [&str; 11] = [
    "129 records",
    "129 records alone",
    "65535 records",
    "records at 11",
    "records at 13",
    "records far off",
    "values one less",
    "values one more",
    "values far off",
    "12 bytes",
    "one byte short",
];
/// What must have been met of value offsets, and of the sheet's end.
const MISPLACED: [&str; 7] =
    ["one more", "one less", "high bytes", "into the header", "one byte short", "one byte long", "a 13th byte"];
/// The pairs of numbers of which the lower one must have been told; by which stands first, where both are of records.
const PAIRS: [&str; 15] = [
    "65 and 66",
    "65 and 67",
    "66 and 67",
    "66 and 68",
    "66 and 69",
    "66 and 70",
    "67 and 68",
    "67 and 69",
    "67 and 70",
    "68 before 69",
    "69 before 68",
    "68 before 70",
    "70 before 68",
    "69 before 70",
    "70 before 69",
];
/// What must have been met, under so many heads.
const WANTED: [(&str, &[&str]); 17] = [
    ("write", &TAKEN),
    ("write into", &ROOMS),
    ("write 79", &["129", "200", "68 too", "69 too", "57 too"]),
    ("write 68", &NOT_ABOVE),
    ("write 68, pairs", &["68 before 69", "69 before 68", "57 too"]),
    ("write 69", &NOT_ALLOWED),
    ("write 69, values", &["one short", "one long", "the sum right", "57 too"]),
    ("right", &TAKEN),
    ("read at", &["0", "the last", "56 one past", "56 at 4294967295", "56 at 4294967296", "56 at the largest"]),
    ("read into", &ROOMS),
    ("65", &["no bytes", "11 bytes"]),
    ("66", &["version 0", "version 2", "version 257"]),
    ("67", &HEADERS),
    ("68", &NOT_ABOVE),
    ("69", &NOT_ALLOWED),
    ("70", &MISPLACED),
    ("pairs", &PAIRS),
];

/// How often each thing was met.
#[derive(Default)]
pub struct Sheets {
    times: Times,
}

impl Subject for Sheets {
    const NAME: &'static str = "sheet, ";
    const WANTED: Wanted = &WANTED;

    fn fresh() -> Sheets {
        Sheets::default()
    }

    /// Hears of a call and its answer; only those on sheets have something to tell.
    fn hear(&mut self, call: &str, answer: &str) {
        let words: Vec<&str> = call.split(' ').collect();
        let told = match answer.split(' ').collect::<Vec<&str>>()[..] {
            ["ok", ..] => None,
            ["no", number, ..] => number.parse().ok(),
            _ => return,
        };
        match words[..] {
            ["sheet.write", named, buf] => {
                self.written(&parse_settings(named.as_bytes()).unwrap_or_default(), bytes(buf).len(), told)
            }
            ["sheet.check", sheet] => self.judged(&bytes(sheet), told),
            ["sheet.read", sheet, index, buf] => {
                let (sheet, index) = (bytes(sheet), index.parse().unwrap_or(0));
                self.judged(&sheet, told.filter(|no| ![56, 57].contains(no)));
                self.read(&sheet, index, bytes(buf).len(), told);
            }
            _ => (),
        }
    }

    fn times(&mut self) -> &mut Times {
        &mut self.times
    }
}

impl Sheets {
    /// Counts which of two faults stands first, of all pairs of places where one and the other are.
    fn count_order(&mut self, head: &str, one: (No, &[usize]), other: (No, &[usize])) {
        let is_before = |these: &[usize], those: &[usize]| these.iter().min() < those.iter().max() && !these.is_empty();
        self.count_if(is_before(one.1, other.1), head, &format!("{} before {}", one.0, other.0));
        self.count_if(is_before(other.1, one.1), head, &format!("{} before {}", other.0, one.0));
    }

    /// What was taken: how many settings, and limits among them.
    fn taken(&mut self, head: &str, heads: &[Head]) {
        match heads.len() {
            0 => self.count(head, "none"),
            1 => self.count(head, "one"),
            MOST_SETTINGS => self.count(head, "128"),
            _ => (),
        }
        for taken in heads {
            self.count(head, &format!("module {}", taken.module));
            if taken.length() == Some(240) {
                self.count(head, &format!("{} of {}", taken.count, 240 / u128::from(taken.count)));
            }
        }
    }

    /// Into which room of this need it was written or read; 57 where that was too little.
    fn into(&mut self, head: &str, needed: usize, room: usize) {
        self.count_if(needed > 0 && room == 0, head, "none at all");
        self.count_if(room + 1 == needed, head, "one short");
        self.count_if(room == needed, head, "exact");
        self.count_if(room == needed + 1, head, "one longer");
        self.count_if(room > needed + 1, head, "longer");
    }

    /// Settings were written, or refused with this number.
    fn written(&mut self, settings: &[Setting], room: usize, told: Option<No>) {
        let heads: Vec<Head> = settings.iter().map(|setting| setting.head).collect();
        let needed = laid_out(settings).len();
        let not_above = not_above(&heads);
        let not_allowed: Vec<usize> = (0..heads.len()).filter(|place| is_wrong(&settings[*place])).collect();
        match told {
            None => {
                self.taken("write", &heads);
                self.into("write into", needed, room);
            }
            Some(57) => self.into("write into", needed, room),
            Some(79) => {
                self.count("write 79", &heads.len().to_string());
                self.count_if(!not_above.is_empty(), "write 79", "68 too");
                self.count_if(!not_allowed.is_empty(), "write 79", "69 too");
                self.count_if(room < needed, "write 79", "57 too");
            }
            Some(68) => {
                not_above.iter().for_each(|place| self.count("write 68", how_not_above(&heads, *place)));
                self.count_order("write 68, pairs", (68, &not_above), (69, &not_allowed));
                self.count_if(room < needed, "write 68, pairs", "57 too");
            }
            _ => {
                not_allowed.iter().for_each(|place| self.not_allowed("write 69", heads[*place]));
                let by_value = settings.iter().filter(|setting| setting.head.is_allowed());
                let lengths = by_value.map(|setting| (setting.value.len() as u128, setting.head.length().unwrap_or(0)));
                let lengths: Vec<(u128, u128)> = lengths.collect();
                for (length, right) in &lengths {
                    self.count_if(length + 1 == *right, "write 69, values", "one short");
                    self.count_if(*length == right + 1, "write 69, values", "one long");
                }
                let are_all = lengths.len() == settings.len();
                let sums = lengths.iter().fold((0, 0), |sums, lengths| (sums.0 + lengths.0, sums.1 + lengths.1));
                self.count_if(are_all && sums.0 == sums.1, "write 69, values", "the sum right");
                self.count_if(room < needed, "write 69, values", "57 too");
            }
        }
    }

    /// A setting or a record was not allowed: in which ways.
    fn not_allowed(&mut self, head: &str, wrong: Head) {
        let is_count = (1..=240).contains(&wrong.count);
        self.count_if(!(1..=160).contains(&wrong.module), head, &format!("module {}", wrong.module));
        self.count_if(wrong.length().is_none(), head, &format!("kind {}", wrong.kind));
        self.count_if(!is_count, head, &format!("count {}", wrong.count));
        self.count_if(is_count && wrong.length().map_or(false, |length| length > 240), head, "over 240 bytes");
    }

    /// A record of a sheet that is right was read, or refused with 56 or 57.
    fn read(&mut self, sheet: &[u8], index: u64, room: usize, told: Option<No>) {
        if sheet.len() < HEADER || told.map_or(false, |no| ![56, 57].contains(&no)) {
            return;
        }
        let held = records(sheet);
        if told == Some(56) {
            self.count_if(index == held.len() as u64, "read at", "56 one past");
            self.count_if(index == u64::MAX, "read at", "56 at the largest");
            return self.count("read at", &format!("56 at {index}"));
        }
        if let Some(record) = held.get(index as usize) {
            self.count_if(index == 0, "read at", "0");
            self.count_if(index + 1 == held.len() as u64, "read at", "the last");
            self.into("read into", record.head.length().unwrap_or(0) as usize, room);
        }
    }

    /// A sheet was right, or refused with this number: by which fault, and what else is wrong with it.
    fn judged(&mut self, sheet: &[u8], told: Option<No>) {
        if sheet.len() < HEADER {
            return self.shorter(sheet);
        }
        let held = records(sheet);
        let heads: Vec<Head> = held.iter().map(|record| record.head).collect();
        let header = header_faults(sheet).contains(&true);
        let not_above = not_above(&heads);
        let not_allowed: Vec<usize> = (0..heads.len()).filter(|place| !heads[*place].is_allowed()).collect();
        let misplaced = misplaced(&held);
        match told {
            None => self.taken("right", &heads),
            Some(66) => self.count("66", &format!("version {}", number(sheet, 0, 2))),
            Some(67) => self.header(sheet, not_above.is_empty() && not_allowed.is_empty() && misplaced.is_empty()),
            Some(68) => not_above.iter().for_each(|place| self.count("68", how_not_above(&heads, *place))),
            Some(69) => not_allowed.iter().for_each(|place| self.not_allowed("69", heads[*place])),
            _ => self.misplaced(sheet, &held),
        }
        if let Some(told @ (66 | 67)) = told {
            let of_records = [(68, &not_above), (69, &not_allowed), (70, &misplaced)];
            let too = [(67, header)].into_iter().chain(of_records.map(|(no, places)| (no, !places.is_empty())));
            for (no, _) in too.filter(|(no, applies)| *no > told && *applies) {
                self.count("pairs", &format!("{told} and {no}"));
            }
        }
        if told == Some(68) {
            self.count_order("pairs", (68, &not_above), (69, &not_allowed));
            self.count_order("pairs", (68, &not_above), (70, &misplaced));
        }
        if told == Some(69) {
            self.count_order("pairs", (69, &not_allowed), (70, &misplaced));
        }
    }

    /// A sheet was refused 65: how short it is, and what its bytes would be refused with.
    fn shorter(&mut self, sheet: &[u8]) {
        self.count_if(sheet.is_empty(), "65", "no bytes");
        self.count_if(sheet.len() == HEADER - 1, "65", "11 bytes");
        self.count_if(sheet.len() >= 2 && number(sheet, 0, 2) != 1, "pairs", "65 and 66");
        self.count_if(sheet.len() >= 4 && number(sheet, 2, 2) > MOST_SETTINGS as u128, "pairs", "65 and 67");
        self.count_if(sheet.len() >= 8 && number(sheet, 4, 4) != HEADER as u128, "pairs", "65 and 67");
    }

    /// A sheet was refused 67: by which of the header's fields, with records that are right or not.
    fn header(&mut self, sheet: &[u8], are_records_right: bool) {
        let (count, records_at, values_at) = (number(sheet, 2, 2), number(sheet, 4, 4), number(sheet, 8, 4));
        let right = HEADER as u128 + 8 * count;
        let faults = header_faults(sheet);
        self.count("67", &format!("{count} records"));
        let is_alone = faults == [true, false, false, false] && are_records_right;
        self.count_if(count == 129 && is_alone, "67", "129 records alone");
        self.count("67", &format!("records at {records_at}"));
        self.count_if(records_at > 65535, "67", "records far off");
        self.count_if(values_at + 1 == right, "67", "values one less");
        self.count_if(values_at == right + 1, "67", "values one more");
        self.count_if(values_at > right + 65535, "67", "values far off");
        if faults == [false, false, false, true] {
            self.count_if(sheet.len() == HEADER, "67", "12 bytes");
            self.count_if(sheet.len() as u128 + 1 == values_at, "67", "one byte short");
        }
    }

    /// A sheet was refused 70: by an offset, or by its end.
    fn misplaced(&mut self, sheet: &[u8], held: &[Record]) {
        let values_at = number(sheet, 8, 4);
        let mut start = 0;
        for record in held {
            let offset = record.offset;
            self.count_if(offset == start + 1, "70", "one more");
            self.count_if(offset + 1 == start, "70", "one less");
            self.count_if([256, 65536, 1 << 24, 1 << 31].contains(&(offset.saturating_sub(start))), "70", "high bytes");
            self.count_if(offset + values_at >= 1 << 32, "70", "into the header");
            start += record.head.length().unwrap_or(0);
        }
        let (length, right) = (sheet.len() as u128, values_at + start);
        self.count_if(length + 1 == right, "70", "one byte short");
        self.count_if(length == right + 1, "70", "one byte long");
        self.count_if(held.is_empty() && length == 13, "70", "a 13th byte");
    }
}

/// The bytes that a word of an answered call stands for.
fn bytes(word: &str) -> Vec<u8> {
    unhex(word.as_bytes()).unwrap_or_default()
}

/// Whether a setting is not allowed, or its value of another length than its head says.
fn is_wrong(setting: &Setting) -> bool {
    !setting.head.is_allowed() || setting.head.length() != Some(setting.value.len() as u128)
}

/// The places whose key is not above the one before.
fn not_above(heads: &[Head]) -> Vec<usize> {
    (1..heads.len()).filter(|place| heads[*place].key() <= heads[place - 1].key()).collect()
}

/// In which way the key of this place is not above the one before.
fn how_not_above(heads: &[Head], place: usize) -> &'static str {
    let (before, here) = (heads[place - 1], heads[place]);
    if here.module < before.module {
        "lower module"
    } else if here.register < before.register {
        "lower register"
    } else {
        "equal"
    }
}

/// The places whose offset is not where the record before says that its own value ends; the first one's is 0. What
/// follows a record without a length is not judged.
fn misplaced(held: &[Record]) -> Vec<usize> {
    let start = |place: usize| match place {
        0 => Some(0),
        _ => held[place - 1].head.length().map(|length| held[place - 1].offset + length),
    };
    (0..held.len()).filter(|place| start(*place).map_or(false, |start| held[*place].offset != start)).collect()
}
