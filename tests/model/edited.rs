//! What a script's calls and answers tell of settings thrown out of a sheet and added to it: where they stood, in
//! which rooms, by which fault each number was told, and which faults stood behind it. What a call must leave is worked
//! out on the sheet's own bytes, where a record and its value are cut out or put in. Another sheet, a changed byte
//! behind it or of a refused one, and another number are told as wrong.

use crate::calls::{hex, parse_setting, unhex};
use crate::sheet::{check, records, Head, Setting, HEADER, MOST_SETTINGS, RECORD};
use crate::subject::{Subject, Times, Wanted};
use crate::telegram::No;

/// What must have been met of records that were thrown out.
const RECORDS: [&str; 7] =
    ["the first", "from the middle", "the last", "the only one", "of 128", "of one byte", "of 240 bytes"];
/// The same of modules.
const MODULES: [&str; 9] = [
    "the first",
    "from the middle",
    "the last",
    "all of them",
    "one record",
    "several records",
    "of 128",
    "module 1",
    "module 160",
];
/// What must have been met of settings that were added; the last four are values of 240 bytes.
const ADDED: [&str; 13] = [
    "to the empty sheet",
    "before all",
    "between",
    "behind all",
    "the 128th",
    "of a module there",
    "of another module",
    "module 1",
    "module 160",
    "240 of 1",
    "120 of 2",
    "60 of 4",
    "30 of 8",
];
/// What must have been met of rooms for a longer sheet: 80 in the first three of them.
const ROOMS: [&str; 6] = ["no room at all", "less than a record", "one short", "exact", "one longer", "longer"];
/// What must have been met of bytes behind a sheet that something was thrown out of.
const BEHIND: [&str; 3] = ["no byte", "one byte", "more bytes"];
/// What must have been met of new settings that are not allowed.
const NOT_ALLOWED: [&str; 12] = [
    "module 0",
    "module 161",
    "module 255",
    "kind 0",
    "kind 8",
    "count 0",
    "count 241",
    "count 255",
    "over 240 bytes",
    "value one short",
    "value one long",
    "no value",
];
/// What must have been met of settings whose key was there.
const THERE: [&str; 7] =
    ["the first", "from the middle", "the last", "the only one", "the same setting", "another value", "another kind"];
/// The pairs of an adding's own numbers of which the first must have been told.
const PAIRS: [&str; 6] = ["69 and 78", "69 and 79", "69 and 80", "78 and 79", "78 and 80", "79 and 80"];
/// What must have been met of stated lengths over the buffer.
const OVER: [&str; 5] = ["by one", "by further", "by 4294967296", "the largest", "of no buffer"];
/// What the whole buffer would have been refused with then, "none" where it would not have been.
const OVER_TOO: [&str; 8] = ["none", "65", "66", "67", "68", "69", "70", "77"];
const OVER_ADD_TOO: [&str; 10] = ["65", "66", "67", "68", "69", "70", "69 of the setting", "78", "79", "80"];
/// What must have been met of stated lengths that are not the sheet's, which is right but for that.
const STATED: [&str; 5] = ["no bytes", "11 bytes", "up to a record", "one less", "one more"];
/// What must have been met of sheets that are not right, and of the call's own numbers behind it.
const WRONG: [&str; 7] = ["65", "66", "67", "68", "69", "70", "77 too"];
const WRONG_ADD: [&str; 10] = ["65", "66", "67", "68", "69", "70", "69 too", "78 too", "79 too", "80 too"];
/// What must have been met of calls that went on from what others left, up to the sheet there was before.
const BACK: [&str; 4] = ["added, removed", "removed, added", "a module removed, added", "added, its module removed"];
/// What must have been met, under so many heads.
const WANTED: [(&str, &[&str]); 25] = [
    ("rem", &RECORDS),
    ("rem, behind", &BEHIND),
    ("rem 77", &["one past", "128", "4294967296", "18446744073709551615", "of the empty sheet"]),
    ("remmod", &MODULES),
    ("remmod, behind", &BEHIND),
    ("remmod 77", &["below all", "between", "above all", "0", "161", "255", "of the empty sheet"]),
    ("add", &ADDED),
    ("add into", &ROOMS),
    ("add 69", &NOT_ALLOWED),
    ("add 78", &THERE),
    ("add 79", &["before all", "between", "behind all"]),
    ("add, pairs", &PAIRS),
    ("rem over", &OVER),
    ("rem over, too", &OVER_TOO),
    ("rem stated", &STATED),
    ("rem of a wrong sheet", &WRONG),
    ("remmod over", &OVER),
    ("remmod over, too", &OVER_TOO),
    ("remmod stated", &STATED),
    ("remmod of a wrong sheet", &WRONG),
    ("add over", &OVER),
    ("add over, too", &OVER_ADD_TOO),
    ("add stated", &STATED),
    ("add of a wrong sheet", &WRONG_ADD),
    ("back", &BACK),
];
/// So many faults are told; others go untold. So much is told of an answer.
const MOST_FAULTS: usize = 5;
const MOST_TOLD: usize = 100;

/// What a call asks for: a record by its number, a module, or a new setting.
enum Wish {
    Record(u64),
    Module(u8),
    New(Setting),
}

/// A call on the sheet in a lent buffer, the sheet's length as it is stated.
struct Edit {
    name: &'static str,
    buf: Vec<u8>,
    length: u64,
    wish: Wish,
}

impl Edit {
    /// The call of this line, if it is one.
    fn of(call: &str) -> Option<Edit> {
        let words: Vec<&str> = call.split(' ').collect();
        let (name, buf, length, wish) = match words[..] {
            ["sheet.rem", buf, length, index, _, _] => ("rem", buf, length, Wish::Record(index.parse().ok()?)),
            ["sheet.remmod", buf, length, module] => ("remmod", buf, length, Wish::Module(module.parse().ok()?)),
            ["sheet.add", buf, length, new] => ("add", buf, length, Wish::New(parse_setting(new.as_bytes())?)),
            _ => return None,
        };
        Some(Edit { name, buf: unhex(buf.as_bytes())?, length: length.parse().ok()?, wish })
    }

    /// So many bytes of the buffer, if it has them.
    fn sheet(&self, length: u64) -> Option<&[u8]> {
        self.buf.get(..usize::try_from(length).ok()?)
    }

    /// The call's own numbers that apply to a sheet of at least 12 bytes, in their order.
    fn own(&self, sheet: &[u8]) -> Vec<No> {
        let held = records(sheet);
        let applying = match &self.wish {
            Wish::Record(index) => vec![(77, *index >= held.len() as u64)],
            Wish::Module(module) => vec![(77, held.iter().all(|record| record.head.module != *module))],
            Wish::New(new) => vec![
                (69, !new.is_allowed()),
                (78, held.iter().any(|record| record.head.key() == new.head.key())),
                (79, held.len() >= MOST_SETTINGS),
                (80, sheet.len() + RECORD + new.value.len() > self.buf.len()),
            ],
        };
        applying.into_iter().filter(|(_, applies)| *applies).map(|(no, _)| no).collect()
    }

    /// The number that is right where so many bytes are stated.
    fn number(&self, length: u64) -> Option<No> {
        match self.sheet(length) {
            None => Some(80),
            Some(sheet) => check(sheet).err().or_else(|| self.own(sheet).first().copied()),
        }
    }

    /// The sheet that must be left of a right one: bytes are cut out of it, or put in.
    fn edited(&self, sheet: &[u8]) -> Vec<u8> {
        let heads: Vec<Head> = records(sheet).iter().map(|record| record.head).collect();
        match &self.wish {
            Wish::Record(index) => cut_out(sheet, *index as usize),
            Wish::Module(module) => match heads.iter().position(|head| head.module == *module) {
                Some(place) => self.edited(&cut_out(sheet, place)),
                None => sheet.to_vec(),
            },
            Wish::New(new) => put_in(sheet, place_of(&heads, new.head), new),
        }
    }
}

/// The place that a new head has among these: before the first that is above it.
fn place_of(heads: &[Head], new: Head) -> usize {
    heads.iter().position(|head| head.key() > new.key()).unwrap_or(heads.len())
}

/// Puts a number at a place of a sheet, lowest byte first.
fn put(sheet: &mut [u8], place: usize, number: u128, width: usize) {
    sheet[place..place + width].copy_from_slice(&number.to_le_bytes()[..width]);
}

/// Where the value of a record starts in a sheet, that of the next one where there is no such record.
fn value_at(sheet: &[u8], place: usize) -> usize {
    let held = records(sheet);
    let before: u128 = held[..place].iter().filter_map(|record| record.head.length()).sum();
    HEADER + RECORD * held.len() + before as usize
}

/// Where a record starts in a sheet.
fn record_at(place: usize) -> usize {
    HEADER + RECORD * place
}

/// A sheet with another number of records in its header, and the offsets of those from a place on moved by so many
/// bytes.
fn renumbered(mut sheet: Vec<u8>, count: usize, from: usize, moved: i128) -> Vec<u8> {
    put(&mut sheet, 2, count as u128, 2);
    put(&mut sheet, 8, record_at(count) as u128, 4);
    for (place, record) in records(&sheet).iter().enumerate().skip(from) {
        put(&mut sheet, record_at(place) + 4, (record.offset as i128 + moved) as u128, 4);
    }
    sheet
}

/// A right sheet without this record's bytes and its value's.
fn cut_out(sheet: &[u8], place: usize) -> Vec<u8> {
    let count = records(sheet).len();
    let (start, end) = (value_at(sheet, place), value_at(sheet, place + 1));
    let mut cut = sheet.to_vec();
    cut.drain(start..end);
    cut.drain(record_at(place)..record_at(place + 1));
    renumbered(cut, count - 1, place, start as i128 - end as i128)
}

/// A right sheet with this setting's record and value put in at this place.
fn put_in(sheet: &[u8], place: usize, new: &Setting) -> Vec<u8> {
    let (count, start) = (records(sheet).len(), value_at(sheet, place));
    let Head { module, register, kind, count: elements } = new.head;
    let offset = (start - record_at(count)) as u32;
    let record = [&[module, register, kind, elements][..], &offset.to_le_bytes()].concat();
    let mut longer = sheet.to_vec();
    longer.splice(start..start, new.value.iter().copied());
    longer.splice(record_at(place)..record_at(place), record);
    renumbered(longer, count + 1, place + 1, new.value.len() as i128)
}

/// How often each thing was met, and what was wrong; the buffer and the sheet's length that the latest call left, and
/// the sheets of the calls that led there, each with the call that left it.
#[derive(Default)]
pub struct Edited {
    left: (Vec<u8>, u64),
    sheets: Vec<(&'static str, Vec<u8>)>,
    times: Times,
    faults: Vec<String>,
}

impl Subject for Edited {
    const NAME: &'static str = "edit, ";
    const WANTED: Wanted = &WANTED;

    fn fresh() -> Edited {
        Edited::default()
    }

    /// Hears of a call and its answer; only those that change a sheet have something to tell.
    fn hear(&mut self, call: &str, answer: &str) {
        if answer == "bad line" {
            return;
        }
        if let Some(edit) = Edit::of(call) {
            let told = answer.strip_prefix("no ").and_then(|rest| rest.split(' ').next()?.parse().ok());
            self.hold(&edit, answer);
            match told {
                None => self.done(&edit),
                Some(no) => self.refused(&edit, no),
            }
        }
    }

    fn times(&mut self) -> &mut Times {
        &mut self.times
    }

    fn faults(&self) -> Vec<String> {
        self.faults.iter().take(MOST_FAULTS).map(|fault| format!("edit: {fault}, which must not occur")).collect()
    }
}

impl Edited {
    /// Holds an answer against what is right: the number and the buffer as it was, or the sheet's length and the buffer
    /// with that sheet laid over its first bytes.
    fn hold(&mut self, edit: &Edit, answer: &str) {
        let right = match (edit.number(edit.length), edit.sheet(edit.length)) {
            (None, Some(sheet)) => {
                let edited = edit.edited(sheet);
                let behind = edit.buf.iter().skip(edited.len()).copied();
                let after: Vec<u8> = edited.iter().copied().chain(behind).collect();
                format!("ok n={} buf={}", edited.len(), hex(&after))
            }
            (no, _) => format!("no {} buf={}", no.unwrap_or(80), hex(&edit.buf)),
        };
        if answer != right {
            let start = |text: &str| text.chars().take(MOST_TOLD).collect::<String>();
            let (name, answer, right) = (edit.name, start(answer), start(&right));
            self.faults.push(format!("sheet.{name} answers \"{answer}..\" where \"{right}..\" is right"));
        }
    }

    /// Something was thrown out or added.
    fn done(&mut self, edit: &Edit) {
        let sheet = match edit.sheet(edit.length) {
            Some(sheet) if edit.number(edit.length).is_none() => sheet,
            _ => return,
        };
        let heads: Vec<Head> = records(sheet).iter().map(|record| record.head).collect();
        match &edit.wish {
            Wish::Record(index) => self.thrown_out(&heads, *index as usize),
            Wish::Module(module) => self.module_thrown_out(&heads, *module),
            Wish::New(new) => {
                self.added(&heads, new);
                self.into(edit, sheet, new);
            }
        }
        let behind = match edit.buf.len() - sheet.len() {
            0 => "no byte",
            1 => "one byte",
            _ => "more bytes",
        };
        self.count(&format!("{}, behind", edit.name), behind);
        self.follow(edit, sheet);
    }

    /// The sheets that led here are those before where the call went on from what the latest one left. Where this one
    /// is one of them again, tells by which calls.
    fn follow(&mut self, edit: &Edit, sheet: &[u8]) {
        if (&edit.buf, edit.length) != (&self.left.0, self.left.1) {
            self.sheets = vec![("", sheet.to_vec())];
        }
        let edited = edit.edited(sheet);
        let after = [&edited[..], edit.buf.get(edited.len()..).unwrap_or(&[])].concat();
        let before = self.sheets.iter().rposition(|(_, sheet)| *sheet == edited);
        self.left = (after, edited.len() as u64);
        self.sheets.push((edit.name, edited));
        if let Some(before) = before {
            let names: Vec<&str> = self.sheets[before + 1..].iter().map(|(name, _)| *name).collect();
            let are_adds = |names: &[&str]| names.iter().all(|name| *name == "add");
            let (first, last) = (names[0], names[names.len() - 1]);
            self.count_if(names == ["add", "rem"], "back", "added, removed");
            self.count_if(names == ["rem", "add"], "back", "removed, added");
            self.count_if(first == "remmod" && are_adds(&names[1..]), "back", "a module removed, added");
            self.count_if(last == "remmod" && are_adds(&names[..names.len() - 1]), "back", "added, its module removed");
        }
    }

    /// Where a record of so many stands.
    fn at_place(&mut self, head: &str, place: usize, count: usize) {
        let thing = match (place, count) {
            (_, 1) => "the only one",
            (0, _) => "the first",
            _ if place + 1 == count => "the last",
            _ => "from the middle",
        };
        self.count(head, thing);
    }

    /// The record of this place was thrown out.
    fn thrown_out(&mut self, heads: &[Head], place: usize) {
        self.at_place("rem", place, heads.len());
        self.count_if(heads.len() == MOST_SETTINGS, "rem", "of 128");
        self.count_if(heads[place].length() == Some(1), "rem", "of one byte");
        self.count_if(heads[place].length() == Some(240), "rem", "of 240 bytes");
    }

    /// The records of this module were thrown out.
    fn module_thrown_out(&mut self, heads: &[Head], module: u8) {
        let is_of = |head: Option<&Head>| head.map_or(false, |head| head.module == module);
        let thing = match (is_of(heads.first()), is_of(heads.last())) {
            (true, true) => "all of them",
            (true, false) => "the first",
            (false, true) => "the last",
            (false, false) => "from the middle",
        };
        let times = heads.iter().filter(|head| head.module == module).count();
        self.count("remmod", thing);
        self.count("remmod", if times == 1 { "one record" } else { "several records" });
        self.count_if(heads.len() == MOST_SETTINGS, "remmod", "of 128");
        self.count("remmod", &format!("module {module}"));
    }

    /// Before which of these a new setting comes.
    fn among(&mut self, head: &str, heads: &[Head], new: Head) {
        let thing = match place_of(heads, new) {
            _ if heads.is_empty() => "to the empty sheet",
            0 => "before all",
            place if place == heads.len() => "behind all",
            _ => "between",
        };
        self.count(head, thing);
    }

    /// A setting was added to these.
    fn added(&mut self, heads: &[Head], new: &Setting) {
        let is_there = heads.iter().any(|head| head.module == new.head.module);
        self.among("add", heads, new.head);
        self.count_if(heads.len() + 1 == MOST_SETTINGS, "add", "the 128th");
        self.count("add", if is_there { "of a module there" } else { "of another module" });
        self.count("add", &format!("module {}", new.head.module));
        if new.value.len() == 240 {
            self.count("add", &format!("{} of {}", new.head.count, 240 / u16::from(new.head.count)));
        }
    }

    /// Into which room a setting was added, or was not for want of it.
    fn into(&mut self, edit: &Edit, sheet: &[u8], new: &Setting) {
        let (room, needed) = (edit.buf.len(), sheet.len() + RECORD + new.value.len());
        self.count_if(room == sheet.len(), "add into", "no room at all");
        self.count_if(room > sheet.len() && room < sheet.len() + RECORD, "add into", "less than a record");
        self.count_if(room + 1 == needed, "add into", "one short");
        self.count_if(room == needed, "add into", "exact");
        self.count_if(room == needed + 1, "add into", "one longer");
        self.count_if(room > needed + 1, "add into", "longer");
    }

    /// A call was refused with this number.
    fn refused(&mut self, edit: &Edit, told: No) {
        let sheet = match edit.sheet(edit.length) {
            Some(sheet) => sheet,
            None => return self.over(edit),
        };
        if check(sheet).is_err() {
            return self.wrong(edit, sheet, told);
        }
        let heads: Vec<Head> = records(sheet).iter().map(|record| record.head).collect();
        match &edit.wish {
            Wish::Record(index) => {
                self.count_if(*index == heads.len() as u64, "rem 77", "one past");
                self.count("rem 77", &index.to_string());
                self.count_if(heads.is_empty(), "rem 77", "of the empty sheet");
            }
            Wish::Module(module) => self.no_module(&heads, *module),
            Wish::New(new) => {
                let too = edit.own(sheet).into_iter().filter(|no| *no != told);
                too.for_each(|no| self.count("add, pairs", &format!("{told} and {no}")));
                match told {
                    69 => self.not_allowed(new),
                    78 => self.there(sheet, new),
                    79 => self.among("add 79", &heads, new.head),
                    _ => self.into(edit, sheet, new),
                }
            }
        }
    }

    /// A module that has no record was to be thrown out.
    fn no_module(&mut self, heads: &[Head], module: u8) {
        let is_above = heads.first().map_or(false, |first| first.module < module);
        let is_below = heads.last().map_or(false, |last| last.module > module);
        let thing = match (is_above, is_below) {
            (true, true) => "between",
            (true, false) => "above all",
            (false, true) => "below all",
            (false, false) => "of the empty sheet",
        };
        self.count("remmod 77", thing);
        self.count("remmod 77", &module.to_string());
    }

    /// A new setting was not allowed: in which ways.
    fn not_allowed(&mut self, new: &Setting) {
        let Head { module, kind, count, .. } = new.head;
        let (length, right) = (new.value.len() as u128, new.head.length());
        let is_over = (1..=240).contains(&count) && right.map_or(false, |right| right > 240);
        self.count_if(!(1..=160).contains(&module), "add 69", &format!("module {module}"));
        self.count_if(right.is_none(), "add 69", &format!("kind {kind}"));
        self.count_if(!(1..=240).contains(&count), "add 69", &format!("count {count}"));
        self.count_if(is_over, "add 69", "over 240 bytes");
        if new.head.is_allowed() {
            self.count_if(Some(length + 1) == right, "add 69", "value one short");
            self.count_if(right.map(|right| right + 1) == Some(length), "add 69", "value one long");
            self.count_if(length == 0, "add 69", "no value");
        }
    }

    /// A setting's key was there.
    fn there(&mut self, sheet: &[u8], new: &Setting) {
        let held = check(sheet).unwrap_or_default();
        if let Some(place) = held.iter().position(|setting| setting.head.key() == new.head.key()) {
            self.at_place("add 78", place, held.len());
            let thing = match held[place].head == new.head {
                true if held[place].value == new.value => "the same setting",
                true => "another value",
                false => "another kind",
            };
            self.count("add 78", thing);
        }
    }

    /// A stated length was over the buffer: by how much, and what the whole buffer would have been answered.
    fn over(&mut self, edit: &Edit) {
        let (head, whole) = (format!("{} over", edit.name), edit.buf.len() as u64);
        let thing = match edit.length - whole {
            1 => "by one",
            4294967296 => "by 4294967296",
            _ => "by further",
        };
        self.count(&head, thing);
        self.count_if(edit.length == u64::MAX, &head, "the largest");
        self.count_if(whole == 0, &head, "of no buffer");
        let too = match edit.number(whole) {
            None => "none".to_string(),
            Some(69) if check(&edit.buf).is_ok() => "69 of the setting".to_string(),
            Some(no) => no.to_string(),
        };
        self.count(&format!("{head}, too"), &too);
    }

    /// A sheet was not right: with which number, by its stated length alone or not, and what would have come behind it.
    fn wrong(&mut self, edit: &Edit, sheet: &[u8], told: No) {
        let (head, length) = (format!("{} stated", edit.name), edit.length);
        let is_right = |length: u64| edit.sheet(length).map_or(false, |sheet| check(sheet).is_ok());
        self.count_if(length == 0, &head, "no bytes");
        self.count_if(length == 11, &head, "11 bytes");
        self.count_if(told == 67 && (length + 1..=edit.buf.len() as u64).any(is_right), &head, "up to a record");
        self.count_if(is_right(length + 1), &head, "one less");
        self.count_if(length > 0 && is_right(length - 1), &head, "one more");
        let head = format!("{} of a wrong sheet", edit.name);
        self.count(&head, &told.to_string());
        if sheet.len() >= HEADER {
            edit.own(sheet).iter().for_each(|no| self.count(&head, &format!("{no} too")));
        }
    }
}
