//! Walks over settings that are thrown out of a sheet and added to it, in buffers with marked bytes behind the sheet:
//! each place of a record, of a module and of a new setting, rooms around the longer sheet's length, and freed room
//! that is filled again; then sheets, stated lengths and new settings with one fault or several.

use super::sheet_walk::{
    few, forbid, most_elements, named, settings, shape, spoil, valued, FAR, MOST_BYTES, NO_COUNTS, NO_KINDS,
    NO_MODULES, WRAP,
};
use super::{buffer, Script};
use crate::calls::{hex, unhex, LONGEST_LINE};
use crate::queue::field;
use crate::random::Random;
use crate::sheet::{check, laid_out, Head, Setting, HEADER, MOST_SETTINGS, RECORD};
use crate::telegram::No;
use crate::values::KINDS;
use std::collections::BTreeSet;

/// A lent buffer, and the length that is stated of the sheet in it.
#[derive(Clone)]
struct Lent {
    buf: Vec<u8>,
    length: u64,
}

impl Lent {
    /// A buffer with this sheet in it and so many marked bytes behind.
    fn of(sheet: &[u8], behind: usize) -> Lent {
        Lent { buf: [sheet, &buffer(behind)].concat(), length: sheet.len() as u64 }
    }

    /// The same with the sheet of these settings.
    fn new(settings: &[Setting], behind: usize) -> Lent {
        Lent::of(&laid_out(settings), behind)
    }

    /// The settings of the sheet, if it is right.
    fn settings(&self) -> Vec<Setting> {
        check(&self.buf[..self.length as usize]).unwrap_or_default()
    }
}

/// What a call asks for: a record by its number and its key, a module, or a new setting.
#[derive(Clone)]
enum Edit {
    Record(u64, (u8, u8)),
    Module(u8),
    New(Setting),
}

/// Which of them; a call may ask for each.
const SORTS: [usize; 3] = [0, 1, 2];

/// Adds a call on this buffer, and tells what it leaves.
fn edit(script: &mut Script, lent: &Lent, edit: &Edit) -> Lent {
    let (buf, length) = (hex(&lent.buf), lent.length);
    let answer = script.answer(match edit {
        Edit::Record(index, (module, register)) => format!("sheet.rem {buf} {length} {index} {module} {register}"),
        Edit::Module(module) => format!("sheet.remmod {buf} {length} {module}"),
        Edit::New(new) => format!("sheet.add {buf} {length} {}", named(&[new.clone()])),
    });
    let left = field::<String>(&answer, "buf=").and_then(|left| unhex(left.as_bytes()));
    Lent { buf: left.unwrap_or_default(), length: field(&answer, "n=").unwrap_or(lent.length) }
}

/// How many bytes stand behind a sheet: none, one, or more.
fn behind(random: &mut Random) -> usize {
    match random.below(4) {
        0 => 0,
        1 => 1,
        2 => random.between(2, 12),
        _ => random.between(13, 60),
    }
}

/// A key that none of these settings has: beside one of theirs, or any.
pub fn absent_key(random: &mut Random, settings: &[Setting]) -> (u8, u8) {
    loop {
        let any = (random.between(1, 160) as u8, random.byte());
        let (module, register) = match settings.is_empty() {
            true => any,
            false => settings[random.below(settings.len())].head.key(),
        };
        let key = match random.below(4) {
            0 => (module, register.wrapping_add(1)),
            1 => (module, register.wrapping_sub(1)),
            2 => ((module % 160) + 1, register),
            _ => any,
        };
        if settings.iter().all(|setting| setting.head.key() != key) {
            return key;
        }
    }
}

/// A module that none of these settings has.
pub fn absent_module(random: &mut Random, settings: &[Setting]) -> u8 {
    loop {
        let module = random.between(1, 160) as u8;
        if settings.iter().all(|setting| setting.head.module != module) {
            return module;
        }
    }
}

/// The call for the record of this number, with the key that it has, or one that no record has.
fn record(random: &mut Random, settings: &[Setting], index: u64) -> Edit {
    let held = settings.get(index as usize).map(|setting| setting.head.key());
    Edit::Record(index, held.unwrap_or_else(|| absent_key(random, settings)))
}

/// A setting with this key and a value of at most so many bytes.
pub fn setting(random: &mut Random, (module, register): (u8, u8), bytes: usize) -> Setting {
    let (kind, count) = shape(random, bytes);
    valued(random, Head { module, register, kind, count })
}

/// This setting as one that is not allowed.
fn forbidden(random: &mut Random, setting: Setting) -> Setting {
    let mut alone = [setting];
    forbid(random, &mut alone, 0);
    let [setting] = alone;
    setting
}

/// A call of a sort on a right sheet of some settings that has something to throw out, or a setting to add.
fn right_edit(random: &mut Random, settings: &[Setting], sort: usize) -> Edit {
    let index = random.below(settings.len());
    match sort {
        0 => record(random, settings, index as u64),
        1 => Edit::Module(settings[index].head.module),
        _ => {
            let key = absent_key(random, settings);
            Edit::New(setting(random, key, 16))
        }
    }
}

/// Calls of a sort that have their own numbers too: nothing to throw out; a key that is there, and such a setting that is
/// not allowed.
fn wrong_edits(random: &mut Random, settings: &[Setting], sort: usize) -> Vec<Edit> {
    match sort {
        0 => {
            let far = random.pick(&FAR);
            let index = random.pick(&[settings.len() as u64, far]);
            vec![record(random, settings, index)]
        }
        1 => vec![Edit::Module(absent_module(random, settings))],
        _ => {
            let there = settings[random.below(settings.len())].clone();
            vec![Edit::New(forbidden(random, there.clone())), Edit::New(there)]
        }
    }
}

/// Records thrown out of sheets of every length: the first, the last, one between; and past the last.
pub fn removals(script: &mut Script) {
    for count in [0, 1, 1, 2, 3, MOST_SETTINGS] {
        let settings = settings(&mut script.random, count, 8);
        each_place(script, &settings);
    }
    for _ in 0..6 {
        let settings = few(&mut script.random);
        each_place(script, &settings);
    }
    for (place, count) in [0, 1, 2].into_iter().flat_map(|place| [(place, 1), (place, MOST_BYTES as u8)]) {
        let random = &mut script.random;
        let (mut settings, behind) = (settings(random, 3, 16), behind(random));
        settings[place] = valued(random, Head { kind: 1, count, ..settings[place].head });
        let thrown_out = record(random, &settings, place as u64);
        edit(script, &Lent::new(&settings, behind), &thrown_out);
    }
    let settings = few(&mut script.random);
    for index in FAR {
        let (behind, past) = (behind(&mut script.random), record(&mut script.random, &settings, index));
        edit(script, &Lent::new(&settings, behind), &past);
    }
}

/// The records of each end of a sheet, one between, one past the last and one far past.
fn each_place(script: &mut Script, settings: &[Setting]) {
    let (count, far) = (settings.len() as u64, script.random.pick(&FAR));
    let between = script.random.below(settings.len().max(1)) as u64;
    for index in BTreeSet::from([0, between, count.saturating_sub(1), count, far]) {
        let (behind, record) = (behind(&mut script.random), record(&mut script.random, settings, index));
        edit(script, &Lent::new(settings, behind), &record);
    }
}

/// Settings of these modules, each with up to four registers.
fn of_modules(random: &mut Random, modules: &[u8]) -> Vec<Setting> {
    let mut settings = Vec::new();
    for module in modules {
        let registers: BTreeSet<u8> = (0..random.between(1, 4)).map(|_| random.byte()).collect();
        for register in registers {
            settings.push(setting(random, (*module, register), 16));
        }
    }
    settings
}

/// Modules thrown out: each of a few, the only one, and such as have no record, at both ends, between and past all.
pub fn modules(script: &mut Script) {
    for modules in [[1, 2, 3], [1, 80, 160], [2, 4, 159], [15, 16, 160]] {
        let settings = of_modules(&mut script.random, &modules);
        let others = [0, modules[0] - 1, modules[1] + 1, modules[2] + 1, 161, 255];
        for module in modules.into_iter().chain(others) {
            let behind = behind(&mut script.random);
            edit(script, &Lent::new(&settings, behind), &Edit::Module(module));
        }
    }
    for (module, behind) in [(1, 0), (15, 1), (160, 9)] {
        let settings = of_modules(&mut script.random, &[module]);
        for module in [module - 1, module, module + 1] {
            edit(script, &Lent::new(&settings, behind), &Edit::Module(module));
        }
        edit(script, &Lent::new(&settings[..1], behind), &Edit::Module(module));
    }
    for module in [0, 1, 15, 160, 161, 255] {
        let behind = behind(&mut script.random);
        edit(script, &Lent::new(&[], behind), &Edit::Module(module));
    }
    for _ in 0..2 {
        let random = &mut script.random;
        let (settings, behind) = (settings(random, MOST_SETTINGS, 8), behind(random));
        let mut asked = wrong_edits(random, &settings, 1);
        asked.push(right_edit(random, &settings, 1));
        for module in asked {
            edit(script, &Lent::new(&settings, behind), &module);
        }
    }
}

/// Adds this setting of a list to the others of it, into each of these rooms behind their sheet.
fn add_back(script: &mut Script, settings: &[Setting], place: usize, rooms: &[usize]) {
    let mut others = settings.to_vec();
    let new = Edit::New(others.remove(place));
    for room in rooms {
        edit(script, &Lent::new(&others, *room), &new);
    }
}

/// Settings added before all others, behind them and between, to a few, to one and to none, into rooms around the very
/// length; and values of each kind up to the most elements.
pub fn additions(script: &mut Script) {
    for count in [1, 2, 3, 4, 5, 6] {
        let random = &mut script.random;
        let (bytes, between) = (random.pick(&[8, 16, MOST_BYTES]), random.below(count));
        let settings = settings(random, count, bytes);
        for place in BTreeSet::from([0, between, count - 1]) {
            let needed = RECORD + settings[place].value.len();
            let longer = needed + script.random.between(2, 60);
            add_back(script, &settings, place, &[0, RECORD - 1, needed - 1, needed, needed + 1, longer]);
        }
    }
    for kind in KINDS {
        let most = most_elements(kind, MOST_BYTES) as u8;
        let (mut settings, place) = (few(&mut script.random), script.random.below(3));
        for count in [1, most, most + 1] {
            let head = Head { kind, count, ..settings[place].head };
            settings[place] = valued(&mut script.random, head);
            let needed = RECORD + settings[place].value.len();
            add_back(script, &settings, place, &[needed]);
        }
    }
    for module in [1, 160] {
        let new = setting(&mut script.random, (module, 48), 16);
        edit(script, &Lent::new(&[], RECORD + new.value.len()), &Edit::New(new));
    }
}

/// New settings that are not allowed, in each way, with room for them and without.
pub fn not_allowed(script: &mut Script) {
    let settings = few(&mut script.random);
    let key = absent_key(&mut script.random, &settings);
    let right = setting(&mut script.random, key, 16);
    let mut wrong: Vec<Setting> = Vec::new();
    for module in [0].into_iter().chain(NO_MODULES) {
        wrong.push(Setting { head: Head { module, ..right.head }, ..right.clone() });
    }
    for kind in NO_KINDS {
        wrong.push(Setting { head: Head { kind, ..right.head }, ..right.clone() });
        wrong.push(valued(&mut script.random, Head { kind, ..right.head }));
    }
    for count in NO_COUNTS {
        wrong.push(Setting { head: Head { count, ..right.head }, ..right.clone() });
        wrong.push(valued(&mut script.random, Head { count, ..right.head }));
    }
    for kind in KINDS {
        let count = most_elements(kind, MOST_BYTES) as u8 + 1;
        wrong.push(valued(&mut script.random, Head { kind, count, ..right.head }));
    }
    let (shorter, longer) = (right.value[1..].to_vec(), [&right.value[..], &[0]].concat());
    for value in [shorter, longer, Vec::new(), vec![0; 300]] {
        wrong.push(Setting { head: right.head, value });
    }
    for new in wrong {
        let room = if script.random.one_in(3) { 0 } else { RECORD + new.value.len() };
        edit(script, &Lent::new(&settings, room), &Edit::New(new));
    }
}

/// A setting whose key is there, at each end, between and alone: the same one, one with another value, one with another
/// kind; with room for it and without.
pub fn keys_there(script: &mut Script) {
    for count in [1, 2, 3, 5] {
        let settings = settings(&mut script.random, count, 16);
        for place in BTreeSet::from([0, count / 2, count - 1]) {
            let same = settings[place].clone();
            let mut value = same.value.clone();
            value[0] ^= 1;
            let another = Setting { value, ..same.clone() };
            let other_kind = setting(&mut script.random, same.head.key(), 16);
            for new in [same, another, other_kind] {
                let needed = RECORD + new.value.len();
                let room = script.random.pick(&[0, needed - 1, needed, needed + 9]);
                edit(script, &Lent::new(&settings, room), &Edit::New(new));
            }
        }
    }
}

/// The most records of a sheet: the last of them is added at each place, one more is refused there, with room and
/// without; and a key that is there, and a setting that is not allowed, come first.
pub fn full_sheets(script: &mut Script) {
    for place in [0, MOST_SETTINGS / 2, MOST_SETTINGS] {
        let mut most = settings(&mut script.random, MOST_SETTINGS + 1, 8);
        let new = most.remove(place);
        add_back(script, &most, place.min(MOST_SETTINGS - 1), &[60]);
        let there = most[script.random.below(MOST_SETTINGS)].clone();
        let wrong = forbidden(&mut script.random, new.clone());
        for (new, room) in [(new.clone(), 0), (new, 60), (there, 60), (wrong, 60)] {
            edit(script, &Lent::new(&most, room), &Edit::New(new));
        }
    }
}

/// New settings that can't be added, by every choice of 69, 78, 79 and 80.
pub fn unaddable(script: &mut Script) {
    for choice in 0..16 {
        let random = &mut script.random;
        let rows = [69, 78, 79, 80].into_iter().enumerate();
        let faults: Vec<No> = rows.filter(|(place, _)| choice >> place & 1 == 1).map(|(_, no)| no).collect();
        let settings = if faults.contains(&79) { settings(random, MOST_SETTINGS, 8) } else { few(random) };
        let key = match faults.contains(&78) {
            true => settings[random.below(settings.len())].head.key(),
            false => absent_key(random, &settings),
        };
        let mut new = setting(random, key, 16);
        if faults.contains(&69) {
            new = forbidden(random, new);
        }
        if faults.contains(&78) {
            (new.head.module, new.head.register) = key;
        }
        if faults.contains(&69) && new.is_allowed() {
            new.value.push(161);
        }
        let needed = RECORD + new.value.len();
        let room = if faults.contains(&80) { random.pick(&[0, 1, needed - 1]) } else { needed + behind(random) };
        edit(script, &Lent::new(&settings, room), &Edit::New(new));
    }
}

/// The sheet of these settings with the fault of this row in one place, and perhaps with a later row's in another.
fn wrong_sheet(random: &mut Random, settings: &[Setting], row: No) -> Vec<u8> {
    let mut sheet = laid_out(settings);
    let [place, other] = [(); 2].map(|()| random.between(1, settings.len() - 1));
    if random.one_in(2) {
        let later = random.between(row as usize, 70) as No;
        spoil(random, &mut sheet, later, other);
    }
    spoil(random, &mut sheet, row, place);
    sheet
}

/// Sheets that are not right, with each number and perhaps a later one, for each call; its own number may apply as well.
pub fn wrong_sheets(script: &mut Script) {
    for (row, sort) in (65..=70).flat_map(|row| SORTS.map(|sort| (row, sort))) {
        let random = &mut script.random;
        let settings = few(random);
        let mut asked = wrong_edits(random, &settings, sort);
        asked.push(right_edit(random, &settings, sort));
        for asked in asked {
            let sheet = wrong_sheet(&mut script.random, &settings, row);
            let behind = behind(&mut script.random);
            edit(script, &Lent::of(&sheet, behind), &asked);
        }
    }
    for sort in SORTS {
        let random = &mut script.random;
        let (more, row) = (settings(random, MOST_SETTINGS + 1, 8), random.between(66, 70) as No);
        let asked = right_edit(random, &more, sort);
        for sheet in [laid_out(&more), wrong_sheet(random, &more[..MOST_SETTINGS], row)] {
            let behind = behind(&mut script.random);
            edit(script, &Lent::of(&sheet, behind), &asked);
        }
    }
}

/// Lengths that are stated over the buffer, by one and by far, with all that may come behind that; and those that are
/// not the sheet's though the buffer has so many bytes.
pub fn stated(script: &mut Script) {
    for sort in SORTS {
        for row in 65..=70 {
            let random = &mut script.random;
            let settings = few(random);
            let (mut sheet, place) = (laid_out(&settings), random.between(1, settings.len() - 1));
            spoil(random, &mut sheet, row, place);
            let asked = right_edit(random, &settings, sort);
            let length = sheet.len() as u64 + random.pick(&[1, 1, 2, 60]);
            edit(script, &Lent { length, ..Lent::of(&sheet, 0) }, &asked);
        }
        let settings = few(&mut script.random);
        let length = laid_out(&settings).len() as u64;
        for over in [length + 1, length + 7, length + WRAP, u64::MAX] {
            let mut asked = wrong_edits(&mut script.random, &settings, sort);
            asked.push(right_edit(&mut script.random, &settings, sort));
            for asked in asked {
                edit(script, &Lent { length: over, ..Lent::new(&settings, 0) }, &asked);
            }
        }
        let between = script.random.between(HEADER, HEADER + RECORD * settings.len() - 1) as u64;
        let any = script.random.below(length as usize) as u64;
        for stated in [0, 1, HEADER as u64 - 1, between, any, length - 1, length, length + 1, length + 9, length + 10] {
            let asked = right_edit(&mut script.random, &settings, sort);
            edit(script, &Lent { length: stated, ..Lent::new(&settings, 9) }, &asked);
        }
        for length in [0, 1, u64::MAX] {
            let asked = right_edit(&mut script.random, &settings, sort);
            edit(script, &Lent { buf: Vec::new(), length }, &asked);
        }
    }
    let settings = settings(&mut script.random, MOST_SETTINGS, 8);
    let (there, new) = (settings[0].clone(), right_edit(&mut script.random, &settings, 2));
    let wrong = forbidden(&mut script.random, there.clone());
    for asked in [new, Edit::New(there), Edit::New(wrong)] {
        let lent = Lent::new(&settings, 0);
        edit(script, &Lent { length: lent.length + 1, ..lent }, &asked);
    }
}

/// Room that a removal frees in a buffer that ends with the sheet: a setting that is one byte too long for it, one that
/// just fits, and the same again; then a module, whose settings come back in any order; and settings that are added and
/// thrown out again, by their number and by their module.
pub fn freed(script: &mut Script) {
    for _ in 0..6 {
        let random = &mut script.random;
        let settings = few(random);
        let index = random.below(settings.len());
        let (whole, thrown_out) = (Lent::new(&settings, 0), record(random, &settings, index as u64));
        let left = edit(script, &whole, &thrown_out);
        let (module, register) = absent_key(&mut script.random, &settings);
        let length = settings[index].value.len();
        let of_bytes = |count: usize| Head { module, register, kind: 1, count: count as u8 };
        let longer = valued(&mut script.random, of_bytes(length.min(MOST_BYTES - 1) + 1));
        let fitting = valued(&mut script.random, of_bytes(length));
        for new in [longer, settings[index].clone(), fitting] {
            edit(script, &left, &Edit::New(new));
        }

        let module = settings[index].head.module;
        let mut left = edit(script, &whole, &Edit::Module(module));
        let mut back: Vec<Setting> = settings.into_iter().filter(|setting| setting.head.module == module).collect();
        script.random.shuffle(&mut back);
        for new in back {
            left = edit(script, &left, &Edit::New(new));
        }
    }
    for is_module in [false, true].into_iter().cycle().take(6) {
        let random = &mut script.random;
        let (settings, behind) = (few(random), random.between(60, 90));
        let module = absent_module(random, &settings);
        let key = if is_module { (module, random.byte()) } else { absent_key(random, &settings) };
        let new = setting(random, key, 16);
        let longer = edit(script, &Lent::new(&settings, behind), &Edit::New(new));
        let place = settings.iter().filter(|setting| setting.head.key() < key).count() as u64;
        edit(script, &longer, &if is_module { Edit::Module(module) } else { Edit::Record(place, key) });
    }
}

/// A sheet from none on, in a buffer of some room: settings are added and thrown out as it comes, and now and then the
/// latest is undone.
pub fn to_and_fro(script: &mut Script) {
    let room = script.random.pick(&[60, 200, 400]);
    let mut lent = Lent::new(&[], room);
    for _ in 0..40 {
        let (random, settings) = (&mut script.random, lent.settings());
        let sort = if settings.is_empty() { 2 } else { random.pick(&[0, 1, 2, 2, 2]) };
        let asked = match settings.is_empty() {
            true => Edit::New(setting(random, (15, 48), 16)),
            false if random.one_in(8) => wrong_edits(random, &settings, sort)[0].clone(),
            false => right_edit(random, &settings, sort),
        };
        let left = edit(script, &lent, &asked);
        let is_undone = left.length != lent.length && script.random.one_in(3);
        lent = if is_undone { undone(script, left, &settings, &asked) } else { left };
    }
}

/// What is left where a call on a sheet of these settings is undone.
fn undone(script: &mut Script, mut left: Lent, settings: &[Setting], asked: &Edit) -> Lent {
    let place = |key: (u8, u8)| settings.iter().filter(|setting| setting.head.key() < key).count() as u64;
    let back: Vec<Edit> = match asked {
        Edit::New(new) => vec![Edit::Record(place(new.head.key()), new.head.key())],
        Edit::Record(index, _) => vec![Edit::New(settings[*index as usize].clone())],
        Edit::Module(module) => {
            let thrown_out = settings.iter().filter(|setting| setting.head.module == *module);
            thrown_out.cloned().map(Edit::New).collect()
        }
    };
    for asked in back {
        left = edit(script, &left, &asked);
    }
    left
}

/// Once a script, since its lines are long: the largest sheet there is, made by adding its last setting, with just the
/// room for it and with one byte less; one record thrown out of it, all of them, and one more refused; and the longest
/// line, with the most bytes behind that sheet, and one longer.
pub fn largest(script: &mut Script) {
    let head = |register| Head { module: 1, register, kind: 1, count: MOST_BYTES as u8 };
    let value =
        |register: u8| (0..MOST_BYTES).map(|place| (place as u8).wrapping_mul(7).wrapping_add(register)).collect();
    let of = |register: u8| Setting { head: head(register), value: value(register) };
    let settings: Vec<Setting> = (0..MOST_SETTINGS as u8).map(of).collect();
    let middle = MOST_SETTINGS / 2;
    add_back(script, &settings, middle, &[RECORD + MOST_BYTES - 1, RECORD + MOST_BYTES]);
    let whole = Lent::new(&settings, 0);
    let small = Setting { head: Head { count: 1, ..head(200) }, value: vec![161] };
    for asked in [Edit::Record(middle as u64, (1, middle as u8)), Edit::Module(1), Edit::New(small)] {
        edit(script, &whole, &asked);
    }
    let most = (LONGEST_LINE - "sheet.remmod  31756 1".len()) / 2;
    let longest = Lent::new(&settings, most - whole.buf.len());
    let start = format!("sheet.remmod {} ", hex(&longest.buf));
    for length in [LONGEST_LINE, LONGEST_LINE + 1] {
        let digits = length - start.len() - " 1".len();
        script.call(format!("{start}{:0digits$} 1", longest.length));
    }
}
