//! Seeded cases for the program `sheets`: arguments, standard input, and what it must write and say. They go through
//! sorts by turns, so that every key, number and limit of the page comes up; most know by the way they were made how
//! they must end, and the reader of texts is held against that.

mod met;
mod spelling;

use crate::random::Random;
use crate::script::edit_walk::{absent_key, absent_module, setting};
use crate::script::sheet_walk::{few, most_elements, settings, spoil, valued, MOST_BYTES};
use crate::sheet::{laid_out, Head, Setting, MOST_SETTINGS};
use crate::telegram::No;
use crate::texts::{run, shown, Ended, Fault, KEYS, LONGEST_TEXT};
use crate::values::{greatest, least, stored, KINDS};
use spelling::{from_key, line, right, spelled, text, wrong, Line};
use std::io;
use std::path::Path;

/// So many cases must meet everything.
const ENOUGH: usize = 400;
/// The longest sheet that is right.
pub const LONGEST_SHEET: usize = 31_756;
/// How many settings a text or a sheet has, by turns.
const COUNTS: [usize; 8] = [0, 1, 128, 2, 5, 40, 127, 17];
/// A sheet's commands, as far as they are words.
const ON_SHEETS: [&str; 6] = ["show", "calls", "check", "remove", "remove", "add"];
/// Texts that are hardly any: no byte, one, no words, no newline, marks and bytes of other systems.
const ODD: [&[u8]; 24] = [
    b"",
    b"\n",
    b"#",
    b"1",
    b" ",
    b"\0",
    b"\xff",
    b"\r",
    b"-",
    b" \t\r ",
    b" \n\t\n\r\n",
    b"# only\n# remarks",
    b"15 48 U16 1 4660",
    b"15 48 U16 1 4660\r\n15 50 U8 1 -0\r\n",
    b"15 48 U16 1 4660\0\n",
    b"15 48\0U16 1 4660\n",
    b"\xef\xbb\xbf15 48 U16 1 4660\n",
    b"15 48 U16 1 4660\n\xff\xfe",
    b"\n\n\n15 48 U16 1",
    b"15\xa048 U16 1 1",
    b"15\x0b48 U16 1 1\n15 49 U16\x0c1 1",
    b"15 48 U16 1 4660#\n15 49 U16 1#4660",
    b"15 48 U16 1 4660\r15 49 U16 1 4660\r",
    b"15 48 U16 1 4660\n \n15 48 U16 1 4660\n",
];
/// Arguments of `calls` on both sides of each limit.
const LIMITS: [[&str; 3]; 22] = [
    ["0", "1000", "0"],
    ["1", "1", "0"],
    ["4294967295", "60000", "4294967295"],
    ["4294967296", "1000", "0"],
    ["7", "0", "1"],
    ["7", "60001", "1"],
    ["7", "4294967295", "1"],
    ["7", "4294967296", "1"],
    ["7", "1000", "4294967296"],
    ["0", "0", "0"],
    ["0", "60001", "0"],
    ["0x7", "0x3e8", "0x0"],
    ["0xFFFFFFFF", "0xea60", "0xffffFFFF"],
    ["0x100000000", "1000", "0"],
    ["7", "0xEA61", "0"],
    ["0x0", "1000", "0"],
    ["-1", "1000", "0"],
    ["7", "-0", "0"],
    ["7", "1000", "-0x0"],
    ["0000000000000000000000000000007", "0x00000000000000000000001", "00"],
    ["99999999999999999999999999999999999999999999999999", "1000", "0"],
    ["7", "18446744073709551617", "0"],
];
/// Arguments that are no command's.
const NO_COMMANDS: [&[&str]; 36] = [
    &[],
    &["made"],
    &["Make"],
    &[""],
    &["make "],
    &["--help"],
    &["make", "make"],
    &["make", ""],
    &["show", "1"],
    &["check", "-"],
    &["calls"],
    &["calls", "7", "1000"],
    &["calls", "7", "1000", "0", "0"],
    &["calls", "x", "1000", "0"],
    &["calls", "7", "", "0"],
    &["calls", "7", "1000", "+0"],
    &["calls", "7 1000 0"],
    &["remove"],
    &["remove", "15", "48", "49"],
    &["remove", "256"],
    &["remove", "0x100"],
    &["remove", "15", "256"],
    &["remove", "256", "48"],
    &["remove", "-1"],
    &["remove", "-0"],
    &["remove", "15", "-0x0"],
    &["remove", "x"],
    &["remove", "0x"],
    &["remove", "15", ""],
    &["remove", " 15"],
    &["remove", "15 48"],
    &["remove", "15", "48#"],
    &["remove", "340282366920938463463374607431768211471"],
    &["add"],
    &["add", "15", "48", "U16", "1", "4660"],
    &["add", "15 48 U16 1 4660", ""],
];

/// A case: its arguments, its standard input, and how it is meant to end, where the way it was made tells that.
pub struct Case {
    pub args: Vec<Vec<u8>>,
    pub input: Vec<u8>,
    meant: Option<Ended>,
}

impl Case {
    fn new(args: &[&str], input: Vec<u8>) -> Case {
        Case { args: args.iter().map(|arg| arg.as_bytes().to_vec()).collect(), input, meant: None }
    }

    fn meaning(self, ended: Ended) -> Case {
        Case { meant: Some(ended), ..self }
    }
}

/// A sort of cases, by its turn.
type Sort = fn(&mut Random, usize) -> Vec<Case>;

/// The sorts, each with how many turns it has in a round.
const SORTS: [(Sort, usize); 23] = [
    (right_texts, 2),
    (canonical_texts, 1),
    (ends, 1),
    (odd_texts, 3),
    (full_values, 1),
    (one_bad, 3),
    (ranked, 3),
    (several_bad, 2),
    (misordered, 1),
    (many, 2),
    (very_many_bad, 1),
    (long_texts, 1),
    (shows, 1),
    (there_and_back, 1),
    (damaged, 5),
    (longer_sheets, 1),
    (limits, 3),
    (requests, 1),
    (checks, 1),
    (removals, 2),
    (additions, 2),
    (bad_additions, 2),
    (no_commands, 5),
];

/// So many settings by turns, the more of them the shorter their values.
fn by_turn(random: &mut Random, turn: usize) -> Vec<Setting> {
    let count = COUNTS[turn % COUNTS.len()];
    let bytes = if count > 20 { 8 } else { random.pick(&[8, 16, MOST_BYTES]) };
    settings(random, count, bytes)
}

/// The lines of these settings.
fn lines(random: &mut Random, settings: &[Setting]) -> Vec<Line> {
    settings.iter().map(|setting| right(random, setting)).collect()
}

/// A text of these lines to make a sheet of: that of these settings where no line is bad.
fn made(random: &mut Random, lines: &[Line], settings: &[Setting]) -> Case {
    let text = text(random, lines);
    let ended = if text.bad.is_empty() { Ended::done(laid_out(settings)) } else { Ended::bad(&text.bad) };
    Case::new(&["make"], text.bytes).meaning(ended)
}

/// Right texts in any spelling.
fn right_texts(random: &mut Random, turn: usize) -> Vec<Case> {
    let settings = by_turn(random, turn);
    let lines = lines(random, &settings);
    vec![made(random, &lines, &settings)]
}

/// A text as `show` writes it, and what is shown of its sheet: that text.
fn canonical_texts(random: &mut Random, turn: usize) -> Vec<Case> {
    let settings = by_turn(random, turn);
    let (text, sheet) = (shown(&settings), laid_out(&settings));
    let make = Case::new(&["make"], text.clone()).meaning(Ended::done(sheet.clone()));
    vec![make, Case::new(&["show"], sheet).meaning(Ended::done(text))]
}

/// A kind's least and greatest number, and one past each of them.
fn ends(random: &mut Random, turn: usize) -> Vec<Case> {
    let kind = KINDS[turn % KINDS.len()];
    let (least, greatest) = (least(kind).unwrap_or(0), greatest(kind).unwrap_or(0));
    let value = [least, greatest].iter().flat_map(|value| stored(kind, *value).unwrap_or_default()).collect();
    let (module, register) = (random.between(1, 160) as u8, random.byte());
    let setting = Setting { head: Head { module, register, kind, count: 2 }, value };
    let mut cases = Vec::new();
    for (word, past) in [(0, 0), (5, least - 1), (6, greatest + 1)] {
        let mut line = right(random, &setting);
        if word > 0 {
            line.words[word - 1] = spelled(random, past);
            line.fault = Some(Fault { key: "fit", word });
        }
        cases.push(made(random, &[line], &[setting.clone()]));
    }
    cases
}

/// Texts that are hardly any.
fn odd_texts(_: &mut Random, turn: usize) -> Vec<Case> {
    vec![Case::new(&["make"], ODD[turn % ODD.len()].to_vec())]
}

/// The most elements of a kind, and one more.
fn full_values(random: &mut Random, turn: usize) -> Vec<Case> {
    let kind = KINDS[turn % KINDS.len()];
    let head = Head { module: 160, register: 255, kind, count: most_elements(kind, MOST_BYTES) as u8 };
    let setting = valued(random, head);
    let mut line = right(random, &setting);
    let most = made(random, &[line.clone()], &[setting]);
    line.words[3] = spelled(random, i128::from(head.count) + 1);
    line.words.push(b"0".to_vec());
    line.fault = Some(Fault { key: "count", word: 4 });
    vec![most, made(random, &[line], &[])]
}

/// A few settings with a line of these keys between them, ahead of them or behind.
fn with_a_bad_line(random: &mut Random, keys: &[&'static str]) -> Vec<Case> {
    let settings = few(random);
    let mut lines = lines(random, &settings);
    let model = settings[random.below(settings.len())].clone();
    lines.insert(random.below(settings.len() + 1), wrong(random, &model, keys));
    vec![made(random, &lines, &[])]
}

/// One bad line, with one key that applies.
fn one_bad(random: &mut Random, turn: usize) -> Vec<Case> {
    with_a_bad_line(random, &[KEYS[turn % 8].0])
}

/// One bad line to which two neighbouring keys apply, perhaps with later ones.
fn ranked(random: &mut Random, turn: usize) -> Vec<Case> {
    let first = turn % 7;
    let keys = from_key(random, first + 1);
    with_a_bad_line(random, &[vec![KEYS[first].0], keys].concat())
}

/// So many bad lines with any keys, short enough for a text of very many.
fn bad_lines(random: &mut Random, count: usize) -> Vec<Line> {
    let models = settings(random, 5, 8);
    let mut lines = Vec::new();
    for _ in 0..count {
        let first = random.below(8);
        let keys = from_key(random, first);
        let model = &models[random.below(models.len())];
        lines.push(wrong(random, model, &keys));
    }
    lines
}

/// These lines with those put in between, at any places.
fn mixed(random: &mut Random, lines: Vec<Line>, others: Vec<Line>) -> Vec<Line> {
    let mut mixed = lines;
    for other in others {
        mixed.insert(random.below(mixed.len() + 1), other);
    }
    mixed
}

/// Several bad lines among right ones.
fn several_bad(random: &mut Random, _: usize) -> Vec<Case> {
    let settings = few(random);
    let (right, count) = (lines(random, &settings), random.between(2, 9));
    let bad = bad_lines(random, count);
    let mixed = mixed(random, right, bad);
    vec![made(random, &mixed, &[])]
}

/// This line as one that is right in itself and has another fault.
fn told(line: Line, key: &'static str) -> Line {
    Line { fault: Some(Fault { key, word: 0 }), ..line }
}

/// A setting that is not above the one before it: the same, a lower register, a lower module; perhaps with bad lines
/// between the two, since the nearest line that is right in itself counts.
fn misordered(random: &mut Random, turn: usize) -> Vec<Case> {
    let mut settings = settings(random, 6, 8);
    for (place, setting) in settings.iter_mut().enumerate() {
        (setting.head.module, setting.head.register) = (10 + place as u8 / 3, 20 * (1 + place as u8));
    }
    let mut lines = lines(random, &settings);
    let place = random.between(1, settings.len());
    let (module, register) = settings[place - 1].head.key();
    let key = match turn % 3 {
        0 => (module, register),
        1 => (module, register - random.between(1, 20) as u8),
        _ => (module - random.between(1, 9) as u8, random.byte()),
    };
    let lower = setting(random, key, 8);
    let lower = told(right(random, &lower), "order");
    let between = random.below(3);
    let bad = bad_lines(random, between);
    lines.splice(place..place, [bad, vec![lower]].concat());
    vec![made(random, &lines, &[])]
}

/// The most settings, and more: with bad lines among them, which say no setting; with one that is out of order, which
/// says one; and with a last one that is both too many and out of order.
fn many(random: &mut Random, turn: usize) -> Vec<Case> {
    let count = [128, 129, random.between(130, 200), 129, 128, 128][turn % 6];
    let settings = settings(random, count, 8);
    let mut lines: Vec<Line> = lines(random, &settings);
    match turn % 6 {
        0 => {
            let bad = bad_lines(random, 20);
            lines = mixed(random, lines, bad);
        }
        3 => lines[128] = lines[127].clone(),
        4 => {
            let place = random.between(1, 127);
            lines.insert(place, told(lines[place - 1].clone(), "order"));
        }
        _ => (),
    }
    if turn % 6 > 0 {
        let past = lines.into_iter().enumerate();
        lines = past.map(|(place, line)| if place < 128 { line } else { told(line, "many") }).collect();
    }
    vec![made(random, &lines, &settings)]
}

/// Around the most bad lines that are told.
fn very_many_bad(random: &mut Random, turn: usize) -> Vec<Case> {
    let count = [100, 101, 99, 150, 400][turn % 5];
    let settings = few(random);
    let (right, bad) = (lines(random, &settings), bad_lines(random, count));
    let mixed = mixed(random, right, bad);
    vec![made(random, &mixed, &[])]
}

/// The settings of the longest sheet.
fn largest(random: &mut Random) -> Vec<Setting> {
    let head = |register| Head { module: 1, register, kind: 1, count: MOST_BYTES as u8 };
    (0..MOST_SETTINGS as u8).map(|register| valued(random, head(register))).collect()
}

/// Texts of exactly the most bytes and of one more, by a remark or by zeros; a bad line in their last bytes; more bytes
/// with nothing right among them; and the text of the longest sheet.
fn long_texts(random: &mut Random, turn: usize) -> Vec<Case> {
    let few = few(random);
    let start = shown(&few);
    let long = || Ended::saying("long\n".to_string());
    let remark = |length: usize, end: &[u8]| {
        let between = vec![b'#'; length - start.len() - end.len()];
        [&start[..], &between, end].concat()
    };
    let (text, ended) = match turn % 6 {
        0 => (remark(LONGEST_TEXT, b""), Ended::done(laid_out(&few))),
        1 => (remark(LONGEST_TEXT + 1, b""), long()),
        2 => {
            let bad = (few.len() + 2, Fault { key: "number", word: 2 });
            (remark(LONGEST_TEXT, b"\n1 x U8 1"), Ended::bad(&[bad]))
        }
        3 => {
            let length = random.between(LONGEST_TEXT + 1, LONGEST_TEXT + 9999);
            (random.bytes(length), long())
        }
        4 => {
            let settings = largest(random);
            let lines = lines(random, &settings);
            return vec![made(random, &lines, &settings)];
        }
        _ => {
            let one = [Setting { head: Head { module: 15, register: 48, kind: 1, count: 1 }, value: vec![7] }];
            let zeros = vec![b'0'; LONGEST_TEXT - "15 48 U8 1 7".len()];
            ([b"15 48 U8 1 ".to_vec(), zeros, b"7".to_vec()].concat(), Ended::done(laid_out(&one)))
        }
    };
    vec![Case::new(&["make"], text).meaning(ended)]
}

/// Right sheets to show.
fn shows(random: &mut Random, turn: usize) -> Vec<Case> {
    vec![Case::new(&["show"], laid_out(&by_turn(random, turn)))]
}

/// A right sheet to show, and the sheet made of that text: the same.
fn there_and_back(random: &mut Random, turn: usize) -> Vec<Case> {
    let settings = by_turn(random, turn + 1);
    let (sheet, text) = (laid_out(&settings), shown(&settings));
    vec![Case::new(&["show"], sheet.clone()), Case::new(&["make"], text).meaning(Ended::done(sheet))]
}

/// A sheet that is refused with this number, perhaps with a later fault too.
fn wrong_by(random: &mut Random, row: No) -> Vec<u8> {
    let settings = few(random);
    let mut sheet = laid_out(&settings);
    let later = random.between(row as usize, 70) as No;
    for fault in if later > row { vec![later, row] } else { vec![row] } {
        let place = random.between(1, settings.len() - 1);
        spoil(random, &mut sheet, fault, place);
    }
    sheet
}

/// A line for `add`; no argument has a byte 0.
fn argument(random: &mut Random, words: &[Vec<u8>]) -> Vec<u8> {
    let line = line(random, words);
    line.into_iter().map(|byte| if byte == 0 { b'?' } else { byte }).collect()
}

/// One of a sheet's commands with arguments that may be refused themselves, by turns.
fn command(random: &mut Random, which: usize, turn: usize, input: Vec<u8>) -> Case {
    let mut case = Case::new(&[ON_SHEETS[which]], input);
    match which {
        1 => case.args.extend([["0", "1000", "0"], ["7", "0", "0"], ["7", "1000", "0"]][turn % 3].map(Vec::from)),
        3 | 4 => {
            for _ in 2..which {
                case.args.push(random.byte().to_string().into_bytes());
            }
        }
        5 => {
            let (model, first) = (few(random)[0].clone(), random.below(8));
            let keys = from_key(random, first);
            let new = if turn % 2 == 0 { wrong(random, &model, &keys) } else { right(random, &model) };
            let line = argument(random, &new.words);
            case.args.push(line);
        }
        _ => (),
    }
    case
}

/// Sheets that are not right, for each command and with each number.
fn damaged(random: &mut Random, turn: usize) -> Vec<Case> {
    let (which, round) = (turn % ON_SHEETS.len(), turn / ON_SHEETS.len());
    let row = 65 + (round % 6) as No;
    let sheet = wrong_by(random, row);
    vec![command(random, which, round, sheet).meaning(Ended::refused(row))]
}

/// Sheets of more bytes than a right one can have, and the longest one.
fn longer_sheets(random: &mut Random, turn: usize) -> Vec<Case> {
    let mut settings = largest(random);
    if turn % 8 == 1 {
        settings.push(valued(random, Head { register: 128, ..settings[0].head }));
    }
    let mut sheet = laid_out(&settings);
    match turn % 8 {
        0 | 1 => (),
        2 => sheet.push(0),
        3 => sheet = [sheet.clone(), sheet].concat(),
        4 => {
            sheet[0] = 2;
            sheet.resize(70_000, 0);
        }
        5 => {
            sheet.copy_within(12..14, 20);
            sheet.push(0);
        }
        6 => {
            sheet[14] = 8;
            sheet.push(0);
        }
        _ => sheet = vec![0; LONGEST_SHEET + 1],
    }
    let which = random.below(ON_SHEETS.len());
    vec![command(random, which, turn, sheet)]
}

/// Requests with a job, a wait and a clock on both sides of their limits.
fn limits(random: &mut Random, turn: usize) -> Vec<Case> {
    let [job, wait, clock] = LIMITS[turn % LIMITS.len()];
    vec![Case::new(&["calls", job, wait, clock], laid_out(&few(random)))]
}

/// Requests of any right sheet.
fn requests(random: &mut Random, turn: usize) -> Vec<Case> {
    let (job, wait, clock) = (random.between(1, 4294967295), random.between(1, 60000), random.word());
    let numbers = [job as i128, wait as i128, i128::from(clock)];
    let mut case = Case::new(&["calls"], laid_out(&by_turn(random, turn)));
    for number in numbers {
        case.args.push(spelled(random, number));
    }
    vec![case]
}

/// Checks of right sheets.
fn checks(random: &mut Random, turn: usize) -> Vec<Case> {
    let settings = by_turn(random, turn);
    let said = format!("settings {}\ndone\n", settings.len());
    vec![Case::new(&["check"], laid_out(&settings)).meaning(Ended::saying(said))]
}

/// A number among the arguments: 0 has no sign there.
fn unsigned(random: &mut Random, number: u8) -> Vec<u8> {
    let spelled = spelled(random, i128::from(number));
    spelled.strip_prefix(b"-").unwrap_or(&spelled).to_vec()
}

/// A module of several settings or of one, or a register thrown out; or none where there is none.
fn removals(random: &mut Random, turn: usize) -> Vec<Case> {
    let mut settings = few(random);
    let far = random.pick(&[0, 161, 255]);
    match turn % 8 {
        0 => settings.iter_mut().enumerate().for_each(|(place, setting)| {
            (setting.head.module, setting.head.register) = (15 + place as u8 / 2, place as u8);
        }),
        6 | 7 => settings.truncate(1),
        _ => (),
    }
    let place = if turn % 8 == 0 { 0 } else { random.below(settings.len()) };
    let (there, register) = settings[place].head.key();
    let (module, register) = match turn % 8 {
        0 | 6 => (there, None),
        1 | 7 => (there, Some(register)),
        2 => (absent_module(random, &settings), None),
        3 => {
            let (module, register) = absent_key(random, &settings);
            (module, Some(register))
        }
        4 => (far, None),
        _ => (far, Some(register)),
    };
    let is_named = |head: Head| head.module == module && register.map_or(true, |register| head.register == register);
    let left: Vec<Setting> = settings.iter().filter(|setting| !is_named(setting.head)).cloned().collect();
    let ended = if left.len() == settings.len() { Ended::refused(77) } else { Ended::done(laid_out(&left)) };
    let mut case = Case::new(&["remove"], laid_out(&settings));
    for number in [Some(module), register].into_iter().flatten() {
        case.args.push(unsigned(random, number));
    }
    vec![case.meaning(ended)]
}

/// An added setting: ahead of all, between, behind, to none, as the 128th; where its key is there, of few settings and
/// of 128; where 128 others are there.
fn additions(random: &mut Random, turn: usize) -> Vec<Case> {
    let count = [3, 5, 3, 1, 128, 4, 128, 129][turn % 8];
    let all = settings(random, count, 8);
    let place = match turn % 8 {
        0 => 0,
        1 => random.between(1, count - 2),
        2 => count - 1,
        _ => random.below(count),
    };
    let (mut held, mut new) = (all.clone(), all[place].clone());
    let mut ended = Ended::done(laid_out(&all));
    match turn % 8 {
        5 | 6 => {
            new = if random.one_in(2) { new } else { setting(random, new.head.key(), 8) };
            ended = Ended::refused(78);
        }
        7 => {
            held.remove(place);
            ended = Ended::refused(79);
        }
        _ => drop(held.remove(place)),
    }
    let words = right(random, &new).words;
    let line = argument(random, &words);
    let mut case = Case::new(&["add"], laid_out(&held));
    case.args.push(line);
    vec![case.meaning(ended)]
}

/// An added line that is bad, some with a key that is there, or with 128 settings there; and lines without a word.
fn bad_additions(random: &mut Random, turn: usize) -> Vec<Case> {
    let held = if turn % 3 == 2 { settings(random, 128, 8) } else { few(random) };
    let key = if turn % 3 == 1 { held[0].head.key() } else { absent_key(random, &held) };
    let (model, keys) = (setting(random, key, 16), from_key(random, turn % 8));
    let bad = wrong(random, &model, &keys);
    let mut case = Case::new(&["add"], laid_out(&held));
    let (line, fault) = match turn % 8 {
        0 if turn % 16 == 0 => (random.pick(&["", " ", "\t\r", "# 15 48 U16 1 4660"]).as_bytes().to_vec(), None),
        _ => (argument(random, &bad.words), bad.fault),
    };
    case.args.push(line);
    vec![case.meaning(Ended::bad(&[(1, fault.unwrap_or(Fault { key: "words", word: 0 }))]))]
}

/// Arguments that are no command's, whatever stands on standard input.
fn no_commands(random: &mut Random, turn: usize) -> Vec<Case> {
    let settings = few(random);
    let input = random.pick(&[&laid_out(&settings)[..], &shown(&settings), b"", b"x"]).to_vec();
    vec![Case::new(NO_COMMANDS[turn % NO_COMMANDS.len()], input).meaning(Ended::saying("usage\n".to_string()))]
}

/// So many cases of this seed.
fn cases(seed: u64, count: usize) -> Vec<Case> {
    let mut random = Random::new(seed);
    let mut cases = Vec::new();
    for round in 0.. {
        for (sort, turns) in SORTS {
            for turn in 0..turns {
                if cases.len() >= count {
                    cases.truncate(count);
                    return cases;
                }
                cases.extend(sort(&mut random, round * turns + turn));
            }
        }
    }
    cases
}

/// How a case ends.
fn ended(case: &Case) -> Ended {
    let args: Vec<&[u8]> = case.args.iter().map(Vec::as_slice).collect();
    run(&args, || Ok(case.input.clone()))
}

/// Writes so many cases of this seed into a folder, from 1 on, each as four files. Answers one line with how often each
/// thing was met, or with the first case that ends otherwise than it was meant; and whether all is well.
pub fn report(seed: u64, count: usize, folder: &Path) -> io::Result<(String, bool)> {
    std::fs::create_dir_all(folder)?;
    let mut ended_cases = Vec::new();
    for (place, case) in cases(seed, count).into_iter().enumerate() {
        let (number, ended) = (place + 1, ended(&case));
        let args: Vec<u8> = case.args.iter().flat_map(|arg| [&arg[..], b"\n"].concat()).collect();
        let parts = [("args", &args[..]), ("in", &case.input), ("out", &ended.out), ("said", ended.said.as_bytes())];
        for (name, bytes) in parts {
            std::fs::write(folder.join(format!("{number}.{name}")), bytes)?;
        }
        if let Some(meant) = case.meant.as_ref().filter(|meant| **meant != ended) {
            return Ok((format!("case {number} ends with {:?} where {:?} is meant\n", ended.said, meant.said), false));
        }
        ended_cases.push((case, ended));
    }
    let (line, are_all_met) = met::line(&ended_cases);
    Ok((line, are_all_met || count < ENOUGH))
}
