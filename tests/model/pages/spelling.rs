//! Texts in every spelling that the page allows, and lines with faults, each with what must be told of it.

use crate::random::Random;
use crate::sheet::Setting;
use crate::texts::{Fault, KEYS, NAMES};
use crate::values::{get, greatest, least, size};

/// Words that are no numbers, and none of which has a blank, a newline or a `#`.
const NO_NUMBERS: [&[u8]; 24] = [
    b"x",
    b"0x",
    b"-",
    b"-0x",
    b"--1",
    b"+1",
    b"1.5",
    b"0xg",
    b"12a",
    b"1e3",
    b"0X10",
    b"1-",
    b"0x-1",
    b"ff",
    b"x10",
    b"0x0x1",
    b"1,2",
    b"1_000",
    b"U8",
    b"\xc3\xa9",
    b"\xff",
    b"1\xa0",
    b"1\0",
    b"\x0b1",
];
/// Words that are no kinds.
const NO_KINDS: [&[u8]; 14] =
    [b"u8", b"U7", b"I64", b"U24", b"U", b"8", b"U08", b"i16", b"U128", b"F32", b"U8,", b"0x1", b"\xc3\x9c8", b"U16\0"];
/// What stands between words, ahead of them or behind them.
const BLANKS: [&[u8]; 9] = [b" ", b" ", b" ", b" ", b"  ", b"\t", b" \t ", b"\r", b"\t\r\t"];
/// Remarks, with bytes of every sort.
const REMARKS: [&[u8]; 8] =
    [b"#", b"# lamp", b"#lamp", b"## 15 48 U16 1 0", b"# \xe9t\xe9", b"# Geh\xc3\xa4use\r", b"#\0", b"#\t#\xff"];
/// Lines that say nothing, but for remarks.
const NOTHING: [&[u8]; 6] = [b"", b"", b" ", b"\t", b"\r", b" \t\r  "];
/// Digits of a number that is past every limit.
const VERY_LONG: usize = 60;

/// A line by its words, and what must be told of it, if anything.
#[derive(Clone)]
pub struct Line {
    pub words: Vec<Vec<u8>>,
    pub fault: Option<Fault>,
}

/// A text, and its bad lines by their numbers.
pub struct Text {
    pub bytes: Vec<u8>,
    pub bad: Vec<(usize, Fault)>,
}

/// A number as an operator may write it: decimal or hex, in capitals and not, with zeros ahead, and 0 with a sign.
pub fn spelled(random: &mut Random, number: i128) -> Vec<u8> {
    let sign = if number < 0 || number == 0 && random.one_in(4) { "-" } else { "" };
    let zeros = "0".repeat(random.pick(&[0, 0, 0, 0, 1, 2, 40]));
    let size = number.unsigned_abs();
    let spelled = match random.below(8) {
        0 => format!("{sign}0x{zeros}{size:x}"),
        1 => format!("{sign}0x{zeros}{size:X}"),
        2 => format!("{sign}{zeros}{size}"),
        3 => {
            let digits = format!("{size:x}");
            let either = digits.chars().map(|digit| if random.one_in(2) { digit.to_ascii_uppercase() } else { digit });
            format!("{sign}0x{}", either.collect::<String>())
        }
        _ => format!("{sign}{size}"),
    };
    spelled.into_bytes()
}

/// The numbers of a setting's value.
fn values(setting: &Setting) -> Vec<i128> {
    let each =
        (0..u64::from(setting.head.count)).filter_map(|index| get(setting.head.kind, &setting.value, index).ok());
    each.collect()
}

/// The line of a setting, its numbers in any spelling.
pub fn right(random: &mut Random, setting: &Setting) -> Line {
    let mut words: Vec<Vec<u8>> = Vec::new();
    for number in [setting.head.module, setting.head.register] {
        words.push(spelled(random, i128::from(number)));
    }
    words.push(NAMES[usize::from(setting.head.kind) - 1].as_bytes().to_vec());
    words.push(spelled(random, i128::from(setting.head.count)));
    for value in values(setting) {
        words.push(spelled(random, value));
    }
    Line { words, fault: None }
}

/// A number out of these, in any spelling, or one that is past every limit.
fn one_of(random: &mut Random, numbers: &[i128]) -> Vec<u8> {
    match random.below(numbers.len() + 2) {
        0 => vec![b'9'; VERY_LONG],
        1 => [b"-".to_vec(), vec![b'7'; VERY_LONG]].concat(),
        _ => {
            let number = random.pick(numbers);
            spelled(random, number)
        }
    }
}

/// The numbers next to those of a kind, and some further off.
fn unfit(kind: u8) -> [i128; 4] {
    let (least, greatest) = (least(kind).unwrap_or(0), greatest(kind).unwrap_or(0));
    [least - 1, greatest + 1, least - greatest - 2, 2 * greatest + 2]
}

/// The line of an allowed setting with the faults of these keys, of which the first is told: they stand in the page's
/// order and end with `fit` at the latest.
pub fn wrong(random: &mut Random, setting: &Setting, keys: &[&'static str]) -> Line {
    let has = |key: &str| keys.contains(&key);
    let (head, mut words) = (setting.head, right(random, setting).words);
    let most = 240 / size(head.kind).unwrap_or(1);
    let (mut told, mut used) = (0, Vec::new());
    if has("fit") {
        let place = random.between(4, words.len() - 1);
        words[place] = one_of(random, &unfit(head.kind));
        (told, used) = (place + 1, vec![place]);
    }
    if has("values") {
        match random.below(3) {
            0 if !has("fit") => drop(words.pop()),
            1 if !has("fit") => words.truncate(4),
            _ => words.push(b"1".to_vec()),
        }
        (told, used) = (0, [used, vec![3]].concat());
    }
    if has("count") {
        let is_one_past = !has("values") && random.one_in(2);
        words[3] = match is_one_past {
            true => spelled(random, most as i128 + 1),
            false => one_of(random, &[0, -1, most as i128 + 1, 241, 255, 256]),
        };
        if is_one_past {
            words.resize(4 + most + 1, b"1".to_vec());
        }
        (told, used) = (4, [used, vec![3]].concat());
    }
    if has("kind") {
        words[2] = random.pick(&NO_KINDS).to_vec();
        told = 3;
    }
    if has("register") {
        words[1] = one_of(random, &[256, 257, -1, 65536, 4294967296]);
        (told, used) = (2, [used, vec![1]].concat());
    }
    if has("module") {
        words[0] = one_of(random, &[0, 161, 255, 256, 257, -1, 4294967297]);
        (told, used) = (1, [used, vec![0]].concat());
    }
    if has("number") {
        let free: Vec<usize> = (0..words.len()).filter(|place| *place != 2 && !used.contains(place)).collect();
        let places: Vec<usize> = match free.is_empty() {
            true => vec![words.len()],
            false => (0..random.between(1, 2)).map(|_| random.pick(&free)).collect(),
        };
        words.resize(words.len().max(places[0] + 1), Vec::new());
        for place in &places {
            words[*place] = random.pick(&NO_NUMBERS).to_vec();
        }
        told = places.iter().min().map_or(0, |place| place + 1);
    }
    if has("words") {
        words.truncate(random.between(1, 3));
        told = 0;
    }
    Line { words, fault: Some(Fault { key: keys[0], word: told }) }
}

/// Keys from `words` to `fit` in their order: this one, perhaps with later ones.
pub fn from_key(random: &mut Random, first: usize) -> Vec<&'static str> {
    let later = (first + 1..8).filter(|_| random.one_in(4)).collect::<Vec<usize>>();
    [vec![first], later].concat().into_iter().map(|place| KEYS[place].0).collect()
}

/// These words as a line, with blanks of any sort, perhaps with a remark.
pub fn line(random: &mut Random, words: &[Vec<u8>]) -> Vec<u8> {
    let mut line = if random.one_in(6) { random.pick(&BLANKS).to_vec() } else { Vec::new() };
    for (place, word) in words.iter().enumerate() {
        if place > 0 {
            line.extend(random.pick(&BLANKS));
        }
        line.extend(word);
    }
    if random.one_in(5) {
        line.extend(random.pick(&BLANKS));
    }
    if random.one_in(5) {
        line.extend(random.pick(&REMARKS));
    }
    line
}

/// A text of these lines with some between them that say nothing, ended by newlines, or by carriage returns and
/// newlines; the last one perhaps by neither.
pub fn text(random: &mut Random, lines: &[Line]) -> Text {
    let (is_crlf, between) = (random.one_in(4), random.pick(&[3, 10, 50]));
    let (mut spelled, mut bad): (Vec<Vec<u8>>, Vec<(usize, Fault)>) = (Vec::new(), Vec::new());
    for Line { words, fault } in lines {
        while random.one_in(between) {
            spelled.push(if random.one_in(2) {
                random.pick(&NOTHING).to_vec()
            } else {
                random.pick(&REMARKS).to_vec()
            });
        }
        spelled.push(line(random, words));
        bad.extend(fault.map(|fault| (spelled.len(), fault)));
    }
    if is_crlf {
        spelled.iter_mut().for_each(|line| line.push(13));
    }
    let mut bytes = spelled.join(&10);
    if random.one_in(2) {
        bytes.push(10);
    }
    Text { bytes, bad }
}
