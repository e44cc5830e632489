//! Sheets in the operators' hands: the text of a sheet, judged line by line and written, and the program `sheets` that
//! makes, shows and changes sheets by it.

use crate::calls::hex;
use crate::edits;
use crate::sheet::{check, laid_out, refuse, Head, Setting, MOST_SETTINGS, RECORD};
use crate::telegram::No;
use crate::values::{self, KINDS};
use std::io;

/// The kinds by name, U8 to U64.
pub const NAMES: [&str; 7] = ["U8", "I8", "U16", "I16", "U32", "I32", "U64"];
/// What can be wrong with a line, in the order in which it is told, with the papers' number, 0 where they have none.
pub const KEYS: [(&str, No); 10] = [
    ("words", 0),
    ("number", 0),
    ("module", 69),
    ("register", 0),
    ("kind", 69),
    ("count", 69),
    ("values", 69),
    ("fit", 43),
    ("many", 79),
    ("order", 68),
];
/// The most bytes of a text, and of a value; the most bad lines that are told.
pub const LONGEST_TEXT: usize = 262_144;
const MOST_BYTES: i128 = 240;
pub const MOST_TOLD: usize = 100;
/// The words of a line ahead of its values: module, register, kind and count.
const AHEAD: usize = 4;
/// A number so far past every limit that no digit behind it makes a difference.
const PAST_ALL: i128 = 1 << 100;
/// The largest 32-bit number, and the longest waiting time.
const LARGEST: i128 = 4_294_967_295;
const LONGEST_WAIT: i128 = 60_000;

/// Something that is wrong with a line: its key and the word that is told with it, 0 where it is no single one.
#[derive(Clone, Copy, PartialEq, Eq)]
pub struct Fault {
    pub key: &'static str,
    pub word: usize,
}

impl Fault {
    /// The papers' number of this fault.
    pub fn no(self) -> No {
        KEYS.iter().find(|(key, _)| *key == self.key).map_or(0, |(_, no)| *no)
    }
}

/// A line with words: its number from 1, its setting where it is right in itself, and all that is wrong with it, in the
/// page's order.
pub struct Judged {
    pub line: usize,
    pub setting: Option<Setting>,
    pub faults: Vec<Fault>,
}

/// How a command ended: what it wrote, and what it said on descriptor 3.
#[derive(Clone, PartialEq, Eq)]
pub struct Ended {
    pub out: Vec<u8>,
    pub said: String,
}

impl Ended {
    /// All of this was written.
    pub fn done(out: Vec<u8>) -> Ended {
        Ended { out, said: "done\n".to_string() }
    }

    /// Nothing was written, and these lines were said.
    pub fn saying(said: String) -> Ended {
        Ended { out: Vec::new(), said }
    }

    /// A refusal of the papers.
    pub fn refused(no: No) -> Ended {
        Ended::saying(format!("refused {no}\n"))
    }

    /// The bad lines, each by its first fault; past the most that are told, how many more there are.
    pub fn bad(lines: &[(usize, Fault)]) -> Ended {
        let told = lines.iter().take(MOST_TOLD);
        let mut said: String =
            told.map(|(line, fault)| format!("bad {line} {} {} {}\n", fault.word, fault.key, fault.no())).collect();
        if lines.len() > MOST_TOLD {
            said += &format!("more {}\n", lines.len() - MOST_TOLD);
        }
        Ended::saying(said)
    }
}

/// The words of a line, ahead of its remark.
pub fn words(line: &[u8]) -> Vec<&[u8]> {
    let said = line.split(|byte| *byte == b'#').next().unwrap_or(&[]);
    said.split(|byte| [32, 9, 13].contains(byte)).filter(|word| !word.is_empty()).collect()
}

/// The number that a word is, no further from 0 than past every limit; none where it is no number.
pub fn number(word: &[u8]) -> Option<i128> {
    let (is_negative, rest) = word.strip_prefix(b"-").map_or((false, word), |rest| (true, rest));
    let (base, digits) = rest.strip_prefix(b"0x").map_or((10, rest), |digits| (16, digits));
    if digits.is_empty() {
        return None;
    }
    let mut number = 0;
    for byte in digits {
        let digit = char::from(*byte).to_digit(base)?;
        number = PAST_ALL.min(number * i128::from(base) + i128::from(digit));
    }
    Some(if is_negative { -number } else { number })
}

/// The kind of this name.
pub fn kind(word: &[u8]) -> Option<u8> {
    NAMES.iter().position(|name| name.as_bytes() == word).map(|place| KINDS[place])
}

/// The most elements of a kind.
fn most(kind: u8) -> i128 {
    values::size(kind).map_or(0, |size| MOST_BYTES / size as i128)
}

/// All that is wrong with a line of these words in itself, in the page's order. What a missing or wrong word leaves
/// open is not judged: an earlier key is told there.
pub fn faults(words: &[&[u8]]) -> Vec<Fault> {
    let numbers: Vec<Option<i128>> = words.iter().map(|word| number(word)).collect();
    let number = |place: usize| numbers.get(place).copied().flatten();
    let outside = |place: usize, from: i128, to: i128| number(place).map_or(false, |it| it < from || it > to);
    let values = numbers.get(AHEAD..).unwrap_or(&[]);
    let (name, count) = (words.get(2).copied(), number(3));
    let known = name.and_then(kind);
    let fits = |value: i128| known.map_or(true, |kind| values::stored(kind, value).is_ok());
    let no_number = (0..words.len()).find(|place| *place != 2 && number(*place).is_none());
    let unfit = values.iter().position(|value| value.map_or(false, |value| !fits(value)));
    let conditions = [
        ("words", (words.len() < AHEAD).then_some(0)),
        ("number", no_number.map(|place| place + 1)),
        ("module", outside(0, 1, 160).then_some(1)),
        ("register", outside(1, 0, 255).then_some(2)),
        ("kind", (name.is_some() && known.is_none()).then_some(3)),
        ("count", outside(3, 1, known.map_or(MOST_BYTES, most)).then_some(4)),
        ("values", count.map_or(false, |count| count != values.len() as i128).then_some(0)),
        ("fit", unfit.map(|place| AHEAD + place + 1)),
    ];
    conditions.into_iter().filter_map(|(key, word)| Some(Fault { key, word: word? })).collect()
}

/// The setting that these words say, or all that is wrong with them.
fn said(words: &[&[u8]]) -> Result<Setting, Vec<Fault>> {
    let faults = faults(words);
    if !faults.is_empty() {
        return Err(faults);
    }
    let numbers: Vec<i128> = words.iter().map(|word| number(word).unwrap_or(0)).collect();
    let kind = kind(words[2]).unwrap_or(0);
    let value = numbers[AHEAD..].iter().flat_map(|value| values::stored(kind, *value).unwrap_or_default()).collect();
    let head = Head { module: numbers[0] as u8, register: numbers[1] as u8, kind, count: numbers[3] as u8 };
    Ok(Setting { head, value })
}

/// Judges each line of a text that has words. A line that is right in itself stands below those before it that are.
pub fn judged(text: &[u8]) -> Vec<Judged> {
    let mut before: Vec<(u8, u8)> = Vec::new();
    let mut lines = Vec::new();
    for (place, line) in text.split(|byte| *byte == 10).enumerate() {
        let words = words(line);
        if words.is_empty() {
            continue;
        }
        let line = place + 1;
        lines.push(match said(&words) {
            Err(faults) => Judged { line, setting: None, faults },
            Ok(setting) => {
                let key = setting.head.key();
                let are_many = before.len() >= MOST_SETTINGS;
                let is_above = before.last().map_or(true, |last| key > *last);
                before.push(key);
                let faults = [("many", are_many), ("order", !is_above)].into_iter().filter(|(_, applies)| *applies);
                let faults = faults.map(|(key, _)| Fault { key, word: 0 }).collect();
                Judged { line, setting: Some(setting), faults }
            }
        });
    }
    lines
}

/// A setting as `show` writes it.
fn shown_line(Setting { head, value }: &Setting) -> String {
    let name = NAMES[usize::from(head.kind) - 1];
    let each = (0..u64::from(head.count)).filter_map(|index| values::get(head.kind, value, index).ok());
    let values: String = each.map(|value| format!(" {value}")).collect();
    format!("{} {} {name} {}{values}\n", head.module, head.register, head.count)
}

/// The text of these settings, as `show` writes it.
pub fn shown(settings: &[Setting]) -> Vec<u8> {
    settings.iter().map(shown_line).collect::<String>().into_bytes()
}

/// The requests of these settings by a job, with this wait and at this clock, each a call of `rehearsal`: 10, 14.
fn requests(settings: &[Setting], [job, wait, clock]: [i128; 3]) -> Result<Vec<u8>, No> {
    refuse(10, job == 0)?;
    refuse(14, wait < 1 || wait > LONGEST_WAIT)?;
    let request = |Setting { head, value }: &Setting| {
        let buf = "00".repeat(14 + 2 * value.len());
        format!("desk.open {job} {} 5 {} {} {wait} 0 {clock} {buf}\n", head.module, head.register, hex(value))
    };
    Ok(settings.iter().map(request).collect::<String>().into_bytes())
}

/// A command by its arguments.
enum Command<'a> {
    Make,
    Show,
    Calls([i128; 3]),
    Check,
    RemoveModule(u8),
    Remove(u8, u8),
    Add(&'a [u8]),
}

/// A number among the arguments, without a sign.
fn argument(word: &[u8], most: i128) -> Option<i128> {
    number(word).filter(|number| !word.starts_with(b"-") && *number <= most)
}

/// A module or register among the arguments.
fn byte(word: &[u8]) -> Option<u8> {
    argument(word, 255).map(|number| number as u8)
}

impl Command<'_> {
    /// The command of these arguments; none where they are no command's.
    fn of<'a>(args: &[&'a [u8]]) -> Option<Command<'a>> {
        Some(match args {
            [b"make"] => Command::Make,
            [b"show"] => Command::Show,
            [b"calls", job, wait, clock] => {
                Command::Calls([argument(job, LARGEST)?, argument(wait, LARGEST)?, argument(clock, LARGEST)?])
            }
            [b"check"] => Command::Check,
            [b"remove", module] => Command::RemoveModule(byte(module)?),
            [b"remove", module, register] => Command::Remove(byte(module)?, byte(register)?),
            [b"add", line] => Command::Add(line),
            _ => return None,
        })
    }

    /// Carries the command out on this text or sheet. Of a sheet 65 to 70 are told ahead of the command's own numbers.
    fn on(&self, input: &[u8]) -> Result<Ended, No> {
        let length = input.len() as u64;
        Ok(match self {
            Command::Make => make(input),
            Command::Show => Ended::done(shown(&check(input)?)),
            Command::Calls(by) => Ended::done(requests(&check(input)?, *by)?),
            Command::Check => Ended::saying(format!("settings {}\ndone\n", check(input)?.len())),
            Command::RemoveModule(module) => Ended::done(edits::remove_module(input, length, *module)?),
            Command::Remove(module, register) => {
                let settings = check(input)?;
                let there = settings.iter().position(|setting| setting.head.key() == (*module, *register));
                Ended::done(edits::remove(input, length, there.unwrap_or(settings.len()) as u64)?)
            }
            Command::Add(line) => match check(input).and(Ok(said(&words(line))))? {
                Err(faults) => Ended::bad(&[(1, faults[0])]),
                Ok(new) => {
                    let room = vec![0; RECORD + new.value.len()];
                    Ended::done(edits::add(&[input, &room].concat(), length, new)?)
                }
            },
        })
    }
}

/// The sheet of a text without a bad line.
fn make(text: &[u8]) -> Ended {
    if text.len() > LONGEST_TEXT {
        return Ended::saying("long\n".to_string());
    }
    let lines = judged(text);
    let bad: Vec<(usize, Fault)> =
        lines.iter().filter_map(|judged| Some((judged.line, *judged.faults.first()?))).collect();
    match bad.is_empty() {
        true => Ended::done(laid_out(&lines.into_iter().filter_map(|judged| judged.setting).collect::<Vec<Setting>>())),
        false => Ended::bad(&bad),
    }
}

/// What the program `sheets` does by these arguments. Standard input is read only where they are a command's.
pub fn run(args: &[&[u8]], input: impl FnOnce() -> io::Result<Vec<u8>>) -> Ended {
    let said = |word: &str| Ended::saying(format!("{word}\n"));
    match Command::of(args).map(|command| (command, input())) {
        None => said("usage"),
        Some((_, Err(_))) => said("unread"),
        Some((command, Ok(bytes))) => command.on(&bytes).unwrap_or_else(Ended::refused),
    }
}
