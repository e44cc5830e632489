//! What cases for the program `sheets` have met, told from their arguments, their input and how they ended alone.

use super::{Case, LONGEST_SHEET};
use crate::sheet::{check, Setting};
use crate::telegram::No;
use crate::texts::{self, faults, judged, kind, number, words, Ended, KEYS, LONGEST_TEXT, MOST_TOLD, NAMES};
use crate::values::{greatest, least, KINDS};
use std::collections::BTreeMap;

/// The commands, and those of them that take a sheet.
const COMMANDS: [&str; 7] = ["make", "show", "calls", "check", "remove module", "remove register", "add"];
/// What must have been met besides commands, keys and numbers: of what was said, of right texts, of bad ones, of texts
/// that are hardly any, of requests, of what was thrown out and added, of arguments that are no command's, of lengths,
/// and of cases that follow each other.
const THINGS: [&str; 83] = [
    "done",
    "settings",
    "bad",
    "more",
    "refused",
    "long",
    "usage",
    "hex",
    "capital hex",
    "zeros ahead",
    "-0",
    "tab",
    "CR",
    "remark",
    "remark at a word",
    "blank line",
    "last newline",
    "no last newline",
    "as shown",
    "0 settings",
    "1 setting",
    "128 settings",
    "129 settings",
    "over 129 settings",
    "1 bad",
    "2 to 99 bad",
    "100 bad",
    "101 bad",
    "over 101 bad",
    "no byte",
    "one byte",
    "no newline",
    "over 127",
    "NUL",
    "only blanks",
    "CRLF",
    "job 0",
    "job 1",
    "job 4294967295",
    "job 4294967296",
    "wait 0",
    "wait 1",
    "wait 60000",
    "wait 60001",
    "wait 4294967295",
    "wait 4294967296",
    "clock 0",
    "clock 4294967295",
    "clock 4294967296",
    "calls by hex",
    "10 ahead of 14",
    "sheet ahead of 10",
    "sheet ahead of 14",
    "one of a module removed",
    "several of a module removed",
    "one register removed",
    "all removed",
    "77 of a module",
    "77 of a register",
    "removed by hex",
    "added in front",
    "added between",
    "added behind",
    "added to none",
    "added as the 128th",
    "78 of 128",
    "line without a word",
    "sheet ahead of a bad line",
    "bad line ahead of 78",
    "bad line ahead of 79",
    "no argument",
    "unknown command",
    "too many arguments",
    "too few arguments",
    "no number",
    "over 255",
    "over 4294967295",
    "minus",
    "262144 bytes",
    "262145 bytes",
    "sheet of 31756 bytes",
    "show, then make",
    "make, then show",
];
/// The refusals of the papers that are no sheet's.
const OWN: [No; 5] = [77, 78, 79, 10, 14];

/// How often each thing was met.
type Times = BTreeMap<String, usize>;

/// All that must have been met, in the order in which it is told.
fn wanted() -> Vec<String> {
    let mut wanted: Vec<String> = COMMANDS.map(String::from).to_vec();
    wanted.extend(KEYS.map(|(key, _)| key.to_string()));
    wanted.extend(KEYS[..8].iter().map(|(key, _)| format!("add {key}")));
    wanted.extend(KEYS[..8].windows(2).map(|pair| format!("{} ahead of {}", pair[0].0, pair[1].0)));
    wanted.push("many ahead of order".to_string());
    wanted.extend([0, 43, 68, 69, 79].map(|no| format!("bad {no}")));
    wanted.extend((65..=70).chain(OWN).map(|no| format!("refused {no}")));
    wanted.extend(COMMANDS[1..].iter().flat_map(|command| (65..=70).map(move |no| format!("{command} {no}"))));
    wanted.extend((66..=70).map(|no| format!("over 31756 bytes {no}")));
    wanted.extend(NAMES.iter().flat_map(|name| ["", " most", " most and 1"].map(|more| format!("{name}{more}"))));
    wanted
        .extend(NAMES.iter().flat_map(|name| ["least", "greatest", "below", "above"].map(|at| format!("{at} {name}"))));
    wanted.extend(THINGS.map(String::from));
    wanted
}

/// One line with how often each thing was met, and whether none of them was missed.
pub fn line(cases: &[(Case, Ended)]) -> (String, bool) {
    let mut times = Times::new();
    for (case, ended) in cases {
        for thing in of_case(case, ended) {
            *times.entry(thing).or_default() += 1;
        }
    }
    for pair in cases.windows(2) {
        let [(first, ended), (second, _)] = pair else { continue };
        let is_on = ended.said == "done\n" && second.input == ended.out;
        for (one, other) in [("show", "make"), ("make", "show")] {
            if is_on && first.args == [one.as_bytes()] && second.args == [other.as_bytes()] {
                *times.entry(format!("{one}, then {other}")).or_default() += 1;
            }
        }
    }
    let wanted = wanted();
    let met = |thing: &String| times.get(thing).copied().unwrap_or(0);
    let each: String = wanted.iter().map(|thing| format!("  {thing}:{}", met(thing))).collect();
    (format!("{} cases{each}\n", cases.len()), wanted.iter().all(|thing| met(thing) > 0))
}

/// Those of these things that hold.
fn holding(things: &[(&str, bool)]) -> Vec<String> {
    things.iter().filter(|(_, holds)| *holds).map(|(thing, _)| thing.to_string()).collect()
}

/// What a case has met, each thing once.
fn of_case(case: &Case, ended: &Ended) -> Vec<String> {
    let args: Vec<&[u8]> = case.args.iter().map(Vec::as_slice).collect();
    let mut things: Vec<String> = Vec::new();
    for line in ended.said.lines() {
        let words: Vec<&str> = line.split(' ').collect();
        things.push(words[0].to_string());
        match words[..] {
            ["bad", _, _, key, no] => things.extend([key.to_string(), format!("bad {no}")]),
            ["refused", no] => things.push(format!("refused {no}")),
            _ => (),
        }
    }
    let command = match args[..] {
        [b"remove", _] => "remove module",
        [b"remove", _, _] => "remove register",
        [name, ..] => COMMANDS.into_iter().find(|command| command.as_bytes() == name).unwrap_or(""),
        [] => "",
    };
    if ended.said == "usage\n" {
        things.extend(of_usage(&args, command));
        things.extend(of_limits(&args));
    } else {
        things.push(command.to_string());
        things.extend(match command {
            "make" => of_text(&case.input, ended),
            _ => of_sheet(&args, command, &case.input, ended),
        });
    }
    things.sort();
    things.dedup();
    things
}

/// In which way arguments are no command's.
fn of_usage(args: &[&[u8]], command: &str) -> Vec<String> {
    let (few, most) = match args.first() {
        Some(&b"calls") => (3, 3),
        Some(&b"remove") => (1, 2),
        Some(&b"add") => (1, 1),
        _ => (0, 0),
    };
    let given = args.len().saturating_sub(1);
    let is_known = !command.is_empty() || matches!(args.first(), Some(&b"remove"));
    let has_numbers = is_known && matches!(args[0], b"calls" | b"remove") && (few..=most).contains(&given);
    let any = |is: &dyn Fn(&[u8]) -> bool| has_numbers && args[1..].iter().any(|arg| is(arg));
    let is_over = |arg: &[u8], most: i128| number(arg).map_or(false, |number| number > most);
    holding(&[
        ("no argument", args.is_empty()),
        ("unknown command", !args.is_empty() && !is_known),
        ("too many arguments", is_known && given > most),
        ("too few arguments", is_known && given < few),
        ("no number", any(&|arg| number(arg).is_none())),
        ("minus", any(&|arg| arg.starts_with(b"-") && number(arg).is_some())),
        ("over 255", args.first() == Some(&&b"remove"[..]) && any(&|arg| is_over(arg, 255))),
        ("over 4294967295", args.first() == Some(&&b"calls"[..]) && any(&|arg| is_over(arg, 4294967295))),
    ])
}

/// At which limits the job, the wait and the clock of a request stand.
fn of_limits(args: &[&[u8]]) -> Vec<String> {
    match args {
        [b"calls", numbers @ ..] if numbers.len() == 3 => {
            let named = ["job", "wait", "clock"].iter().zip(numbers);
            named.filter_map(|(name, word)| Some(format!("{name} {}", number(word)?))).collect()
        }
        _ => Vec::new(),
    }
}

/// What a text has met.
fn of_text(text: &[u8], ended: &Ended) -> Vec<String> {
    let has = |byte: u8| text.contains(&byte);
    let mut things = holding(&[
        ("262144 bytes", text.len() == LONGEST_TEXT),
        ("262145 bytes", text.len() == LONGEST_TEXT + 1),
        ("no byte", text.is_empty()),
        ("one byte", text.len() == 1),
        ("no newline", !text.is_empty() && !has(10)),
        ("over 127", text.iter().any(|byte| *byte > 127)),
        ("NUL", has(0)),
        ("only blanks", !text.is_empty() && text.iter().all(|byte| [32, 9, 13].contains(byte))),
        ("CRLF", text.windows(2).any(|two| two == [13, 10])),
    ]);
    if ended.said == "long\n" {
        return things;
    }
    let lines = judged(text);
    let settings = lines.iter().filter(|line| line.setting.is_some()).count();
    let bad = lines.iter().filter(|line| !line.faults.is_empty()).count();
    things.extend(holding(&[
        ("0 settings", bad == 0 && settings == 0),
        ("1 setting", bad == 0 && settings == 1),
        ("128 settings", bad == 0 && settings == 128),
        ("129 settings", settings == 129),
        ("over 129 settings", settings > 129),
        ("1 bad", bad == 1),
        ("2 to 99 bad", bad > 1 && bad < MOST_TOLD),
        ("100 bad", bad == MOST_TOLD),
        ("101 bad", bad == MOST_TOLD + 1),
        ("over 101 bad", bad > MOST_TOLD + 1),
    ]));
    for line in &lines {
        things.extend(line.faults.windows(2).map(|pair| format!("{} ahead of {}", pair[0].key, pair[1].key)));
    }
    let is_right = bad == 0;
    if is_right {
        things.extend(of_spelling(text, ended));
    }
    for words in text.split(|byte| *byte == 10).map(words) {
        things.extend(of_values(&words, is_right));
    }
    things
}

/// How a right text is spelled.
fn of_spelling(text: &[u8], ended: &Ended) -> Vec<String> {
    let lines: Vec<&[u8]> = text.split(|byte| *byte == 10).collect();
    let all: Vec<&[u8]> = lines.iter().flat_map(|line| words(line)).collect();
    let hex = |word: &[u8]| word.strip_prefix(b"-").unwrap_or(word).starts_with(b"0x");
    let zeros = |word: &[u8]| word.len() > 1 && word[0] == b'0' && !hex(word);
    let is_shown = check(&ended.out).map_or(false, |settings| texts::shown(&settings) == text);
    holding(&[
        ("hex", all.iter().any(|word| hex(word))),
        ("capital hex", all.iter().any(|word| hex(word) && word.iter().any(u8::is_ascii_uppercase))),
        ("zeros ahead", all.iter().any(|word| zeros(word))),
        ("-0", all.contains(&&b"-0"[..])),
        ("tab", text.contains(&9)),
        ("CR", text.contains(&13)),
        ("remark", text.contains(&b'#')),
        ("remark at a word", text.windows(2).any(|two| two[0].is_ascii_alphanumeric() && two[1] == b'#')),
        ("blank line", lines[..lines.len() - 1].iter().any(|line| words(line).is_empty() && !line.contains(&b'#'))),
        ("last newline", !all.is_empty() && text.last() == Some(&10)),
        ("no last newline", !all.is_empty() && text.last() != Some(&10)),
        ("as shown", !all.is_empty() && is_shown),
    ])
}

/// Of which kind a line's values are, how many, and which of its ends they are or pass.
fn of_values(words: &[&[u8]], is_right: bool) -> Vec<String> {
    let [_, _, name, count, values @ ..] = words else { return Vec::new() };
    let Some(kind) = kind(name) else { return Vec::new() };
    let place = KINDS.iter().position(|other| *other == kind).unwrap_or(0);
    let (name, faults) = (NAMES[place], faults(words));
    let (least, greatest) = (least(kind).unwrap_or(0), greatest(kind).unwrap_or(0));
    let (most, count) = ([240, 240, 120, 120, 60, 60, 30][place], number(count));
    let is_told = |key: &str| faults.first().map_or(false, |fault| fault.key == key);
    let has = |value: i128| values.iter().any(|word| number(word) == Some(value));
    holding(&[
        ("", is_right),
        (" most", is_right && count == Some(most)),
        (" most and 1", is_told("count") && count == Some(most + 1) && values.len() as i128 == most + 1),
    ])
    .into_iter()
    .map(|more| format!("{name}{more}"))
    .chain(
        holding(&[
            ("least", is_right && has(least)),
            ("greatest", is_right && has(greatest)),
            ("below", is_told("fit") && has(least - 1)),
            ("above", is_told("fit") && has(greatest + 1)),
        ])
        .into_iter()
        .map(|at| format!("{at} {name}")),
    )
    .collect()
}

/// What a command on a sheet has met.
fn of_sheet(args: &[&[u8]], command: &str, sheet: &[u8], ended: &Ended) -> Vec<String> {
    let refused: Option<No> = ended.said.strip_prefix("refused ").and_then(|no| no.trim_end().parse().ok());
    let (held, limits) = (check(sheet), of_limits(args));
    let at = |limit: &str| limits.iter().any(|other| other == limit);
    let is_wait = at("wait 0") || at("wait 60001") || at("wait 4294967295");
    let faults = if command == "add" { faults(&words(args[1])) } else { Vec::new() };
    let mut things = holding(&[
        ("10 ahead of 14", refused == Some(10) && is_wait),
        ("sheet ahead of 10", held.is_err() && at("job 0")),
        ("sheet ahead of 14", held.is_err() && is_wait),
        ("sheet ahead of a bad line", held.is_err() && !faults.is_empty()),
        ("calls by hex", command == "calls" && args[1..].iter().any(|arg| arg.starts_with(b"0x"))),
        ("removed by hex", command.starts_with("remove") && args[1..].iter().any(|arg| arg.starts_with(b"0x"))),
        ("sheet of 31756 bytes", sheet.len() == LONGEST_SHEET && held.is_ok()),
        ("line without a word", command == "add" && words(args[1]).is_empty()),
    ]);
    things.extend(limits);
    things.extend(faults.windows(2).map(|pair| format!("{} ahead of {}", pair[0].key, pair[1].key)));
    match held {
        Err(no) => {
            things.push(format!("{command} {no}"));
            things.extend((sheet.len() > LONGEST_SHEET).then(|| format!("over 31756 bytes {no}")));
        }
        Ok(held) if command == "add" => {
            things.extend(faults.first().map(|fault| format!("add {}", fault.key)));
            things.extend(of_addition(args[1], &held, ended, refused));
        }
        Ok(held) if command.starts_with("remove") => {
            let left = check(&ended.out).map_or(0, |left| left.len());
            let (is_module, is_done) = (command == "remove module", refused.is_none());
            things.extend(holding(&[
                ("one of a module removed", is_done && is_module && left + 1 == held.len()),
                ("several of a module removed", is_done && is_module && left + 1 < held.len()),
                ("one register removed", is_done && !is_module),
                ("all removed", is_done && left == 0),
                ("77 of a module", !is_done && is_module),
                ("77 of a register", !is_done && !is_module),
            ]));
        }
        Ok(_) => (),
    }
    things
}

/// Where a line was added to these settings, or what stood behind its own fault.
fn of_addition(line: &[u8], held: &[Setting], ended: &Ended, refused: Option<No>) -> Vec<String> {
    let is_done = ended.said == "done\n";
    let is_bad = !is_done && refused.is_none();
    let words = words(line);
    let numbers = [0, 1].map(|place| words.get(place).and_then(|word| number(word)));
    let key = |setting: &Setting| [setting.head.module, setting.head.register].map(|number| Some(i128::from(number)));
    let below = held.iter().filter(|setting| key(setting) < numbers).count();
    holding(&[
        ("added in front", is_done && !held.is_empty() && below == 0),
        ("added between", is_done && below > 0 && below < held.len()),
        ("added behind", is_done && !held.is_empty() && below == held.len()),
        ("added to none", is_done && held.is_empty()),
        ("added as the 128th", is_done && held.len() == 127),
        ("78 of 128", refused == Some(78) && held.len() == 128),
        ("bad line ahead of 78", is_bad && held.iter().any(|setting| key(setting) == numbers)),
        ("bad line ahead of 79", is_bad && held.len() == 128),
    ])
}
