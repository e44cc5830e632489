//! Sections of any numbers at all, and of lines that are no calls.

use super::receiver_walk::MOST_FED;
use super::{buffer, Script};
use crate::calls::{hex, LONGEST_LINE, MOST_ENTRIES, MOST_NAMED};
use crate::random::Random;
use crate::sheet::MOST_SETTINGS;
use crate::telegram::LONGEST_TELEGRAM;

/// One right line of each call.
const SAMPLES: [&str; 17] = [
    "rem 0fa20466",
    "read 0da20f0330482f0a a1a2",
    "write 15 162 5 48 03 a1a2a3a4a5a6a7a8a9aa",
    "val.get 4 0080ff7f 1",
    "val.put 4 -2 a1a2a3",
    "cat 104 50",
    "bench.new 15",
    "bench.add 49 4 3",
    "bench.set 49 -5",
    "bench.tele 0d0fa2053003bce10a a1a2a3a4a5a6a7a8a9aa",
    "bench.dump",
    "desk.new",
    "desk.open 7 15 4 102 - 100 3 9 a1a2a3a4a5a6a7a8a9aaabac",
    "desk.reply 0da20f0330482f0a a1a2",
    "desk.cancel 7 161 11",
    "desk.expire 109",
    "desk.dump",
];

/// The same of the calls on the receiver.
const RECEIVER_SAMPLES: [&str; 4] = ["rx.new 9", "rx.feed 0da20f0330482f0a0d", "rx.feed 0a0d05", "rx.end"];

/// The same of the calls on the filter box.
const VARIA_SAMPLES: [&str; 9] = [
    "varia.new 9 16",
    "varia.short 6000 500 200 a1a2a3a4a5a6a7a8a9aaabacad",
    "varia.long 5000 500 200 a1a2a3a4a5a6a7a8a9aaabacad",
    "varia.att 1000 500 200 a1a2a3a4a5a6a7a8a9aaabacad",
    "varia.monitor 500 200 a1a2a3a4a5a6a7a8a9aaabacad",
    "varia.status 500 200 a1a2a3a4a5a6a7a8a9aaabacad",
    "varia.display 3412 7856",
    "varia.moving 4096",
    "varia.dump",
];

/// The same of the calls on settings sheets.
const SHEET_SAMPLES: [&str; 4] = [
    "sheet.write 15:48:3:1:3412;15:50:1:2:0102 a1a2a3a4a5a6a7a8a9aaabacadaeafb0b1b2b3b4b5b6b7b8b9babbbcbdbebfc0c1",
    "sheet.write - a1a2a3a4a5a6a7a8a9aaabacad",
    "sheet.check 010002000c0000001c0000000f300301000000000f3201020200000034120102",
    "sheet.read 010002000c0000001c0000000f300301000000000f3201020200000034120102 1 a1a2a3",
];

/// The same of the calls that throw settings out of a sheet and add to it. The sheet of the first has no record, so that
/// number, module and register name none, whatever is amiss with them.
const EDIT_SAMPLES: [&str; 3] = [
    "sheet.rem 010000000c0000000c000000a1a2a3 12 0 15 48",
    "sheet.remmod 010002000c0000001c0000000f300301000000000f3201020200000034120102a1a2a3 32 15",
    "sheet.add 010001000c000000140000000f300301000000003412a1a2a3a4a5a6a7a8a9aaab 22 15:50:1:2:0102",
];

/// The same of the call that expires everything due.
const EXPALL_SAMPLES: [&str; 2] = ["desk.expall 109 3", "desk.expall 4294967295 0"];

/// The same of the calls on the lanes, but for a grant with enough room.
const LANE_SAMPLES: [&str; 5] = [
    "lane.join 7 15 4 102 - 1000 3",
    "lane.join 8 15 5 48 3412 1000 3",
    "lane.grant 300 a1a2a3",
    "lane.withdraw 8 1",
    "lane.dump",
];

/// The same of the calls on the scan.
const SCAN_SAMPLES: [&str; 3] = ["scan.new 5", "scan.step 400 a1a2a3a4a5a6a7a8a9aaabac", "scan.dump"];

/// The same of the calls on the tally.
const TALLY_SAMPLES: [&str; 3] = ["tally.set 3 4294967295 9", "tally.get", "rx.feed 0d0a0d"];

/// Words that are wrong in some places or in all of them.
const ODD_WORDS: [&str; 32] = [
    "",
    "-",
    "--1",
    "+1",
    "-1",
    "0x10",
    "1.0",
    "1e3",
    "1_000",
    "a",
    "0A",
    "FF",
    "abc",
    "0g",
    "ok",
    "\u{663}",
    "007",
    "-0",
    "-00",
    "255",
    "256",
    "65536",
    "4294967295",
    "4294967296",
    "9223372036854775808",
    "18446744073709551615",
    "18446744073709551616",
    "-9223372036854775808",
    "-9223372036854775809",
    "340282366920938463463374607431768211456",
    "000000000000000000000000000000000000000000000000000000000001",
    "99999999999999999999999999999999999999999999999999999999999",
];

/// Lines that are no calls, and numbers one past their type.
const NO_CALLS: [&str; 20] = [
    "",
    " ",
    "-",
    "ok",
    "desk",
    "bench.",
    "desk.",
    "bench.new",
    "REM 00",
    "rem 0\u{0}",
    "cat 256 16",
    "cat 103 256",
    "val.get 1 00 18446744073709551616",
    "val.put 7 18446744073709551616 a1a2a3a4a5a6a7a8",
    "val.put 7 -9223372036854775809 a1a2a3a4a5a6a7a8",
    "desk.expire 4294967296",
    "desk.cancel 4294967296 161 0",
    "desk.cancel 1 161 4294967296",
    "desk.cancel 1 161",
    "desk.open 1 15 4 102 - 100 4294967296 0 a1a2a3a4a5a6a7a8a9aaab",
];

/// Lines that are no calls on the receiver, and a place one past its type.
const NO_RECEIVER_CALLS: [&str; 12] = [
    "rx",
    "rx.",
    "rx.new",
    "rx.feed",
    "rx.feed ",
    "rx.feed 0",
    "rx.feed 0D0A",
    "rx.feed 0d 0a",
    "rx.end -",
    "rx.end ",
    "RX.end",
    "rx.new 18446744073709551616",
];

/// Lines that are no calls on the filter box, and numbers one past their type.
const NO_VARIA_CALLS: [&str; 24] = [
    "varia",
    "varia.",
    "varia.new",
    "varia.new 9",
    "varia.new 9 256",
    "varia.new 4294967296 16",
    "varia.open 9 16",
    "varia.short 65536 500 200 a1a2a3a4a5a6a7a8a9aaabacad",
    "varia.long 65536 500 200 a1a2a3a4a5a6a7a8a9aaabacad",
    "varia.long -1 500 200 a1a2a3a4a5a6a7a8a9aaabacad",
    "varia.att 65536 500 200 a1a2a3a4a5a6a7a8a9aaabacad",
    "varia.att 1000 4294967296 200 a1a2a3a4a5a6a7a8a9aaabacad",
    "varia.att 1000 500 4294967296 a1a2a3a4a5a6a7a8a9aaabacad",
    "varia.monitor 1000 500 200 a1a2a3a4a5a6a7a8a9aaabacad",
    "varia.monitor 500 200",
    "varia.status 4294967296 200 a1a2a3a4a5a6a7a8a9aaabacad",
    "varia.status 500 200 ",
    "varia.display 3412",
    "varia.display 341 -",
    "varia.display - - -",
    "varia.moving 65536",
    "varia.moving -1",
    "varia.moving",
    "varia.dump 0",
];

/// Lines that are no calls on settings sheets, and numbers one past their type.
const NO_SHEET_CALLS: [&str; 35] = [
    "sheet",
    "sheet.",
    "sheet.write",
    "sheet.write -",
    "sheet.write  a1a2a3",
    "sheet.write - a1a2a3 -",
    "sheet.write -- a1a2a3",
    "sheet.write ; a1a2a3",
    "sheet.write : a1a2a3",
    "sheet.write 15 a1a2a3",
    "sheet.write 15:48:3:1 a1a2a3",
    "sheet.write 15:48:3:1: a1a2a3",
    "sheet.write 15:48:3:1:341 a1a2a3",
    "sheet.write 15:48:3:1:34AB a1a2a3",
    "sheet.write 15:48:3:1:3412: a1a2a3",
    "sheet.write 15:48:3:1:3412:0 a1a2a3",
    "sheet.write 15:48:3:1:3412; a1a2a3",
    "sheet.write ;15:48:3:1:3412 a1a2a3",
    "sheet.write -;15:48:3:1:3412 a1a2a3",
    "sheet.write 15:48:3:1:3412;- a1a2a3",
    "sheet.write 15:48:3:1:3412,15:50:1:2:0102 a1a2a3",
    "sheet.write 15:48::1:3412 a1a2a3",
    "sheet.write :48:3:1:3412 a1a2a3",
    "sheet.write 256:48:3:1:3412 a1a2a3",
    "sheet.write 15:256:3:1:3412 a1a2a3",
    "sheet.write 15:48:256:1:3412 a1a2a3",
    "sheet.write 15:48:3:256:3412 a1a2a3",
    "sheet.write -1:48:3:1:3412 a1a2a3",
    "sheet.check",
    "sheet.check - -",
    "sheet.check 0",
    "sheet.read - 0",
    "sheet.read - -1 -",
    "sheet.read - 18446744073709551616 -",
    "Sheet.check -",
];

/// Lines that are no calls to throw settings out of a sheet or to add one, and numbers one past their type.
const NO_EDIT_CALLS: [&str; 44] = [
    "sheet.rem",
    "sheet.rem -",
    "sheet.rem - 0",
    "sheet.rem - 0 0",
    "sheet.rem - 0 0 15",
    "sheet.rem - 0 0 15 ",
    "sheet.rem - 0 0 15 48 0",
    "sheet.rem - 0 0 15 48 ",
    "sheet.rem 0 0 0 15 48",
    "sheet.rem 0G 0 0 15 48",
    "sheet.rem - - 0 15 48",
    "sheet.rem - 0 - 15 48",
    "sheet.rem - -1 0 15 48",
    "sheet.rem - 0 -1 15 48",
    "sheet.rem - 18446744073709551616 0 15 48",
    "sheet.rem - 0 18446744073709551616 15 48",
    "sheet.rem - 0 0 256 48",
    "sheet.rem - 0 0 15 256",
    "sheet.rem - 0 0 - -",
    "sheet.rem - 0 15:48",
    "sheet.remmod",
    "sheet.remmod -",
    "sheet.remmod - 0",
    "sheet.remmod - 0 ",
    "sheet.remmod - 0 256",
    "sheet.remmod - 0 -1",
    "sheet.remmod - 18446744073709551616 15",
    "sheet.remmod - 0 15 48",
    "sheet.remmod 0A 0 15",
    "sheet.add",
    "sheet.add -",
    "sheet.add - 0",
    "sheet.add - 0 -",
    "sheet.add - 0 15:50:1:2",
    "sheet.add - 0 15:50:1:2:",
    "sheet.add - 0 15:50:1:2:010",
    "sheet.add - 0 15:50:1:2:0102;",
    "sheet.add - 0 15:50:1:2:0102;15:51:1:2:0102",
    "sheet.add - 0 15:50:1:2:0102 0",
    "sheet.add - 0 256:50:1:2:0102",
    "sheet.add - 0 15:50:1:256:0102",
    "sheet.add - 18446744073709551616 15:50:1:2:0102",
    "sheet.add 15:50:1:2:0102 0 -",
    "Sheet.add - 0 15:50:1:2:0102",
];

/// Lines that are no calls to expire everything due, numbers one past their type, and rooms that would be 1 or 44 of a
/// narrower type.
const NO_EXPALL_CALLS: [&str; 24] = [
    "desk.expall",
    "desk.expall ",
    "desk.expall 109",
    "desk.expall 109 ",
    "desk.expall 109 -",
    "desk.expall - 3",
    "desk.expall  109 3",
    "desk.expall 109  3",
    "desk.expall 109 3 ",
    "desk.expall 109 3 0",
    "desk.expall 109 3 a1a2",
    "desk.expall -1 3",
    "desk.expall 109 -1",
    "desk.expall +1 3",
    "desk.expall 109 +3",
    "desk.expall 4294967296 3",
    "desk.expall 109 256",
    "desk.expall 109 257",
    "desk.expall 109 300",
    "desk.expall 109 65537",
    "desk.expall 109 4294967297",
    "desk.expall 109 18446744073709551617",
    "desk.expireall 109 3",
    "Desk.expall 109 3",
];

/// Lines that are no calls on the lanes, and numbers one past their type.
const NO_LANE_CALLS: [&str; 40] = [
    "lane",
    "lane.",
    "lane.new",
    "lane.join",
    "lane.join 7 15 4 102 - 1000",
    "lane.join 7 15 4 102 1000 3",
    "lane.join 7 15 4 102 - 1000 -",
    "lane.join 7 15 4 102 - 1000 3 ",
    "lane.join 7 15 4 102 - 1000 3 300",
    "lane.join 7 15 4 102 -  1000 3",
    "lane.join 7 15 4 102  1000 3",
    "lane.join 7 15 5 102 0 1000 3",
    "lane.join 7 15 5 102 0A 1000 3",
    "lane.join 4294967296 15 4 102 - 1000 3",
    "lane.join 7 256 4 102 - 1000 3",
    "lane.join 7 15 256 102 - 1000 3",
    "lane.join 7 15 4 256 - 1000 3",
    "lane.join 7 15 4 102 - 4294967296 3",
    "lane.join 7 15 4 102 - 1000 4294967296",
    "lane.join -1 15 4 102 - 1000 3",
    "lane.join 7 15 4 102 - 1000 -1",
    "lane.grant",
    "lane.grant 300",
    "lane.grant 300 ",
    "lane.grant 300 a1a",
    "lane.grant 300 a1 -",
    "lane.grant - a1",
    "lane.grant -1 a1",
    "lane.grant 4294967296 a1",
    "lane.withdraw",
    "lane.withdraw 8",
    "lane.withdraw 8 ",
    "lane.withdraw 8 -",
    "lane.withdraw 8 -1",
    "lane.withdraw 8 1 1",
    "lane.withdraw 4294967296 1",
    "lane.withdraw 8 18446744073709551616",
    "lane.dump 0",
    "lane.dump ",
    "Lane.dump",
];

/// Lines that are no calls on the scan, and numbers one past their type.
const NO_SCAN_CALLS: [&str; 24] = [
    "scan",
    "scan.",
    "scan.new",
    "scan.new ",
    "scan.new -",
    "scan.new -1",
    "scan.new +5",
    "scan.new 5 0",
    "scan.new  5",
    "scan.new 4294967296",
    "scan.new 4294967301",
    "scan.step",
    "scan.step 400",
    "scan.step 400 ",
    "scan.step 400 a1a",
    "scan.step 400 A1",
    "scan.step - a1a2a3a4a5a6a7a8a9aaabac",
    "scan.step -1 a1a2a3a4a5a6a7a8a9aaabac",
    "scan.step 4294967296 a1a2a3a4a5a6a7a8a9aaabac",
    "scan.step 400 100 a1a2a3a4a5a6a7a8a9aaabac",
    "scan.step 400 a1a2a3a4a5a6a7a8a9aaabac 0",
    "scan.dump 0",
    "scan.dump ",
    "Scan.dump",
];

/// Lines that are no calls on the tally, and numbers one past their type.
const NO_TALLY_CALLS: [&str; 18] = [
    "tally",
    "tally.",
    "tally.new",
    "tally.set",
    "tally.set 1",
    "tally.set 1 2",
    "tally.set 1 2 3 4",
    "tally.set 1 2 3 ",
    "tally.set 1  2 3",
    "tally.set - 2 3",
    "tally.set -1 2 3",
    "tally.set 4294967296 2 3",
    "tally.set 1 4294967296 3",
    "tally.set 1 2 4294967296",
    "tally.set 18446744073709551616 2 3",
    "tally.get 0",
    "tally.get ",
    "Tally.get",
];

/// Folders as they may stand in a line, 1 and such as would be 1 or none of a narrower type first, then the largest;
/// and what is no folder.
const FOLDER_WORDS: [&str; 16] = [
    "1",
    "0000000001",
    "257",
    "65537",
    "0",
    "256",
    "65536",
    "4294967295",
    "4294967296",
    "4294967297",
    "18446744073709551617",
    "-1",
    "+1",
    "",
    "-",
    "0x1",
];

/// Every call with numbers from all over their types.
pub fn any_numbers(script: &mut Script) {
    for _ in 0..9 {
        let mut order: Vec<usize> = (0..17).collect();
        script.random.shuffle(&mut order);
        for which in order {
            let line = any_call(&mut script.random, which);
            script.call(line);
        }
    }
}

/// A call with words of any value.
fn any_call(random: &mut Random, which: usize) -> String {
    let (a, b, c, d) = (random.byte(), random.byte(), random.byte(), random.byte());
    let (job, wait, folder, clock) = (random.word(), random.word(), random.word(), random.word());
    let (bytes, buf) = (any_bytes(random), lent(random));
    let value = i128::from(random.bits()) - i128::from(random.bits() / 2 * u64::from(b % 2));
    let index = random.bits();
    match which {
        0 => format!("rem {bytes}"),
        1 => format!("read {bytes} {buf}"),
        2 => format!("write {a} {b} {c} {d} {bytes} {buf}"),
        3 => format!("val.get {} {bytes} {index}", a % 9),
        4 => format!("val.put {} {value} {buf}", a % 9),
        5 => format!("cat {a} {b}"),
        6 => format!("bench.new {a}"),
        7 => format!("bench.add {a} {} {}", b % 9, c % 9),
        8 => format!("bench.set {a} {value}"),
        9 => format!("bench.tele {bytes} {buf}"),
        10 => "bench.dump".to_string(),
        11 => "desk.new".to_string(),
        12 => format!("desk.open {job} {a} {} {c} {bytes} {} {folder} {clock} {buf}", b % 11, wait % 70000),
        13 => format!("desk.reply {bytes} {buf}"),
        14 => format!("desk.cancel {job} {a} {clock}"),
        15 => format!("desk.expire {clock}"),
        _ => "desk.dump".to_string(),
    }
}

/// The calls on the receiver with any words, then lines that are none of them, or nearly.
pub fn receiver_lines(script: &mut Script) {
    for _ in 0..6 {
        let (place, bytes, more) = (script.random.bits(), any_bytes(&mut script.random), any_bytes(&mut script.random));
        for line in [format!("rx.new {place}"), format!("rx.feed {bytes}"), format!("rx.feed {more}")] {
            script.call(line);
        }
        script.call("rx.end");
    }
    for sample in RECEIVER_SAMPLES.iter().cycle().take(4 * 8) {
        let line = amiss(&mut script.random, sample);
        script.call(line);
    }
    for line in NO_RECEIVER_CALLS {
        script.call(line);
    }
    script.call("rx.end");
}

/// Once a script, since they are long: the longest lines, one byte less and one more, of calls with a state and
/// without; and the chunk with the longest answer there is: as many frames dropped as a line can feed, at the last
/// places.
pub fn longest_lines(script: &mut Script) {
    script.call("varia.new 9 16");
    for length in [LONGEST_LINE - 1, LONGEST_LINE, LONGEST_LINE + 1] {
        for (call, number) in [("cat 103 ", 16), ("varia.moving ", 4096), ("rx.new ", u64::MAX - MOST_FED as u64)] {
            let digits = length - call.len();
            script.call(format!("{call}{number:0digits$}"));
        }
    }
    for bytes in [LONGEST_LINE / 2 - 2, LONGEST_LINE / 2 - 1] {
        script.call(format!("rem {}", "5e".repeat(bytes)));
    }
    for fed in [MOST_FED + 1, MOST_FED] {
        script.call(format!("rx.feed {}", "0d".repeat(fed)));
    }
    script.call("rx.end");
    script.call("desk.new");
}

/// The calls on the filter box with any words, then lines that are none of them, or nearly.
pub fn varia_lines(script: &mut Script) {
    for _ in 0..6 {
        let mut order: Vec<usize> = (0..9).collect();
        script.random.shuffle(&mut order);
        for which in order {
            let line = any_varia_call(&mut script.random, which);
            script.call(line);
        }
    }
    for sample in VARIA_SAMPLES.iter().cycle().take(9 * 6) {
        let line = amiss(&mut script.random, sample);
        script.call(line);
    }
    for line in NO_VARIA_CALLS {
        script.call(line);
    }
    script.call("varia.dump");
}

/// A call on the filter box with words of any value.
fn any_varia_call(random: &mut Random, which: usize) -> String {
    let (job, module, number) = (random.word(), random.byte(), random.word() as u16);
    let (wait, clock) = (random.word() % 70000, random.word());
    let (bytes, more, buf) = (any_bytes(random), any_bytes(random), lent(random));
    match which {
        0 => format!("varia.new {job} {module}"),
        1 => format!("varia.short {number} {wait} {clock} {buf}"),
        2 => format!("varia.long {number} {wait} {clock} {buf}"),
        3 => format!("varia.att {} {wait} {clock} {buf}", number % 2000),
        4 => format!("varia.monitor {wait} {clock} {buf}"),
        5 => format!("varia.status {wait} {clock} {buf}"),
        6 => format!("varia.display {bytes} {more}"),
        7 => format!("varia.moving {number}"),
        _ => "varia.dump".to_string(),
    }
}

/// The calls on settings sheets with any words, then lines that are none of them, or nearly, the most settings that a
/// line may name and one more, and as many as are too many of one key.
pub fn sheet_lines(script: &mut Script) {
    for _ in 0..6 {
        let random = &mut script.random;
        let (count, index, buf) = (random.below(4), random.bits(), lent(random));
        let named: Vec<String> = (0..count).map(|_| any_setting(random)).collect();
        let named = if named.is_empty() { "-".to_string() } else { named.join(";") };
        let (sheet, other) = (any_bytes(random), any_bytes(random));
        script.call(format!("sheet.write {named} {buf}"));
        script.call(format!("sheet.check {sheet}"));
        script.call(format!("sheet.read {other} {index} {buf}"));
    }
    for sample in SHEET_SAMPLES.iter().cycle().take(4 * 8) {
        let line = amiss(&mut script.random, sample);
        script.call(line);
    }
    for line in NO_SHEET_CALLS {
        script.call(line);
    }
    for count in [MOST_NAMED, MOST_NAMED + 1] {
        let named: Vec<String> = (0..count).map(|register| format!("1:{}:1:1:a1", register % 256)).collect();
        script.call(format!("sheet.write {} a1a2", named.join(";")));
    }
    script.call(format!("sheet.write {} a1a2", vec!["1:0:1:1:a1"; MOST_SETTINGS + 1].join(";")));
}

/// The calls that throw settings out of a sheet and add to it with any words, then lines that are none of them, or
/// nearly, and numbers with zeros before them.
pub fn edit_lines(script: &mut Script) {
    for _ in 0..6 {
        let random = &mut script.random;
        let (buf, length, index) = (any_bytes(random), random.bits() >> random.below(64), random.bits());
        let (module, register, new) = (random.byte(), random.byte(), any_setting(random));
        script.call(format!("sheet.rem {buf} {length} {index} {module} {register}"));
        script.call(format!("sheet.remmod {buf} {length} {module}"));
        script.call(format!("sheet.add {buf} {length} {new}"));
    }
    for sample in EDIT_SAMPLES.iter().cycle().take(3 * 8) {
        let line = amiss(&mut script.random, sample);
        script.call(line);
    }
    for line in NO_EDIT_CALLS {
        script.call(line);
    }
    let one = "010001000c000000140000000f300301000000003412";
    script.call(format!("sheet.rem {one} {:040} {:040} 0000000015 0000000048", 22, 0));
    script.call(format!("sheet.remmod {one} {:040} {:040}", 22, 15));
    script.call(format!("sheet.add {one}a1a2a3a4a5a6a7a8a9 {:040} 0015:{:040}:01:001:a1", 22, 0));
}

/// The call that expires everything due with any clock and with rooms around the most there are, on a desk of one
/// ticket, then lines that are none of it, or nearly; the last calls show what these have left.
pub fn expall_lines(script: &mut Script) {
    script.call("desk.new");
    for room in [0, 1, 2, MOST_ENTRIES - 1, MOST_ENTRIES, MOST_ENTRIES + 1, MOST_ENTRIES + 2] {
        let (job, opened, clock) = (script.random.word().max(1), script.random.word(), script.random.word());
        let wait = script.random.between(1, 60000);
        script.call(format!("desk.open {job} 15 4 102 - {wait} 0 {opened} {}", hex(&buffer(12))));
        script.call(format!("desk.expall {clock} {room}"));
    }
    script.call("desk.open 7 15 4 102 - 100 0 9 a1a2a3a4a5a6a7a8a9aaabac");
    for sample in EXPALL_SAMPLES.iter().cycle().take(2 * 8) {
        let line = amiss(&mut script.random, sample);
        script.call(line);
    }
    for line in NO_EXPALL_CALLS {
        script.call(line);
    }
    script.call("desk.dump");
    script.call(format!("desk.expall 4294967295 {MOST_ENTRIES:040}"));
    script.call("desk.dump");
}

/// The calls on the lanes with any words, then lines that are none of them, or nearly, data as long as a line can have
/// them, and a place with zeros before it; the lanes are shown before and after.
pub fn lane_lines(script: &mut Script) {
    script.call("desk.new");
    for which in (0..6 * 4).map(|which| which % 4) {
        let line = any_lane_call(&mut script.random, which);
        script.call(line);
    }
    script.call("lane.join 8 15 5 48 3412 1000 3");
    script.call("lane.dump");
    let enough = format!("lane.grant 300 {}", hex(&buffer(LONGEST_TELEGRAM)));
    for sample in LANE_SAMPLES.into_iter().chain([enough.as_str()]).cycle().take(6 * 8) {
        let line = amiss(&mut script.random, sample);
        script.call(line);
    }
    script.call("lane.dump");
    for line in NO_LANE_CALLS {
        script.call(line);
    }
    for bytes in [300, (LONGEST_LINE - "lane.join 9 15 5 48  1 0".len()) / 2] {
        script.call(format!("lane.join 9 15 5 48 {} 1 0", "5e".repeat(bytes)));
    }
    script.call("lane.join 9 15 5 48 - 1 0");
    script.call(format!("lane.withdraw 9 {:040}", 1));
    script.call("lane.dump");
}

/// Openings of one job, and joinings of another that are granted at once, with each of those words for a folder; job 7
/// has the folder 1 before.
pub fn folder_lines(script: &mut Script) {
    let (short, enough) = (hex(&buffer(12)), hex(&buffer(LONGEST_TELEGRAM)));
    script.call("desk.new");
    script.call(format!("desk.open 7 15 4 102 - 1000 1 0 {short}"));
    for folder in FOLDER_WORDS {
        script.call(format!("lane.join 8 15 4 102 - 1000 {folder}"));
        script.call(format!("lane.grant 300 {enough}"));
        script.call(format!("desk.open 9 15 4 102 - 1000 {folder} 300 {short}"));
    }
    script.call("desk.dump");
}

/// The calls on the scan with any words, then lines that are none of them, or nearly; the scan is shown before and
/// after.
pub fn scan_lines(script: &mut Script) {
    script.call("desk.new");
    for _ in 0..4 {
        let (job, clock, buf) = (script.random.word(), script.random.word(), lent(&mut script.random));
        for line in [format!("scan.new {job}"), format!("scan.step {clock} {buf}"), "scan.dump".to_string()] {
            script.call(line);
        }
    }
    for sample in SCAN_SAMPLES.iter().cycle().take(3 * 8) {
        let line = amiss(&mut script.random, sample);
        script.call(line);
    }
    script.call("scan.new 0000000005");
    script.call(format!("scan.step {:040} {}", 400, hex(&buffer(12))));
    script.call("scan.dump");
    for line in NO_SCAN_CALLS {
        script.call(line);
    }
    script.call("scan.dump");
    script.call("desk.dump");
}

/// The calls on the tally with any words, then lines that are none of them, or nearly; the tally is shown before and
/// after, and cleared at last.
pub fn tally_lines(script: &mut Script) {
    script.call("rx.new 0");
    for _ in 0..4 {
        let ([read, refused, dropped], bytes) = ([(); 3].map(|()| script.random.word()), any_bytes(&mut script.random));
        script.call(format!("tally.set {read} {refused} {dropped}"));
        script.call(format!("rx.feed {bytes}"));
        script.call("tally.get");
    }
    for sample in TALLY_SAMPLES.iter().cycle().take(3 * 8) {
        let line = amiss(&mut script.random, sample);
        script.call(line);
    }
    script.call(format!("tally.set {:040} 0000000007 4294967295", 5));
    for line in NO_TALLY_CALLS {
        script.call(line);
    }
    script.call("tally.get");
    script.call("tally.set 0 0 0");
}

/// A call on the lanes with words of any value; jobs and places are low in half of the cases.
fn any_lane_call(random: &mut Random, which: usize) -> String {
    let (module, type_no, register) = (random.byte(), random.byte() % 11, random.byte());
    let (wait, folder, clock) = (random.word() % 70000, random.word(), random.word());
    let job = if random.one_in(2) { random.word() } else { random.word() % 3 };
    let place = if random.one_in(2) { random.bits() } else { random.bits() % 3 };
    let (bytes, room) = (any_bytes(random), random.below(600));
    match which {
        0 => format!("lane.join {job} {module} {type_no} {register} {bytes} {wait} {folder}"),
        1 => format!("lane.grant {clock} {}", hex(&buffer(room))),
        2 => format!("lane.withdraw {job} {place}"),
        _ => "lane.dump".to_string(),
    }
}

/// A setting with numbers of any value, as a call line names it.
fn any_setting(random: &mut Random) -> String {
    let (module, register, kind, count) = (random.byte(), random.byte(), random.byte() % 9, random.byte());
    format!("{module}:{register}:{kind}:{count}:{}", any_bytes(random))
}

/// Up to 40 bytes of any value, as hex.
fn any_bytes(random: &mut Random) -> String {
    let length = random.below(41);
    hex(&random.bytes(length))
}

/// A lent buffer of up to 40 bytes, as hex.
fn lent(random: &mut Random) -> String {
    hex(&buffer(random.below(41)))
}

/// Lines that are no calls, or nearly: each call's line with a word or a byte amiss.
pub fn bad_lines(script: &mut Script) {
    for sample in SAMPLES.iter().cycle().take(17 * 5) {
        let line = amiss(&mut script.random, sample);
        script.call(line);
    }
    for line in NO_CALLS {
        script.call(line);
    }
}

/// A right line with something amiss.
fn amiss(random: &mut Random, sample: &str) -> Vec<u8> {
    let mut words: Vec<&str> = sample.split(' ').collect();
    let place = random.below(words.len());
    let last = words.len() - 1;
    match random.below(8) {
        0 => words.insert(random.below(words.len() + 1), random.pick(&ODD_WORDS)),
        1 => drop(words.remove(place)),
        2 => words.push(words[place]),
        3 | 4 => words[last - place / 2] = random.pick(&ODD_WORDS),
        5 => words[place] = random.pick(&ODD_WORDS),
        6 => return [sample.as_bytes(), random.pick(&[b" ", b"\r", b"\t", b"\0", b"\xff", b"0"])].concat(),
        _ => return byte_amiss(random, sample),
    }
    words.join(" ").into_bytes()
}

/// A right line with one byte of it another, but no newline put in.
fn byte_amiss(random: &mut Random, sample: &str) -> Vec<u8> {
    let mut line = sample.as_bytes().to_vec();
    let place = random.below(line.len());
    line[place] = random.pick(b" -+0aAgG.\t\r\0\x80\xff");
    line
}
