//! The model held against what the papers say of settings thrown out of a sheet and added to it.

use super::{calls, Check};
use crate::calls::answers;

/// The sheets of 15:48:3:1:3412 and 15:50:1:2:0102, of the first and the second of them alone, and of none.
const TWO: &str = "010002000c0000001c0000000f300301000000000f3201020200000034120102";
const FIRST: &str = "010001000c000000140000000f300301000000003412";
const SECOND: &str = "010001000c000000140000000f320102000000000102";
const EMPTY: &str = "010000000c0000000c000000";

/// A check that a call on this sheet with these marked bytes behind leaves this sheet, all bytes behind it as they were.
fn left(name: &'static str, call: &str, sheet: &str, behind: &str, words: &str, want: &str) -> Check {
    let buf = format!("{sheet}{behind}");
    let asked = format!("sheet.{call} {buf} {} {words}", sheet.len() / 2);
    calls(name, &asked, &format!("ok n={} buf={want}{}", want.len() / 2, &buf[want.len()..]))
}

/// A check that a call on this buffer, with this length stated, is refused with this number.
fn refused(name: &'static str, call: &str, buf: &str, words: &str, want: u32) -> Check {
    calls(name, &format!("sheet.{call} {buf} {words}"), &format!("no {want} buf={buf}"))
}

/// The sheet of so many settings of a byte each, all of module 1, from register 0 on.
fn many(count: usize) -> String {
    let head: String =
        [1, count, 12, 12 + 8 * count].iter().zip([2, 2, 4, 4]).map(|(n, width)| low(*n, width)).collect();
    let records: String = (0..count).map(|register| format!("01{register:02x}0101{}", low(register, 4))).collect();
    head + &records + &"a1".repeat(count)
}

/// A number as so many bytes, lowest first.
fn low(number: usize, width: usize) -> String {
    (0..width).map(|place| format!("{:02x}", number >> (8 * place) & 255)).collect()
}

/// What is thrown out and what is left, byte by byte, and number 77.
pub fn removals() -> Vec<Check> {
    vec![
        calls(
            "record 0, every byte",
            &format!("sheet.rem {TWO}ee 32 0 15 48"),
            "ok n=22 buf=010001000c000000140000000f32010200000000010201020200000034120102ee",
        ),
        calls(
            "record 1, every byte",
            &format!("sheet.rem {TWO}ee 32 1 15 50"),
            "ok n=22 buf=010001000c000000140000000f30030100000000341201020200000034120102ee",
        ),
        calls(
            "both records, every byte",
            &format!("sheet.remmod {TWO}ee 32 15"),
            "ok n=12 buf=010000000c0000000c0000000f300301000000000f3201020200000034120102ee",
        ),
        left("the only record", "rem", FIRST, "", "0 15 48", EMPTY),
        left("the only module", "remmod", FIRST, "eeee", "15", EMPTY),
        refused("one past the last", "rem", TWO, "32 2 15 51", 77),
        refused("the largest number", "rem", TWO, "32 18446744073709551615 15 51", 77),
        refused("0 in 32 bits", "rem", TWO, "32 4294967296 15 51", 77),
        refused("a record of the empty sheet", "rem", EMPTY, "12 0 15 48", 77),
        refused("a module of the empty sheet", "remmod", EMPTY, "12 15", 77),
        refused("a module below", "remmod", TWO, "32 14", 77),
        refused("a module above", "remmod", TWO, "32 16", 77),
        refused("module 0", "remmod", TWO, "32 0", 77),
        refused("module 255", "remmod", TWO, "32 255", 77),
        left("a record of 128", "rem", &many(128), "ee", "127 1 127", &many(127)),
    ]
}

/// Where a new setting goes, the room it wants, and removals that undo it.
pub fn additions() -> Vec<Check> {
    let three = |records: &str, values: &str| format!("010003000c00000024000000{records}{values}").replace(' ', "");
    let before = three("0eff0101 00000000 0f300301 01000000 0f320102 03000000", "aa 3412 0102");
    let between = three("0f300301 00000000 0f310501 02000000 0f320102 06000000", "3412 78563412 0102");
    let behind = three("0f300301 00000000 0f320102 02000000 10000101 04000000", "3412 0102 aa");
    let room = |bytes: usize| "ee".repeat(bytes);
    let long = "a1".repeat(240);
    let alone = format!("010001000c00000014000000a0ff01f000000000{long}");
    let last = |name, lines: &[String], want: &str| {
        let said = answers(lines.join("\n").as_bytes());
        Check { name, got: said.lines().last().unwrap_or("").to_string(), want: want.to_string() }
    };
    vec![
        left("before all", "add", TWO, &room(20), "14:255:1:1:aa", &before),
        left("between", "add", TWO, &room(20), "15:49:5:1:78563412", &between),
        left("behind all", "add", TWO, &room(20), "16:0:1:1:aa", &behind),
        left("to the empty sheet", "add", EMPTY, &room(10), "15:48:3:1:3412", FIRST),
        left("just the room", "add", TWO, &room(9), "16:0:1:1:aa", &behind),
        refused("one byte less", "add", &format!("{TWO}{}", room(8)), "32 16:0:1:1:aa", 80),
        refused("no room at all", "add", TWO, "32 16:0:1:1:aa", 80),
        left("a value of 240 bytes", "add", EMPTY, &room(248), &format!("160:255:1:240:{long}"), &alone),
        refused(
            "a value of 240 bytes, one byte less",
            "add",
            &format!("{EMPTY}{}", room(247)),
            &format!("12 160:255:1:240:{long}"),
            80,
        ),
        left("the 128th", "add", &many(127), &room(9), "1:127:1:1:a1", &many(128)),
        last(
            "removed and added",
            &[
                format!("sheet.rem {TWO}ee 32 0 15 48"),
                format!("sheet.add {SECOND}01020200000034120102ee 22 15:48:3:1:3412"),
            ],
            &format!("ok n=32 buf={TWO}ee"),
        ),
        last(
            "added and removed",
            &[format!("sheet.add {FIRST}{} 22 15:50:1:2:0102", room(11)), format!("sheet.rem {TWO}ee 32 1 15 50")],
            &format!("ok n=22 buf={FIRST}01020200000034120102ee"),
        ),
    ]
}

/// The numbers of an adding, of stated lengths and of wrong sheets, and their order.
pub fn unedited() -> Vec<Check> {
    let roomy = format!("{TWO}{}", "ee".repeat(300));
    let add = |name, words: &str, want| refused(name, "add", &roomy, &format!("32 {words}"), want);
    let full = format!("{}{}", many(128), "ee".repeat(300));
    let wrong = |place: usize, byte: &str| format!("{}{byte}{}", &TWO[..2 * place], &TWO[2 * place + 2..]);
    vec![
        add("the first's key", "15:48:3:1:3412", 78),
        add("the last's key, another kind", "15:50:5:1:00000000", 78),
        add("a new setting of module 0", "0:48:3:1:3412", 69),
        add("a new setting of module 161", "161:48:3:1:3412", 69),
        add("a new setting of kind 0", "15:49:0:1:3412", 69),
        add("a new setting of kind 8", "15:49:8:1:3412", 69),
        add("a new setting of no elements", "15:49:3:0:-", 69),
        add("a new setting of 241 elements", &format!("15:49:1:241:{}", "a1".repeat(241)), 69),
        add("a new setting of 242 bytes", &format!("15:49:3:121:{}", "a1".repeat(242)), 69),
        add("a new value one short", "15:49:3:1:34", 69),
        add("a new value one long", "15:49:3:1:341200", 69),
        add("69 ahead of 78", "15:48:3:1:34", 69),
        refused("69 ahead of 80", "add", TWO, "32 15:49:3:1:34", 69),
        refused("78 ahead of 80", "add", TWO, "32 15:48:3:1:3412", 78),
        refused("the 129th", "add", &full, "1164 1:128:1:1:a1", 79),
        refused("69 ahead of 79", "add", &full, "1164 1:128:1:1:-", 69),
        refused("78 ahead of 79", "add", &full, "1164 1:127:1:1:a1", 78),
        refused("79 ahead of 80", "add", &many(128), "1164 1:128:1:1:a1", 79),
        refused("one byte over the buffer", "rem", TWO, "33 0 15 48", 80),
        refused("one byte over the buffer, a module", "remmod", TWO, "33 15", 80),
        refused("one byte over the buffer, a setting", "add", &roomy, "333 16:0:1:1:aa", 80),
        refused("the length in 32 bits", "rem", TWO, "4294967328 0 15 48", 80),
        refused("the largest length", "remmod", TWO, "18446744073709551615 15", 80),
        refused("over no buffer", "rem", "-", "1 0 15 48", 80),
        refused("no buffer", "rem", "-", "0 0 15 48", 65),
        refused("no buffer, a module", "remmod", "-", "0 15", 65),
        refused("no buffer, a setting", "add", "-", "0 15:48:3:1:3412", 65),
        refused("11 bytes of it", "rem", TWO, "11 0 15 48", 65),
        refused("27 bytes of it", "rem", TWO, "27 0 15 48", 67),
        refused("one byte of it less", "remmod", TWO, "31 15", 70),
        refused("one byte more than it", "add", &roomy, "33 16:0:1:1:aa", 70),
        refused("80 ahead of a wrong sheet", "rem", &wrong(0, "02"), "33 0 15 48", 80),
        refused("version 2 ahead of 77", "rem", &wrong(0, "02"), "32 2 15 51", 66),
        refused("an offset ahead of 77", "remmod", &wrong(4, "0d"), "32 16", 67),
        refused("equal keys ahead of 69", "add", &wrong(21, "30"), "32 0:0:0:0:-", 68),
        refused("the sheet's 69 ahead of 78", "add", &wrong(14, "08"), "32 15:48:3:1:3412", 69),
        refused("a value's offset ahead of 69", "add", &wrong(24, "03"), "32 0:0:0:0:-", 70),
    ]
}
