//! The model held against the facts the papers print.

mod edits;
mod shift;
mod texts;

use crate::bench::Bench;
use crate::calls::{answers, hex};
use crate::faults::{all_substituted, longest, wrong_frame};
use crate::listing::list;
use crate::telegram::{frame, Message, Refusal};

/// A fact by name, what the model makes of it, and what the paper says.
struct Check {
    name: &'static str,
    got: String,
    want: String,
}

const EXAMPLE_CALLS: &str = "\
rem 0fa20466
read 0d0fa204 ffff
desk.open 7 15 4 102 - 100 0 0 000000000000000000000000
desk.dump
bench.new 15
bench.add 49 4 3
bench.set 49 -5
bench.dump
val.put 4 -2 000000
cat 104 50
bench.new 200
";

const EXAMPLE_ANSWERS: &str = "\
ok rem=51126
no 1 buf=ffff
ok address=161 n=8 count=1 buf=0d0fa104669ee60a00000000
ok turn=162 tickets=161:7:15:4:102:100:0:0 closed=-
ok
ok
ok
ok address=15 regs=49:4:3:fbff
ok buf=feff00
ok kind=3 write=1 lo=0 hi=65535
no 34
";

/// The part of the call scripts' later example that is about the desk: two jobs that want one folder, counts, number
/// 3's place, a rest, a late answer, and the expiry of everything due.
const DESK_CALLS: &str = "\
desk.new
desk.open 7 15 4 102 - 1000 3 0 000000000000000000000000
desk.open 8 15 4 102 - 1000 3 0 000000000000000000000000
desk.open 0 15 4 102 - 1000 3 0 -
desk.open 8 15 4 102 - 1000 0 0 00
desk.reply 0da10f08665e41965b0a 0000
desk.cancel 7 161 40
desk.reply 0da10f08663412965b0a 0000
desk.dump
desk.open 8 15 4 102 - 10 4 50 000000000000000000000000
desk.expall 100 3
";

const DESK_ANSWERS: &str = "\
ok
ok address=161 n=8 count=1 buf=0d0fa104669ee60a00000000
no 75 count=0 buf=000000000000000000000000
no 10 count=0 buf=-
no 16 count=1 buf=00
no 3 place=5 buf=0000
ok job=7 address=161 folder=3
no 61 buf=0000
ok turn=162 tickets=- closed=161:40
ok address=162 n=8 count=1 buf=0d0fa20466c7b60a00000000
ok n=1 list=8:162:4,.,.
";

/// The part of the same example that is about the filter box, after that about the desk.
const BOX_CALLS: &str = "\
varia.new 9 16
varia.short 6000 500 200 00000000000000000000000000000000
varia.long 7000 500 200 00000000000000000000000000000000
varia.att 1001 500 200 0000
varia.display 3412 -
varia.display 01 3412
varia.display 01 02
varia.moving 4096
varia.dump
";

const BOX_ANSWERS: &str = "\
ok
ok address=163 n=11 count=1 buf=0d10a305337017945e4d0a0000000000
no 59 buf=00000000000000000000000000000000
no 62 buf=0000
ok which=fresh two=3412
ok which=kept two=3412
no 64
ok moving=1
ok short=? long=? out=163:short:6000
";

/// The part of the same example that is about the lanes.
const LANE_CALLS: &str = "\
lane.join 7 15 4 102 - 1000 3
lane.join 8 15 5 48 3412 1000 3
lane.dump
lane.grant 300 00
lane.withdraw 8 2
";

const LANE_ANSWERS: &str = "\
ok lane=1 at=1
ok lane=2 at=1
ok last=16 lanes=7:15:4:102:-:1000:3|8:15:5:48:3412:1000:3|-|-|-|-|-|-|-|-|-|-|-|-|-|-
no 73 buf=00
no 55
";

/// The part of the same example that is about settings sheets.
const SHEET_CALLS: &str = "\
sheet.write 15:48:3:1:3412;15:50:1:2:0102 000000000000000000000000000000000000000000000000000000000000000000000000
sheet.check 010002000c0000001c0000000f300301000000000f320102020000003412
sheet.read 010002000c0000001c0000000f300301000000000f3201020200000034120102 1 00000000
";

const SHEET_ANSWERS: &str = "\
ok n=32 buf=010002000c0000001c0000000f300301000000000f320102020000003412010200000000
no 70
ok module=15 reg=50 kind=1 count=2 n=2 buf=01020000
";

/// The part of the same example that is about settings thrown out of a sheet and added to it.
const EDIT_CALLS: &str = "\
sheet.rem 010002000c0000001c0000000f300301000000000f3201020200000034120102ff 32 0 15 48
sheet.remmod 010002000c0000001c0000000f300301000000000f3201020200000034120102ff 32 16
sheet.add 010001000c000000140000000f300301000000003412ffffffffffffffffffffff 22 15:50:1:2:0102
";

const EDIT_ANSWERS: &str = "\
ok n=22 buf=010001000c000000140000000f32010200000000010201020200000034120102ff
no 77 buf=010002000c0000001c0000000f300301000000000f3201020200000034120102ff
ok n=32 buf=010002000c0000001c0000000f300301000000000f3201020200000034120102ff
";

/// The part of the same example that is about the receiver, and what it has of the tally.
const RECEIVER_CALLS: &str = "\
rx.new 0
rx.feed 0da20f030d
rx.feed 30482f0a0d
rx.end
tally.get
tally.set 0 4294967295 0
rx.feed 0a01
";

const RECEIVER_ANSWERS: &str = "\
ok
ok lines=at 0 dropped
ok lines=at 4 refused 4
ok text=at 9 open\\nok 0 refused 1 dropped 1\\n
ok read=0 refused=1 dropped=1
ok
no 76 taken=0 lines=
";

/// The part of the same example that is about the scan, after those about the desk and the box.
const SCAN_CALLS: &str = "\
scan.new 5
scan.step 400 000000000000000000000000
scan.step 400 000000000000000000000000
scan.dump
";

const SCAN_ANSWERS: &str = "\
ok
ok address=164 module=1 n=8 count=1 buf=0d01a40461a7ab0a00000000
ok waiting=164 buf=000000000000000000000000
ok done=0 turns=0 out=164 results=-
";

pub const SAMPLE_CAPTURE: [u8; 12] = [0x0D, 0xA2, 0x0F, 0x03, 0x30, 0x48, 0x2F, 0x0A, 0x0D, 0x0A, 0x0D, 0x05];

const SAMPLE_LISTING: &str = "\
Interbus capture
at 0 ok 162 15 3 48 0
at 8 refused 4
at 10 open
ok 1 refused 1 dropped 0
";

/// One line for each check, and whether all of them hold.
pub fn report() -> (String, bool) {
    let checks: Vec<Check> = [
        table_facts(),
        manual_examples(),
        both_sides(),
        rests(),
        dues(),
        rests_of_dues(),
        looks(),
        looks_of_boxes(),
        folders(),
        closed_folders(),
        lanes(),
        grants(),
        granted_tickets(),
        granted_folders(),
        withdrawals(),
        filter_boxes(),
        filter_edges(),
        listings(),
        long_frames(),
        places(),
        placed_calls(),
        placed_lines(),
        receivers(),
        last_places(),
        later_example(),
        shift::tallies(),
        shift::full_tallies(),
        shift::scans(),
        shift::ended_turns(),
        sheets(),
        unwritten_sheets(),
        wrong_sheets(),
        edits::removals(),
        edits::additions(),
        edits::unedited(),
        texts::example(),
        texts::spellings(),
        texts::keys(),
        texts::fits(),
        texts::ranks(),
        texts::long_texts(),
        texts::commands(),
        texts::usages(),
    ]
    .into_iter()
    .flatten()
    .collect();
    (checks.iter().map(line).collect(), checks.iter().all(holds))
}

/// Whether the model says what the paper says.
fn holds(check: &Check) -> bool {
    check.got == check.want
}

/// The report's line for a check.
fn line(check: &Check) -> String {
    match holds(check) {
        true => format!("ok {}\n", check.name),
        false => format!("FAILED {}: got {:?}, want {:?}\n", check.name, check.got, check.want),
    }
}

/// A check that these calls, on a fresh start, get those answers.
fn calls(name: &'static str, calls: &str, want: &str) -> Check {
    Check { name, got: answers(calls.as_bytes()).trim_end().to_string(), want: want.trim_end().to_string() }
}

/// A check of a remainder, written as in the papers.
fn remainder_is(name: &'static str, bytes: &str, want: u16) -> Check {
    calls(name, &format!("rem {bytes}"), &format!("ok rem={want}"))
}

/// The twelve facts of the table, and the example of the call scripts.
fn table_facts() -> Vec<Check> {
    let substituted = frame(&[0x0A, 0x42, 0x05, 0x32, 0x0D, 0x9C, 0xF0]);
    vec![
        remainder_is("T1 remainder of 0F A2 04 66", "0fa20466", 0xC7B6),
        remainder_is("T2 remainder of 0F A2 05 30 03", "0fa2053003", 0xBCE1),
        remainder_is("T3 remainder of 0A A2 05 23 88 13", "0aa205238813", 0x3B55),
        remainder_is("T4 remainder of A2 0A 08 11 5E 91", "a20a08115e91", 0x637E),
        Check { name: "T5 substituted and framed", got: hex(&substituted), want: "0d5e4a4205325e4d9cf00a".to_string() },
        calls("T6 frame 0D 0A", "read 0d0a a1a2", "no 4 buf=a1a2"),
        calls("T7 frame 0D 5E 41 0A", "read 0d5e410a a1a2", "no 3 place=1 buf=a1a2"),
        calls("T8 one bit of the remainder amiss", "read 0d0fa20466c7b70a a1", "no 7 buf=a1"),
        calls("T9 I16 of 00 80", "val.get 4 0080 0", "ok value=-32768"),
        calls("T10 U16 of 5E 91", "val.get 3 5e91 0", "ok value=37214"),
        calls(
            "T11 due over the clock's wrap",
            "desk.open 1 15 4 102 - 100 0 4294967290 a1a2a3a4a5a6a7a8\ndesk.expire 93\ndesk.expire 94",
            "ok address=161 n=8 count=1 buf=0d0fa104669ee60a\nno 22\nok job=1 address=161 folder=0",
        ),
        Check { name: "T12 toggling 0401h with 0400h", got: toggled(), want: "0100".to_string() },
        remainder_is("the empty string has 0", "-", 0),
        remainder_is("a whole right message has 0", "0fa20466c7b6", 0),
        calls("the example of the call scripts", EXAMPLE_CALLS, EXAMPLE_ANSWERS),
    ]
}

/// The stored bytes of a U16 of 0401h on the bench after a toggle with 0400h.
fn toggled() -> String {
    let telegram = Message { dest: 15, source: 162, type_no: 9, register: 49, data: vec![0x00, 0x04] }.telegram();
    let on_bench = || -> Result<Vec<u8>, Refusal> {
        let mut bench = Bench::new(15)?;
        bench.add(49, 3, 4)?;
        bench.set(49, 0x0401)?;
        bench.tele(&telegram, 240)?;
        Ok(bench.registers[&49].value.clone())
    };
    on_bench().map_or_else(|refusal| format!("no {}", refusal.no), |value| hex(&value))
}

/// The worked examples of the manual's sections 2.2 to 2.4.
fn manual_examples() -> Vec<Check> {
    vec![
        calls("2.2 the third of an array of U16", "val.get 3 0100020003000400 2", "ok value=3"),
        calls("2.2 the second of an array of U32", "val.get 5 0100000002000080 1", "ok value=2147483650"),
        calls("example 1 request", "write 15 162 5 48 03 a1a2a3a4a5a6a7a8a9aa", "ok n=9 buf=0d0fa2053003bce10aaa"),
        calls("example 1 reply", "read 0da20f0330482f0a a1", "ok dest=162 src=15 type=3 reg=48 n=0 buf=a1"),
        calls(
            "example 2 request",
            "write 10 162 5 35 8813 a1a2a3a4a5a6a7a8a9aaab",
            "ok n=11 buf=0d5e4aa2052388133b550a",
        ),
        calls("example 2 reply", "read 0da25e4a0323818d0a -", "ok dest=162 src=10 type=3 reg=35 n=0 buf=-"),
        calls("example 3 request", "write 10 162 4 17 - a1a2a3a4a5a6a7a8a9", "ok n=9 buf=0d5e4aa2041175830a"),
        calls("example 3 reply as printed", "read 0da25e4a08115e91637e0a a1a2a3", "no 3 place=6 buf=a1a2a3"),
        calls(
            "example 3 reply converted",
            "read 0da25e4a08115e9e91637e0a a1a2a3",
            "ok dest=162 src=10 type=8 reg=17 n=2 buf=5e91a3",
        ),
    ]
}

/// Both sides of the limits that the specification names after its table.
fn both_sides() -> Vec<Check> {
    let written = |length: usize| format!("write 1 161 5 1 {} {}", "20".repeat(length), "a1".repeat(260));
    let opened =
        |job: u32, module: u8, room: usize| format!("desk.open {job} {module} 4 102 - 100 0 0 {}\n", "a1".repeat(room));
    let starts = |name, call: String, want: &str| {
        let said = answers(call.as_bytes());
        Check {
            name,
            got: said.lines().last().unwrap_or("").chars().take(want.len()).collect(),
            want: want.to_string(),
        }
    };
    vec![
        starts("240 data bytes", written(240), "ok n=248"),
        starts("241 data bytes", written(241), "no 5 "),
        starts("job 0", opened(0, 15, 20), "no 10 "),
        starts("job 1", opened(1, 15, 20), "ok address=161 "),
        starts("the 95th ticket", opened(1, 15, 20).repeat(95), "ok address=255 "),
        starts("the 96th ticket", opened(1, 15, 20).repeat(96), "no 15 "),
        starts("module 160", opened(1, 160, 20), "ok address=161 "),
        starts("module 161", opened(1, 161, 20), "no 11 "),
        starts("buffer of the telegram's length", opened(1, 15, 8), "ok address=161 n=8 "),
        starts("buffer one less", opened(1, 15, 7), "no 16 "),
    ]
}

/// Both sides of a rest's 1000 ms, on a desk with no other address left; the clock's wrap within it, and a
/// clock one back.
fn rests() -> Vec<Check> {
    let open = |clock: u32| format!("desk.open 1 15 4 102 - 1 0 {clock} {}\n", "a1".repeat(20));
    let last = |name, closing: &str, clock: u32, want: &str| {
        let said = answers((open(0).repeat(95) + closing + "\n" + &open(clock)).as_bytes());
        let got = said.lines().last().unwrap_or("").chars().take(want.len()).collect();
        Check { name, got, want: want.to_string() }
    };
    let cancelled = "desk.cancel 1 200 5000";
    let at_the_wrap = "desk.cancel 1 200 4294967290";
    vec![
        last("999 ms after a cancel", cancelled, 5999, "no 15 "),
        last("1000 ms after a cancel", cancelled, 6000, "ok address=200 "),
        last("one ms before a cancel", cancelled, 4999, "ok address=200 "),
        last("999 ms over the wrap", at_the_wrap, 993, "no 15 "),
        last("1000 ms over the wrap", at_the_wrap, 994, "ok address=200 "),
        last("999 ms after an expiry", "desk.expire 7000", 7999, "no 15 "),
        last("1000 ms after an expiry", "desk.expire 7000", 8000, "ok address=161 "),
    ]
}

/// Everything due at once: rooms around all 95, the rest at a second call, both sides of a waiting time, and what is
/// not due.
fn dues() -> Vec<Check> {
    let open = |wait: u32, clock: u32| format!("desk.open 1 15 4 102 - {wait} 0 {clock} {}\n", "a1".repeat(20));
    let entries = |first: u8, last: u8, stayed: usize| {
        let expired = (first..=last).map(|address| format!("1:{address}:0"));
        expired.chain(vec![".".to_string(); stayed]).collect::<Vec<String>>().join(",")
    };
    let last = |name, before: &str, call: &str, want: String| {
        let said = answers([before, call].concat().as_bytes());
        Check { name, got: said.lines().last().unwrap_or("").to_string(), want: format!("ok n={want}") }
    };
    let full = open(100, 0).repeat(95);
    let over_the_wrap = open(100, 4294967290);
    let three = [open(100, 0), open(101, 0), open(100, 0)].concat();
    vec![
        calls("no entries", "desk.expall 0 0", "ok n=0 list=-"),
        calls("nothing due", "desk.expall 0 3", "ok n=0 list=.,.,."),
        last("200 entries", "", "desk.expall 0 200", format!("0 list={}.", ".,".repeat(199))),
        calls("201 entries are no call", "desk.expall 0 201", "bad line"),
        last("95 due, no room", &full, "desk.expall 100 0", "0 list=-".to_string()),
        last("95 due, one entry", &full, "desk.expall 100 1", "1 list=1:161:0".to_string()),
        last("95 due, 94 entries", &full, "desk.expall 100 94", format!("94 list={}", entries(161, 254, 0))),
        last("95 due, 95 entries", &full, "desk.expall 100 95", format!("95 list={}", entries(161, 255, 0))),
        last("95 due, 96 entries", &full, "desk.expall 100 96", format!("95 list={}", entries(161, 255, 1))),
        last("one ms before", &full, "desk.expall 99 2", "0 list=.,.".to_string()),
        last("the rest", &full, "desk.expall 100 93\ndesk.expall 100 3", "2 list=1:254:0,1:255:0,.".to_string()),
        last("nothing is left", &full, "desk.expall 100 95\ndesk.expall 100 1", "0 list=.".to_string()),
        last("what is not due stays", &three, "desk.expall 100 3", "2 list=1:161:0,1:163:0,.".to_string()),
        last("T11 by one call, not due", &over_the_wrap, "desk.expall 93 1", "0 list=.".to_string()),
        last("T11 by one call, due", &over_the_wrap, "desk.expall 94 1", "1 list=1:161:0".to_string()),
        last("a clock set back by one", &open(60000, 1000), "desk.expall 999 1", "1 list=1:161:0".to_string()),
    ]
}

/// What comes after all 95 have expired by one call, or 94 of them.
fn rests_of_dues() -> Vec<Check> {
    let open = |clock: u32| format!("desk.open 1 15 4 102 - 100 0 {clock} {}\n", "a1".repeat(20));
    let last = |name, room: usize, then: &str, want: &str| {
        let said = answers(format!("{}desk.expall 100 {room}\n{then}", open(0).repeat(95)).as_bytes());
        let got = said.lines().last().unwrap_or("").chars().take(want.len()).collect();
        Check { name, got, want: want.to_string() }
    };
    vec![
        last("no address at once", 95, &open(100), "no 15 "),
        last("999 ms after it", 95, &open(1099), "no 15 "),
        last("1000 ms after it", 95, &open(1100), "ok address=161 "),
        last("one ms before it", 95, &open(99), "ok address=161 "),
        last("a late answer to it", 95, "desk.reply 0da10f08663412965b0a 0000", "no 61 buf=0000"),
        last("no expiry after 95", 95, "desk.expire 100", "no 22"),
        last("an expiry after 94", 94, "desk.expire 100", "ok job=1 address=255 folder=0"),
        last("no turn is moved", 94, "desk.dump", "ok turn=161 tickets=255:1:15:4:102:100:0:0 closed=161:100,162:100,"),
    ]
}

/// How many addresses an opening considered: 0 with 10 to 14 on a full desk too, 95 with 15, the farthest address, over
/// the turn's end, and past addresses that rest; with 16 the same as where it is given.
fn looks() -> Vec<Check> {
    let open = |clock: u32, room: usize| format!("desk.open 1 15 4 102 - 100 0 {clock} {}\n", "a1".repeat(room));
    let book = |address: u8| {
        let reply = Message { dest: address, source: 15, type_no: 8, register: 102, data: Vec::new() };
        format!("desk.reply {} -\n", hex(&reply.telegram()))
    };
    let full = open(0, 20).repeat(95);
    let last = |name, before: &str, call: &str, want: &str| {
        let said = answers([&full, before, call].concat().as_bytes());
        let got = said.lines().last().unwrap_or("").chars().take(want.len()).collect();
        Check { name, got, want: want.to_string() }
    };
    let farther = [book(200), open(0, 20), book(161)].concat();
    let resting = ["desk.cancel 1 161 5000\n".to_string(), book(162)].concat();
    vec![
        last("the turn's own address", "desk.new\n", &open(0, 20), "ok address=161 n=8 count=1 "),
        last("the 95th ticket", &("desk.new\n".to_string() + &full), "", "ok address=255 n=8 count=1 "),
        last("no address at all", "", &open(0, 20), "no 15 count=95 "),
        last("no address and no room", "", &open(0, 7), "no 15 count=95 "),
        last("10 on a full desk", "", "desk.open 0 15 4 102 - 100 0 0 a1", "no 10 count=0 buf=a1"),
        last("11 on a full desk", "", "desk.open 1 161 4 102 - 100 0 0 a1", "no 11 count=0 buf=a1"),
        last("12 on a full desk", "", "desk.open 1 15 8 102 - 100 0 0 a1", "no 12 count=0 buf=a1"),
        last("13 on a full desk", "", "desk.open 1 15 4 102 00 100 0 0 a1", "no 13 count=0 buf=a1"),
        last("14 on a full desk", "", "desk.open 1 15 4 102 - 60001 0 0 a1", "no 14 count=0 buf=a1"),
        last("the farthest address", &book(255), &open(0, 8), "ok address=255 n=8 count=95 "),
        last("no room with the farthest", &book(255), &open(0, 7), "no 16 count=95 "),
        last("the next to it", &book(254), &open(0, 8), "ok address=254 n=8 count=94 "),
        last("past the turn's end", &farther, &open(0, 8), "ok address=161 n=8 count=56 "),
        last("no room past the turn's end", &farther, &open(0, 7), "no 16 count=56 "),
        last("past one that rests", &resting, &open(5999, 8), "ok address=162 n=8 count=2 "),
        last("no room past one that rests", &resting, &open(5999, 7), "no 16 count=2 "),
        last("one that has rested", &resting, &open(6000, 8), "ok address=161 n=8 count=1 "),
        last("all resting", "desk.expall 100 95\n", &open(1099, 8), "no 15 count=95 "),
        last("94 resting", &(book(255) + "desk.expall 100 95\n"), &open(1099, 8), "ok address=255 n=8 count=95 "),
    ]
}

/// The count in the answers to the box's wishes, and none with the box's own numbers.
fn looks_of_boxes() -> Vec<Check> {
    let on_a_box = |name, before: &str, call: &str, want: &str| {
        let said = answers(format!("varia.new 9 16\n{before}{call}").as_bytes());
        let got = said.lines().last().unwrap_or("").chars().take(want.len()).collect();
        Check { name, got, want: want.to_string() }
    };
    let room = "a1".repeat(20);
    let ask = |words: &str| format!("varia.{words} 500 200 {room}\n");
    let full = ask("status").repeat(95);
    let resting = full.clone() + "desk.cancel 9 161 5000\ndesk.cancel 9 162 4000\n";
    let far = full.clone() + "desk.cancel 9 255 4000\n";
    let later = |words: &str| format!("varia.{words} 500 5500 {room}\n");
    vec![
        on_a_box("a wish's count", "", &ask("status"), "ok address=161 n=8 count=1 "),
        on_a_box("a wish past one that rests", &resting, &later("short 6000"), "ok address=162 n=10 count=2 "),
        on_a_box("a wish past 94 open ones", &far, &later("monitor"), "ok address=255 n=8 count=95 "),
        on_a_box("a wish that has no room", &far, "varia.long 1 500 5500 a1", "no 16 count=95 buf=a1"),
        on_a_box("a wish with no address", &full, &ask("att 1000"), "no 15 count=95 "),
        on_a_box("a wish that waits for nothing", &full, "varia.monitor 0 200 a1", "no 14 count=0 buf=a1"),
        on_a_box("a wish of job 0", "varia.new 0 16\n", &ask("status"), "no 10 count=0 "),
        on_a_box("a wish of no module", "varia.new 9 161\n", &ask("status"), "no 11 count=0 "),
        on_a_box("59 without a count", &ask("short 6000"), "varia.long 1 500 200 a1", "no 59 buf=a1"),
        on_a_box("62 without a count", &full, "varia.att 1001 500 200 a1", "no 62 buf=a1"),
    ]
}

/// A read of a job is opened on this folder, with room for so many bytes, at clock 0 and for 1000 ms.
fn open_on(folder: u32, job: u32, room: usize) -> String {
    format!("desk.open {job} 15 4 102 - 1000 {folder} 0 {}\n", "a1".repeat(room))
}

/// Whose folder an opening may have, and the order of its numbers; the call scripts' example first.
fn folders() -> Vec<Check> {
    let open = |job: u32, folder: u32| open_on(folder, job, 20);
    let wrong = |words: &str| format!("desk.open {words} 3 0 a1\n");
    let (held, full) = (open(7, 3), open(9, 0).repeat(94));
    let largest = open(7, 4294967295);
    vec![
        calls(
            "the call scripts' example of a desk, a filter box and lanes",
            &[DESK_CALLS, BOX_CALLS, LANE_CALLS].concat(),
            &[DESK_ANSWERS, BOX_ANSWERS, LANE_ANSWERS].concat(),
        ),
        last_of("another job's folder", &[&held, &open(8, 3)], &format!("no 75 count=0 buf={}", "a1".repeat(20))),
        last_of("a job's own folder", &[&held, &open(7, 3)], "ok address=162 n=8 count=1 "),
        last_of("another folder", &[&held, &open(8, 2)], "ok address=162 n=8 count=1 "),
        last_of("no folder beside one", &[&held, &open(8, 0)], "ok address=162 n=8 count=1 "),
        last_of("no folder for both", &[&open(7, 0), &open(8, 0)], "ok address=162 n=8 count=1 "),
        last_of("the largest folder", &[&largest, &open(8, 4294967295)], "no 75 count=0 "),
        last_of("no folder past it", &["desk.open 7 15 4 102 - 1000 4294967296 0 a1"], "bad line"),
        last_of("a folder that is 3 in 16 bits", &[&held, &open(8, 65539)], "ok address=162 "),
        last_of("a folder that is 0 in 16 bits", &[&open(7, 65536), &open(8, 65536)], "no 75 count=0 "),
        last_of("a job that is 7 in 16 bits", &[&held, &open(65543, 3)], "no 75 count=0 "),
        last_of("10 ahead of 75", &[&held, &wrong("0 161 8 102 00 0")], "no 10 count=0 buf=a1"),
        last_of("11 ahead of 75", &[&held, &wrong("8 161 8 102 00 0")], "no 11 count=0 buf=a1"),
        last_of("12 ahead of 75", &[&held, &wrong("8 160 8 102 00 0")], "no 12 count=0 buf=a1"),
        last_of("13 ahead of 75", &[&held, &wrong("8 160 4 102 00 0")], "no 13 count=0 buf=a1"),
        last_of("14 ahead of 75", &[&held, &wrong("8 160 4 102 - 0")], "no 14 count=0 buf=a1"),
        last_of("75 ahead of 15", &[&held, &full, &open(8, 3)], "no 75 count=0 "),
        last_of("15 on a job's own folder", &[&held, &full, &open(7, 3)], "no 15 count=95 "),
        last_of("15 on another folder", &[&held, &full, &open(8, 2)], "no 15 count=95 "),
        last_of("75 ahead of 16", &[&held, &open_on(3, 8, 7)], "no 75 count=0 buf=a1"),
        last_of("16 on a job's own folder", &[&held, &open_on(3, 7, 7)], "no 16 count=1 buf=a1"),
        last_of("a refused one holds nothing", &[&open_on(3, 7, 7), &open(8, 3)], "ok address=161 "),
        last_of(
            "75 changes no ticket and no turn",
            &[&held, &open(8, 3), "desk.dump"],
            "ok turn=162 tickets=161:7:15:4:102:1000:0:3 closed=-",
        ),
        last_of("a fresh desk's folders", &[&held, "desk.new\n", &open(8, 3)], "ok address=161 "),
        last_of(
            "the box is on no folder",
            &["varia.new 9 16\nvaria.status 500 200 a1a1a1a1a1a1a1a1a1\ndesk.dump"],
            "ok turn=162 tickets=161:9:16:4:102:500:200:0 closed=-",
        ),
    ]
}

/// The folder of a ticket in the answers of each way to close it, and who may have it then: a job's other ticket holds
/// it on, an address that rests does not.
fn closed_folders() -> Vec<Check> {
    let open = |job: u32| open_on(3, job, 20);
    let (held, twice) = (open(7), open(7).repeat(2));
    let reply = "desk.reply 0da10f08663412965b0a 0000\n";
    let misfit = Message { dest: 161, source: 16, type_no: 8, register: 102, data: Vec::new() }.telegram();
    let misfit = format!("desk.reply {} -\n", hex(&misfit));
    let (cancel, expire, expire_all) = ("desk.cancel 7 161 40\n", "desk.expire 1000\n", "desk.expall 1000 1\n");
    vec![
        last_of("a reply's folder", &[&held, reply], "ok job=7 address=161 type=8 n=2 folder=3 buf=3412"),
        last_of("a cancel's folder", &[&held, cancel], "ok job=7 address=161 folder=3"),
        last_of("an expiry's folder", &[&held, expire], "ok job=7 address=161 folder=3"),
        last_of("the folders of all that expires", &[&twice, "desk.expall 1000 3"], "ok n=2 list=7:161:3,7:162:3,."),
        last_of("free after a reply", &[&held, reply, &open(8)], "ok address=162 "),
        last_of("free after a cancel", &[&held, cancel, &open(8)], "ok address=162 "),
        last_of("free after an expiry", &[&held, expire, &open(8)], "ok address=162 "),
        last_of("free after the expiry of all", &[&held, expire_all, &open(8)], "ok address=162 "),
        last_of("another's then", &[&held, cancel, &open(8), &open(7)], "no 75 count=0 "),
        last_of("held after a reply", &[&twice, reply, &open(8)], "no 75 count=0 "),
        last_of("held after a cancel", &[&twice, cancel, &open(8)], "no 75 count=0 "),
        last_of("held after an expiry", &[&twice, expire, &open(8)], "no 75 count=0 "),
        last_of("held after the expiry of all", &[&twice, expire_all, &open(8)], "no 75 count=0 "),
        last_of("held after a reply that misfits", &[&held, &misfit, &open(8)], "no 75 count=0 "),
        last_of("held after another's cancel", &[&held, "desk.cancel 8 161 40\n", &open(8)], "no 75 count=0 "),
        last_of("held while it is due", &[&held, "desk.expall 1000 0\n", &open(8)], "no 75 count=0 "),
    ]
}

/// A read of a job joins the lanes on this folder.
fn join_on(folder: u32, job: u32) -> String {
    format!("lane.join {job} 15 4 102 - 1000 {folder}\n")
}

/// A read of a job joins the lanes.
fn join(job: u32) -> String {
    join_on(0, job)
}

/// A grant at this clock with a room of so many bytes.
fn grant(clock: u32, room: usize) -> String {
    format!("lane.grant {clock} {}\n", if room == 0 { "-".to_string() } else { "a1".repeat(room) })
}

/// A check of how the last of these calls' answers begins.
fn last_of(name: &'static str, calls: &[&str], want: &str) -> Check {
    let said = answers(calls.concat().as_bytes());
    let got = said.lines().last().unwrap_or("").chars().take(want.len()).collect();
    Check { name, got, want: want.to_string() }
}

/// A check of what the lanes show after these calls: the lane last served, and what waits in each up to the last lane
/// that has something.
fn lanes_after(name: &'static str, calls: &[&str], last: usize, lanes: &[&str]) -> Check {
    let said = answers(format!("{}lane.dump\n", calls.concat()).as_bytes());
    let mut each = lanes.to_vec();
    each.resize(16, "-");
    let want = format!("ok last={last} lanes={}", each.join("|"));
    Check { name, got: said.lines().last().unwrap_or("").to_string(), want }
}

/// Both sides of 16 jobs and of 4 requests, and the numbers of joining.
fn lanes() -> Vec<Check> {
    let sixteen: String = (1..=16).map(join).collect();
    let four = join(1).repeat(4);
    let wrong = |job: u32| format!("lane.join {job} 15 4 102 - 60001 0\n");
    let request = "1:15:4:102:-:1000:0";
    vec![
        lanes_after("fresh lanes", &[], 16, &[]),
        last_of("the 16th job", &[&sixteen], "ok lane=16 at=1"),
        last_of("the 17th job", &[&sixteen, &join(17)], "no 71"),
        last_of("a job with a lane, though none is free", &[&sixteen, &join(3)], "ok lane=3 at=2"),
        last_of("the fourth request", &[&four], "ok lane=1 at=4"),
        last_of("the fifth request", &[&four, &join(1)], "no 72"),
        last_of("72 where no lane is free", &[&four, &sixteen, &join(1)], "no 72"),
        last_of("job 0 joins", &["lane.join 0 161 8 102 00 0 0"], "no 10"),
        last_of("module 161 joins", &["lane.join 1 161 8 102 00 0 0"], "no 11"),
        last_of("a datagram joins", &["lane.join 1 160 8 102 00 0 0"], "no 12"),
        last_of("a read with data joins", &["lane.join 1 160 4 102 00 0 0"], "no 13"),
        last_of("241 bytes join", &[&format!("lane.join 1 15 5 48 {} 1000 0", "5e".repeat(241))], "no 13"),
        last_of("240 bytes join", &[&format!("lane.join 1 15 5 48 {} 1000 0", "5e".repeat(240))], "ok lane=1 at=1"),
        last_of("no waiting time joins", &["lane.join 1 160 4 102 - 0 0"], "no 14"),
        last_of("14 ahead of 71", &[&sixteen, &wrong(17)], "no 14"),
        last_of("14 ahead of 72", &[&four, &wrong(1)], "no 14"),
        last_of("a folder that is no 32-bit number", &["lane.join 1 15 4 102 - 1000 4294967296"], "bad line"),
        lanes_after("no refused request waits", &[&four, &join(1), &wrong(2)], 16, &[&[request; 4].join(",")]),
        lanes_after("a fresh desk's lanes", &[&join(1), &join(2), &grant(0, 494), "desk.new\n"], 16, &[]),
    ]
}

/// Which request a grant opens, what it answers, and its numbers.
fn grants() -> Vec<Check> {
    let (buf, one, two) = ("a1".repeat(486), "1:15:4:102:-:1000:0", "2:15:4:102:-:1000:0");
    let (enough, short) = (grant(300, 494), grant(300, 493));
    let jobs = |jobs: &[u32]| jobs.iter().map(|job| join(*job)).collect::<String>();
    let open = format!("desk.open 9 15 4 102 - 1000 0 300 {}\n", "a1".repeat(20));
    let full = open.repeat(95);
    let book = "desk.reply 0da10f08663412965b0a 0000\n";
    vec![
        last_of(
            "494 bytes of room",
            &[&join(7), &enough],
            &format!("ok job=7 address=161 n=8 count=1 buf=0d0fa104669ee60a{buf}"),
        ),
        last_of("493 bytes of room", &[&join(7), &short], &format!("no 73 buf={}", "a1".repeat(493))),
        last_of("no room at all", &[&join(7), &grant(300, 0)], "no 73 buf=-"),
        last_of("73 ahead of 74", &[&short], "no 73 buf=a1"),
        last_of("nothing waiting", &[&enough], "no 74 buf=a1"),
        last_of("nothing more waiting", &[&join(7), &enough, &enough], "no 74 buf=a1"),
        last_of("the lowest lane at first", &[&jobs(&[5, 4, 3]), &enough], "ok job=5 address=161 "),
        last_of("then the next", &[&jobs(&[5, 4, 3]), &enough.repeat(2)], "ok job=4 address=162 "),
        last_of("by turns", &[&jobs(&[1, 1, 1, 2, 2]), &enough.repeat(3)], "ok job=1 address=163 "),
        last_of("round to the first", &[&jobs(&[1, 1, 2]), &enough.repeat(3)], "ok job=1 address=163 "),
        last_of("the only lane again", &[&jobs(&[1, 1]), &enough.repeat(2)], "ok job=1 address=162 "),
        lanes_after("what a grant leaves", &[&jobs(&[1, 2, 2]), &enough], 1, &["-", &[two; 2].join(",")]),
        lanes_after("an emptied lane for another", &[&jobs(&[2, 2]), &enough.repeat(2), &join(1)], 1, &[one]),
        last_of("that has its turn last", &[&jobs(&[2, 3]), &enough, &join(1), &enough], "ok job=3 address=162 "),
        last_of("a direct opening beside", &[&join(1), &open, &enough], "ok job=1 address=162 n=8 count=1 "),
        last_of("no address for a grant", &[&full, &join(1), &enough], "no 15 count=95 buf=a1"),
        last_of("73 ahead of 15", &[&full, &join(1), &short], "no 73 buf=a1"),
        last_of("74 on a full desk", &[&full, &enough], "no 74 buf=a1"),
        lanes_after("15 changes no lane", &[&full, &join(1), &enough], 16, &[one]),
        last_of("after 15", &[&full, &join(1), &enough, book, &enough], "ok job=1 address=161 n=8 count=1 "),
    ]
}

/// Tickets that grants opened: their waiting time, past which addresses they were opened, and long telegrams.
fn granted_tickets() -> Vec<Check> {
    let (enough, two) = (grant(5000, 494), [join(1), join(2)].concat());
    let open = |clock: u32| format!("desk.open 9 15 4 102 - 1 0 {clock} {}\n", "a1".repeat(20));
    let closed = [open(0).repeat(95), "desk.cancel 9 161 5000\ndesk.cancel 9 162 4000\n".to_string()].concat();
    let long = format!("lane.join 1 15 5 48 {} 1000 0\n", "5e".repeat(240));
    vec![
        last_of("not due before its time", &[&join(1), &enough, "desk.expire 5999"], "no 22"),
        last_of("due from the grant on", &[&join(1), &enough, "desk.expire 6000"], "ok job=1 address=161 folder=0"),
        last_of(
            "its ticket",
            &[&join(1), &enough, "desk.dump"],
            "ok turn=162 tickets=161:1:15:4:102:1000:5000:0 closed=-",
        ),
        last_of("a grant past one that rests", &[&closed, &two, &enough], "ok job=1 address=162 n=8 count=2 "),
        last_of("no more then", &[&closed, &two, &enough.repeat(2)], "no 15 count=95 "),
        last_of(
            "until the other has rested",
            &[&closed, &two, &enough, &grant(6000, 494)],
            "ok job=2 address=161 n=8 count=94 ",
        ),
        last_of("240 bytes granted", &[&long, &enough], "ok job=1 address=161 n=488 count=1 buf=0d0fa105305e9e5e9e"),
    ]
}

/// Requests on folders: which of them wait, are opened and are taken out, what is left then, and the numbers' order.
fn granted_folders() -> Vec<Check> {
    let (open, join) = (|job: u32| open_on(3, job, 20), |job: u32| join_on(3, job));
    let (held, full, enough, buf) = (open(7), open_on(0, 9, 20).repeat(94), grant(300, 494), "a1".repeat(494));
    let waits = [join(8), join_on(4, 8)].concat();
    let cancel = "desk.cancel 7 161 40\n";
    vec![
        last_of("a held folder joins", &[&held, &join(8)], "ok lane=1 at=1"),
        last_of("and is taken out", &[&held, &join(8), &enough], &format!("no 75 job=8 count=0 buf={buf}")),
        lanes_after("the lane is served then", &[&held, &join(8), &enough], 1, &[]),
        lanes_after("later ones move up", &[&held, &waits, &enough], 1, &["8:15:4:102:-:1000:4"]),
        last_of("and are granted", &[&held, &waits, &enough.repeat(2)], "ok job=8 address=162 n=8 count=1 "),
        last_of("the next lane's turn", &[&held, &waits, &join(7), &enough.repeat(2)], "ok job=7 address=162 "),
        last_of("nothing waits then", &[&held, &join(8), &enough.repeat(2)], "no 74 buf=a1"),
        last_of("nor can be withdrawn", &[&held, &join(8), &enough, "lane.withdraw 8 1"], "no 55"),
        last_of(
            "no ticket of it",
            &[&held, &join(8), &enough, "desk.dump"],
            "ok turn=162 tickets=161:7:15:4:102:1000:0:3 closed=-",
        ),
        last_of("taken out of a full desk", &[&held, &full, &join(8), &enough], "no 75 job=8 count=0 buf=a1"),
        lanes_after("and of its lane", &[&held, &full, &join(8), &enough], 1, &[]),
        last_of("its own folder on a full desk", &[&held, &full, &join(7), &enough], "no 15 count=95 buf=a1"),
        lanes_after("still waits", &[&held, &full, &join(7), &enough], 16, &["7:15:4:102:-:1000:3"]),
        last_of("73 ahead of 75", &[&held, &join(8), &grant(300, 493)], "no 73 buf=a1"),
        lanes_after("73 takes nothing out", &[&held, &join(8), &grant(300, 493)], 16, &["8:15:4:102:-:1000:3"]),
        last_of("what waits holds no folder", &[&join(7), &open(8)], "ok address=161 "),
        last_of("and loses it", &[&join(7), &open(8), &enough], "no 75 job=7 count=0 "),
        last_of("the first of two that wait", &[&join(7), &join(8), &enough], "ok job=7 address=161 "),
        last_of("the second", &[&join(7), &join(8), &enough.repeat(2)], "no 75 job=8 count=0 "),
        last_of("held when it joined only", &[&held, &join(8), cancel, &enough], "ok job=8 address=162 "),
        last_of("its own job's folder", &[&held, &join(7), &enough], "ok job=7 address=162 "),
        last_of(
            "a granted ticket's folder",
            &[&join(7), &enough, "desk.dump"],
            "ok turn=162 tickets=161:7:15:4:102:1000:300:3 closed=-",
        ),
        last_of("is held", &[&join(7), &enough, &open(8)], "no 75 count=0 "),
        last_of("until it is closed", &[&join(7), &enough, cancel, &open(8)], "ok address=162 "),
    ]
}

/// What a withdrawal leaves, and where there is nothing to withdraw.
fn withdrawals() -> Vec<Check> {
    let register = |register: u8| format!("lane.join 1 15 4 {register} - 1000 0\n");
    let three: String = [10, 20, 30].into_iter().map(register).collect();
    let (first, second, third) = ("1:15:4:10:-:1000:0", "1:15:4:20:-:1000:0", "1:15:4:30:-:1000:0");
    let withdraw = |place: &str| format!("lane.withdraw 1 {place}\n");
    let left =
        |name, place: &str, left: [&str; 2]| lanes_after(name, &[&three, &withdraw(place)], 16, &[&left.join(",")]);
    let none = |name, calls: &[&str]| last_of(name, calls, "no 55");
    vec![
        last_of("a withdrawal", &[&three, &withdraw("3")], "ok"),
        left("without the first", "1", [second, third]),
        left("without the second", "2", [first, third]),
        left("without the third", "3", [first, second]),
        none("place 0", &[&three, &withdraw("0")]),
        none("one place over", &[&three, &withdraw("4")]),
        none("a place past 32 bits", &[&three, &withdraw("4294967297")]),
        none("the largest place", &[&three, &withdraw("18446744073709551615")]),
        last_of("no place past it", &[&three, &withdraw("18446744073709551616")], "bad line"),
        none("another job's", &[&three, "lane.withdraw 2 1"]),
        none("job 0's", &["lane.withdraw 0 1"]),
        none("a granted one", &[&join(1), &grant(0, 494), &withdraw("1")]),
        lanes_after("the only one", &[&join(1), &join(2), &withdraw("1")], 16, &["-", "2:15:4:102:-:1000:0"]),
        last_of("its lane is another's", &[&join(1), &join(2), &withdraw("1"), &join(3)], "ok lane=1 at=1"),
        lanes_after("no turn is moved by it", &[&join(1), &join(1), &grant(0, 494), &withdraw("1")], 1, &[]),
    ]
}

/// The box's limits on both sides, and what needs a box.
fn filter_boxes() -> Vec<Check> {
    let on_a_box =
        |name, call: &str, want: &str| calls(name, &format!("varia.new 9 16\n{call}"), &format!("ok\n{want}"));
    let moving =
        |name, status: u16, want: u8| on_a_box(name, &format!("varia.moving {status}"), &format!("ok moving={want}"));
    vec![
        on_a_box("attenuation 1000", "varia.att 1000 1 0 a1", "no 16 count=1 buf=a1"),
        on_a_box("attenuation 1001, ahead of the desk's", "varia.att 1001 0 0 a1", "no 62 buf=a1"),
        on_a_box("no display of three bytes", "varia.display 010203 010203", "no 64"),
        on_a_box("two bytes on both sides", "varia.display 0102 0304", "ok which=fresh two=0102"),
        on_a_box("three fresh bytes", "varia.display 010203 0304", "ok which=kept two=0304"),
        on_a_box("a status that is no 16-bit number", "varia.moving 65536", "bad line"),
        moving("bit 11", 1 << 11, 0),
        moving("bit 12", 1 << 12, 1),
        moving("bit 13", 1 << 13, 1),
        moving("bit 14", 1 << 14, 1),
        moving("bit 15", 1 << 15, 0),
        moving("all bits but 12 to 14", 0x8FFF, 0),
        calls("no box", "varia.dump\nvaria.moving 0\nvaria.display 3412 -", "no box\nno box\nno box"),
        calls("no box on a fresh desk", "varia.new 9 16\ndesk.new\nvaria.dump", "ok\nok\nno box"),
    ]
}

/// What becomes of a short-pass edge of 600.0 nm, acknowledged, that 700.0 nm is asked for after; and the order of the
/// edges.
fn filter_edges() -> Vec<Check> {
    let ask = |edge: &str, value: u16| format!("varia.{edge} {value} 500 200 {}\n", "a1".repeat(20));
    let reply = |address: u8, type_no: u8, register: u8| {
        let message = Message { dest: address, source: 16, type_no, register, data: Vec::new() };
        format!("desk.reply {} -\n", hex(&message.telegram()))
    };
    let known = ["varia.new 9 16\n".to_string(), ask("short", 6000), reply(161, 3, 51)].concat();
    let last = |name, then: &str, want: &str| {
        let said = answers((known.clone() + then).as_bytes());
        let got = said.lines().last().unwrap_or("").chars().take(want.len()).collect();
        Check { name, got, want: want.to_string() }
    };
    let dumped = |name, end: &str, want: &str| last(name, &(ask("short", 7000) + end + "varia.dump"), want);
    vec![
        dumped("an edge request is out", "", "ok short=6000 long=? out=162:short:7000"),
        dumped("an ack", &reply(162, 3, 51), "ok short=7000 long=? out=-"),
        dumped("an ack without the register", &reply(162, 3, 0), "ok short=7000 long=? out=-"),
        dumped("a nack", &reply(162, 0, 51), "ok short=6000 long=? out=-"),
        dumped("a check error", &reply(162, 1, 51), "ok short=6000 long=? out=-"),
        dumped("busy", &reply(162, 2, 51), "ok short=6000 long=? out=-"),
        dumped("a cancel", "desk.cancel 9 162 300\n", "ok short=? long=? out=-"),
        dumped("an expiry", "desk.expire 700\n", "ok short=? long=? out=-"),
        dumped("an expiry of everything due", "desk.expall 700 95\n", "ok short=? long=? out=-"),
        dumped("no room for an expiry", "desk.expall 700 0\n", "ok short=6000 long=? out=162:short:7000"),
        dumped("an expiry of everything too early", "desk.expall 699 95\n", "ok short=6000 long=? out=162:short:7000"),
        dumped("an ack of another register", &reply(162, 3, 52), "ok short=6000 long=? out=162:short:7000"),
        dumped("another job's cancel", "desk.cancel 8 162 300\n", "ok short=6000 long=? out=162:short:7000"),
        last("equal edges", &ask("long", 6000), "no 63 buf=a1"),
        last("edges one apart", &ask("long", 5999), "ok address=162 "),
        last("59 ahead of 63", &(ask("short", 7000) + &ask("long", 6000)), "no 59 buf=a1"),
        last("an edge against itself", &ask("short", 1), "ok address=162 "),
    ]
}

/// The sample listing, and the listings the readings name.
fn listings() -> Vec<Check> {
    let nothing = "Interbus capture\nok 0 refused 0 dropped 0\n";
    let dropped = "Interbus capture\nat 0 dropped\nat 1 refused 4\nok 0 refused 1 dropped 1\n";
    vec![
        Check { name: "the sample listing", got: list(&SAMPLE_CAPTURE), want: SAMPLE_LISTING.to_string() },
        Check { name: "an empty capture", got: list(&[]), want: nothing.to_string() },
        Check { name: "0D 0D 0A", got: list(&[13, 13, 10]), want: dropped.to_string() },
        Check { name: "65536 bytes", got: list(&[10; 65536]), want: nothing.to_string() },
        Check { name: "65537 bytes", got: list(&[10; 65537]), want: nothing.to_string() },
    ]
}

/// Both sides of the 494 bytes, runaways, and the frame reader, which keeps its order.
fn long_frames() -> Vec<Check> {
    let listed = |name, capture: &[u8], want: &str| Check {
        name,
        got: list(capture),
        want: format!("Interbus capture\n{want}\n"),
    };
    let (most, over, runaway) = (wrong_frame(494), wrong_frame(495), &wrong_frame(501)[..500]);
    let dropped = [runaway, &[13, 10]].concat();
    vec![
        listed("493 bytes are read", &longest().telegram(), "at 0 ok 10 10 9 94 240\nok 1 refused 0 dropped 0"),
        listed("494 bytes are read", &all_substituted().telegram(), "at 0 refused 9\nok 0 refused 1 dropped 0"),
        listed("494 bytes with a fault of 3", &most, "at 0 refused 3 in 1\nok 0 refused 1 dropped 0"),
        listed("495 bytes with a fault of 3", &over, "at 0 refused 5\nok 0 refused 1 dropped 0"),
        listed("a runaway is open", runaway, "at 0 open\nok 0 refused 0 dropped 0"),
        listed("a runaway is dropped", &dropped, "at 0 dropped\nat 500 refused 4\nok 0 refused 1 dropped 1"),
        calls("the frame reader keeps its order", &format!("read {} a1", hex(&over)), "no 3 place=1 buf=a1"),
    ]
}

/// Number 3's place: the first faulty 94 between the ends, wherever it stands and whatever is before and behind it.
fn places() -> Vec<Check> {
    let read = |name, frame: &str, want: &str| calls(name, &format!("read {frame} a1"), &format!("{want} buf=a1"));
    vec![
        read("94 right after the start", "0d5e000f0330482f0a", "no 3 place=1"),
        read("94 just before the end", "0da20f0330482f5e0a", "no 3 place=7"),
        read("94 alone", "0d5e0a", "no 3 place=1"),
        read("two faulty ones", "0da25e410f5e42030a", "no 3 place=2"),
        read("the second at the end", "0da20f5e41035e0a", "no 3 place=3"),
        read("a right one before it", "0d5e4a0f5e41030a", "no 3 place=4"),
        read("three right ones before it", "0d5e4a5e4d5e9e5e410a", "no 3 place=7"),
        read("a right one behind it", "0da25e410f5e4a030a", "no 3 place=2"),
        read("5E 5E 4A", "0d5e5e4a0a", "no 3 place=1"),
        read("5E 5E 4A within", "0da20f5e5e4a030a", "no 3 place=3"),
        read("5E 4A 5E 5E 4A", "0d5e4a5e5e4a0a", "no 3 place=3"),
        read("5E 5E 5E 4A", "0d5e5e5e4a0a", "no 3 place=1"),
        read("5E 5E", "0d5e5e0a", "no 3 place=1"),
        read("5E 4A 5E", "0d5e4a5e0a", "no 3 place=3"),
        read("5E 4A 4A", "0d5e4a4a0a", "no 4"),
        read("a stray 13 behind it", "0da25e410f0d030a", "no 2"),
        read("a stray 10 before it", "0d0aa25e410f030a", "no 2"),
        read("94 and then a 13", "0da25e0d0f030a", "no 2"),
        read("94 and then two ends", "0da20f5e0a0a", "no 2"),
        read("no end byte", "0da20f5e41", "no 1"),
        read("no start byte", "5e410a", "no 1"),
    ]
}

/// The place in the answers of the bench and of the desk, which it leaves as they were, and past what a telegram has.
fn placed_calls() -> Vec<Check> {
    let far = format!("0d{}5e410a", "41".repeat(598));
    let on_bench = |name, frame: &str, want: &str| {
        calls(name, &format!("bench.new 15\nbench.tele {frame} a1"), &format!("ok\n{want} buf=a1"))
    };
    vec![
        on_bench("a place on the bench", "0d0fa2045e66c7b60a", "no 3 place=4"),
        on_bench("for another address", "0d10a2045e66c7b60a", "no 3 place=4"),
        on_bench("past 494 on the bench", &far, "no 3 place=599"),
        calls("past 494 in the reader", &format!("read {far} a1"), "no 3 place=599 buf=a1"),
        calls("past 494 at the desk", &format!("desk.reply {far} a1"), "no 3 place=599 buf=a1"),
        calls("ahead of 17", "desk.reply 0da10f08663412965b5e0a a1", "no 3 place=9 buf=a1"),
        calls(
            "the ticket stays open",
            "desk.open 7 15 4 102 - 1000 3 0 a1a2a3a4a5a6a7a8\ndesk.reply 0da10f08665e41965b0a a1\ndesk.dump",
            "ok address=161 n=8 count=1 buf=0d0fa104669ee60a\nno 3 place=5 buf=a1\n\
             ok turn=162 tickets=161:7:15:4:102:1000:0:3 closed=-",
        ),
    ]
}

/// The place in the listing's lines: from the frame's own start byte, in up to 494 bytes, and none with 5.
fn placed_lines() -> Vec<Check> {
    let last = |length: usize| [vec![13], vec![65; length - 3], vec![94, 10]].concat();
    let listed = |name, capture: &[u8], want: &str| Check {
        name,
        got: list(capture),
        want: format!("Interbus capture\n{want}\nok 0 refused 1 dropped 0\n"),
    };
    vec![
        listed("a place after other bytes", &[65, 94, 10, 94, 13, 162, 15, 94, 65, 10], "at 4 refused 3 in 3"),
        listed("493 bytes, the last one", &last(493), "at 0 refused 3 in 491"),
        listed("494 bytes, the last one", &last(494), "at 0 refused 3 in 492"),
        listed("495 bytes, the last one", &last(495), "at 0 refused 5"),
        calls(
            "cut behind the 94",
            "rx.new 1000\nrx.feed 5e0da20f5e4a5e\nrx.feed 410a\nrx.end",
            "ok\nok lines=\nok lines=at 1001 refused 3 in 5\nok text=ok 0 refused 1 dropped 0\\n",
        ),
        calls(
            "a start behind the 94",
            "rx.feed 0d5e0d5e0a\nrx.end",
            "ok lines=at 0 dropped;at 2 refused 3 in 1\nok text=ok 0 refused 1 dropped 1\\n",
        ),
    ]
}

/// The receiver's part of the call scripts' example, the sample capture byte by byte, the 494 bytes and a runaway in
/// chunks.
fn receivers() -> Vec<Check> {
    let each = |bytes: &[u8]| bytes.iter().map(|byte| format!("rx.feed {}\n", hex(&[*byte]))).collect::<String>();
    let in_two = |bytes: &[u8]| format!("rx.feed {}\nrx.feed {}\n", hex(&bytes[..493]), hex(&bytes[493..]));
    vec![
        calls("the receiver's example", RECEIVER_CALLS, RECEIVER_ANSWERS),
        calls("no receiver made yet", "rx.end", "ok text=ok 0 refused 0 dropped 0\\n"),
        calls(
            "the sample in one chunk",
            &format!("rx.feed {}\nrx.end", hex(&SAMPLE_CAPTURE)),
            "ok lines=at 0 ok 162 15 3 48 0;at 8 refused 4\nok text=at 10 open\\nok 1 refused 1 dropped 0\\n",
        ),
        calls("the sample byte by byte", &(each(&SAMPLE_CAPTURE) + "rx.end"), &sample_by_bytes()),
        calls("494 bytes in chunks", &in_two(&wrong_frame(494)), "ok lines=\nok lines=at 0 refused 3 in 1"),
        calls("495 bytes in chunks", &in_two(&wrong_frame(495)), "ok lines=\nok lines=at 0 refused 5"),
        calls(
            "a runaway in chunks",
            &(in_two(&wrong_frame(501)[..500]) + "rx.end\nrx.feed 0d0a\nrx.end"),
            "ok lines=\nok lines=\nok text=at 0 open\\nok 0 refused 0 dropped 0\\n\n\
             ok lines=at 0 dropped;at 500 refused 4\nok text=ok 0 refused 1 dropped 1\\n",
        ),
    ]
}

/// The answers to the sample capture byte by byte: its two lines come with the 10 that ends their frame.
fn sample_by_bytes() -> String {
    let none = "ok lines=\n";
    let (read, refused) = ("ok lines=at 0 ok 162 15 3 48 0\n", "ok lines=at 8 refused 4\n");
    let rest = "ok text=at 10 open\\nok 1 refused 1 dropped 0\\n";
    [&none.repeat(7), read, none, refused, none, none, rest].concat()
}

/// Both sides of number 60: a chunk up to the largest place is taken, of one byte more none is.
fn last_places() -> Vec<Check> {
    let new = |place: &str, feeds: &str| format!("rx.new {place}\n{feeds}");
    vec![
        calls(
            "a chunk up to the largest place",
            &new("18446744073709551613", "rx.feed 0d0a\nrx.feed -\nrx.feed 0d\nrx.end"),
            "ok\nok lines=at 18446744073709551613 refused 4\nok lines=\nno 60 taken=0 lines=\n\
             ok text=ok 0 refused 1 dropped 0\\n",
        ),
        calls(
            "a chunk of one byte more",
            &new("18446744073709551613", "rx.feed 0d0a0d\nrx.end\nrx.feed 0d0d\nrx.end"),
            "ok\nno 60 taken=0 lines=\nok text=ok 0 refused 0 dropped 0\\n\nok lines=at 18446744073709551613 dropped\n\
             ok text=at 18446744073709551614 open\\nok 0 refused 0 dropped 1\\n",
        ),
        calls(
            "no place past the largest",
            &new("18446744073709551616", "rx.end"),
            "bad line\nok text=ok 0 refused 0 dropped 0\\n",
        ),
    ]
}

/// All parts of the call scripts' later example in their order, and the one about changed sheets alone.
fn later_example() -> Vec<Check> {
    let asked = [DESK_CALLS, RECEIVER_CALLS, BOX_CALLS, SHEET_CALLS, EDIT_CALLS, LANE_CALLS, SCAN_CALLS];
    let said = [DESK_ANSWERS, RECEIVER_ANSWERS, BOX_ANSWERS, SHEET_ANSWERS, EDIT_ANSWERS, LANE_ANSWERS, SCAN_ANSWERS];
    vec![
        calls("the call scripts' later example", &asked.concat(), &said.concat()),
        calls("the call scripts' example of changed sheets", EDIT_CALLS, EDIT_ANSWERS),
    ]
}

/// The sheets' part of the call scripts' example, the empty sheet, both sides of the most settings and of the most
/// bytes of a value, and rooms.
fn sheets() -> Vec<Check> {
    let many = |count: usize| {
        let each: Vec<String> = (0..count).map(|register| format!("1:{register}:1:1:a1")).collect();
        each.join(";")
    };
    let written = |name, settings: &str, room: usize, want: &str| {
        let said = answers(format!("sheet.write {settings} {}", "ee".repeat(room)).as_bytes());
        Check { name, got: said.chars().take(want.len()).collect(), want: want.to_string() }
    };
    let value = |kind: u8, count: u8, bytes: usize| format!("160:255:{kind}:{count}:{}", "a1".repeat(bytes));
    let empty = "010000000c0000000c000000";
    let one = "010001000c000000140000000f300301000000003412";
    vec![
        calls("the call scripts' example of a sheet", SHEET_CALLS, SHEET_ANSWERS),
        calls("no settings", "sheet.write - eeeeeeeeeeeeeeeeeeeeeeeeee", &format!("ok n=12 buf={empty}ee")),
        calls("the empty sheet", &format!("sheet.check {empty}"), "ok count=0"),
        calls("the empty sheet and a 13th byte", &format!("sheet.check {empty}00"), "no 70"),
        calls("no record of the empty sheet", &format!("sheet.read {empty} 0 -"), "no 56 buf=-"),
        written("128 settings", &many(128), 1164, "ok n=1164 "),
        written("129 settings", &many(129), 1200, "no 79 "),
        written("200 settings", &many(200), 1, "no 79 "),
        calls("201 settings are no call", &format!("sheet.write {} -", many(201)), "bad line"),
        written("240 of U8", &value(1, 240, 240), 260, "ok n=260 "),
        written("241 of U8", &value(1, 241, 241), 261, "no 69 "),
        written("120 of I16", &value(4, 120, 240), 260, "ok n=260 "),
        written("121 of I16", &value(4, 121, 242), 262, "no 69 "),
        written("30 of U64", &value(7, 30, 240), 260, "ok n=260 "),
        written("31 of U64", &value(7, 31, 248), 268, "no 69 "),
        written("a room one short", &value(7, 30, 240), 259, "no 57 "),
        calls(
            "a value with room",
            &format!("sheet.read {one} 0 eeeeee"),
            "ok module=15 reg=48 kind=3 count=1 n=2 buf=3412ee",
        ),
        calls("a value without", &format!("sheet.read {one} 0 ee"), "no 57 buf=ee"),
        calls("56 ahead of 57", &format!("sheet.read {one} 1 -"), "no 56 buf=-"),
        calls("the largest index", &format!("sheet.read {one} 18446744073709551615 eeee"), "no 56 buf=eeee"),
    ]
}

/// The writer's numbers and their order: 79, 68, 69, 57, each over all settings before the next.
fn unwritten_sheets() -> Vec<Check> {
    let refused = |name, settings: &str, want: &str| {
        calls(name, &format!("sheet.write {settings} ee"), &format!("no {want} buf=ee"))
    };
    vec![
        refused("equal settings", "15:48:1:1:a1;15:48:1:1:a1", "68"),
        refused("a lower register", "15:48:1:1:a1;15:47:1:1:a1", "68"),
        refused("a lower module", "15:48:1:1:a1;14:49:1:1:a1", "68"),
        refused("a lower register of a higher module", "15:48:1:1:a1;16:47:1:1:a1", "57"),
        refused("module 0", "0:48:1:1:a1", "69"),
        refused("module 161", "161:48:1:1:a1", "69"),
        refused("kind 0", "15:48:0:1:a1", "69"),
        refused("kind 8", "15:48:8:1:a1", "69"),
        refused("no elements", "15:48:1:0:-", "69"),
        refused("a value one short", "15:48:3:1:a1", "69"),
        refused("a value one long", "15:48:3:1:a1a2a3", "69"),
        refused("68 behind 69's setting", "15:48:8:1:a1;15:49:1:1:a1;15:49:1:1:a1", "68"),
        refused("68 before 69's setting", "15:48:1:1:a1;15:48:1:1:a1;15:49:8:1:a1", "68"),
        refused("79 with all the others", &vec!["0:0:0:0:-"; 129].join(";"), "79"),
    ]
}

/// The reader's numbers and their order: 65 to 70, each over the whole sheet before the next.
fn wrong_sheets() -> Vec<Check> {
    let sheet = |header: &str, records: &str, values: &str| format!("{header}{records}{values}").replace(' ', "");
    let refused = |name, sheet: String, want: &str| calls(name, &format!("sheet.check {sheet}"), want);
    let (right, first, second) = ("0100 0200 0c000000 1c000000", "0f300301 00000000", "0f320102 02000000");
    let two = [first, second].concat();
    vec![
        refused("two records", sheet(right, &two, "34120102"), "ok count=2"),
        refused("11 bytes", sheet("0200 ffff 0d000000 ffffff", "", ""), "no 65"),
        refused("version 2 ahead of a wrong header", sheet("0200 ffff 0d000000 ffffffff", "", ""), "no 66"),
        refused("version 257", sheet("0101 0200 0c000000 1c000000", &two, "34120102"), "no 66"),
        refused("the records' offset", sheet("0100 0200 0d000000 1c000000", &two, "34120102"), "no 67"),
        refused("the values' offset", sheet("0100 0200 0c000000 1d000000", &two, "34120102"), "no 67"),
        refused("one record too few", sheet("0100 0100 0c000000 1c000000", &two, "34120102"), "no 67"),
        refused("shorter than the values' offset", sheet(right, first, "0f320102020000"), "no 67"),
        refused("no value at all", sheet(right, &two, ""), "no 70"),
        refused("one byte less", sheet(right, &two, "341201"), "no 70"),
        refused("one byte more", sheet(right, &two, "3412010200"), "no 70"),
        refused("one record twice", sheet(right, &[first, first].concat(), "34120102"), "no 68"),
        refused("records exchanged", sheet(right, &[second, first].concat(), "34120102"), "no 68"),
        refused("68 behind 69's record", sheet(right, "0f320801 00000000 0f320102 09000000", "34"), "no 68"),
        refused("kind 8 ahead of an offset", sheet(right, "0f300301 09000000 0f320802 02000000", "34"), "no 69"),
        refused("an offset one more", sheet(right, "0f300301 00000000 0f320102 03000000", "34120102"), "no 70"),
        refused("an offset with a high byte", sheet(right, "0f300301 00000000 0f320102 02000080", "34120102"), "no 70"),
        refused("offsets from the start", sheet(right, "0f300301 1c000000 0f320102 1e000000", "34120102"), "no 70"),
    ]
}
