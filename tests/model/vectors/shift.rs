//! The model held against what the papers say of the tally and of the scan.

use super::{calls, Check};
use crate::calls::{answers, hex};
use crate::faults::wrong_frame;
use crate::telegram::Message;

/// A check that the last of these lines gets this very answer.
fn after(name: &'static str, calls: &[&str], want: &str) -> Check {
    let said = answers(calls.join("\n").as_bytes());
    Check { name, got: said.lines().last().unwrap_or("").to_string(), want: want.to_string() }
}

/// The tally: which lines it counts, and what clears it.
pub fn tallies() -> Vec<Check> {
    let fed = |name, calls: &str, want: &str| after(name, &[calls, "tally.get"], want);
    let long = hex(&wrong_frame(495));
    vec![
        fed("a tally that nobody has set", "rx.new 0", "ok read=0 refused=0 dropped=0"),
        fed("a frame read", "rx.feed 0da20f0330482f0a", "ok read=1 refused=0 dropped=0"),
        fed("a frame refused", "rx.feed 0d5e410a", "ok read=0 refused=1 dropped=0"),
        fed("a frame refused for its length", &format!("rx.feed {long}"), "ok read=0 refused=1 dropped=0"),
        fed("a frame dropped", "rx.feed 0d0d", "ok read=0 refused=0 dropped=1"),
        fed("an open frame", "rx.feed 410a0d41", "ok read=0 refused=0 dropped=0"),
        fed("a frame over two chunks", "rx.feed 0da2\nrx.feed 0f0330482f0a", "ok read=1 refused=0 dropped=0"),
        fed("all three", "rx.feed 0d0da20f0330482f0a0d0a", "ok read=1 refused=1 dropped=1"),
        fed("a fresh receiver", "rx.feed 0d0a\nrx.new 0", "ok read=0 refused=1 dropped=0"),
        fed("a fresh desk", "rx.feed 0d0a\ndesk.new", "ok read=0 refused=1 dropped=0"),
        fed("the end of a capture", "rx.feed 0d0a0d\nrx.end", "ok read=0 refused=1 dropped=0"),
        fed("cleared", "rx.feed 0d0a\ntally.set 0 0 0\nrx.feed 0d0d", "ok read=0 refused=0 dropped=1"),
        fed("set", "tally.set 1 4294967294 3\nrx.feed 0d0a", "ok read=1 refused=4294967295 dropped=3"),
        fed("one past its type", "tally.set 1 2 3\ntally.set 4 4294967296 4", "ok read=1 refused=2 dropped=3"),
        fed("60 counts nothing", "rx.new 18446744073709551615\nrx.feed 0d0a", "ok read=0 refused=0 dropped=0"),
    ]
}

/// Number 76 on both sides, its steps, and its order with 60.
pub fn full_tallies() -> Vec<Check> {
    let with = |name, tally: &str, feeds: &[&str], want: &str| {
        after(name, &[&format!("tally.set {tally}"), &feeds.join("\n")], want)
    };
    let (ack, full) = ("0da20f0330482f0a", "4294967295 4294967295 4294967295");
    let at_last = |chunk: &str| format!("rx.new 18446744073709551614\nrx.feed {chunk}");
    let read = |tally, want| with("the last that is read", tally, &[&format!("rx.feed {ack}")], want);
    vec![
        read("4294967294 0 0", "ok lines=at 0 ok 162 15 3 48 0"),
        read("4294967295 0 0", "no 76 taken=0 lines="),
        read("0 4294967295 4294967295", "ok lines=at 0 ok 162 15 3 48 0"),
        with("the last that is refused", "0 4294967294 0", &["rx.feed 0d0a"], "ok lines=at 0 refused 4"),
        with("one more that is refused", "0 4294967295 0", &["rx.feed 0d0a"], "no 76 taken=0 lines="),
        with("the last that is dropped", "0 0 4294967294", &["rx.feed 0d0d"], "ok lines=at 0 dropped"),
        with("one more that is dropped", "0 0 4294967295", &["rx.feed 0d0d"], "no 76 taken=0 lines="),
        with(
            "76 leaves the tally",
            "4 4294967295 9",
            &["rx.feed 0d0a", "tally.get"],
            "ok read=4 refused=4294967295 dropped=9",
        ),
        with("no bytes at full numbers", full, &["rx.feed -"], "ok lines="),
        with("no line at full numbers", full, &["rx.feed 410a0d41"], "ok lines="),
        with(
            "open at full numbers",
            full,
            &["rx.feed 0d", "rx.end"],
            "ok text=at 0 open\\nok 0 refused 0 dropped 0\\n",
        ),
        with(
            "steps before 76 stay done",
            "0 4294967294 0",
            &[&format!("rx.feed 0d0a41{ack}410d410a0d0a")],
            "no 76 taken=11 lines=at 0 refused 4;at 3 ok 162 15 3 48 0",
        ),
        with(
            "and the refused one takes no byte",
            "0 4294967294 0",
            &["rx.feed 0d0a410d410a", "rx.end"],
            "ok text=ok 0 refused 1 dropped 0\\n",
        ),
        with(
            "the rest once it is cleared",
            "0 4294967294 0",
            &["rx.feed 0d0a410d410a", "tally.set 0 0 0", "rx.feed 410d410a"],
            "ok lines=at 3 refused 4",
        ),
        with("76 ahead of 60", "0 4294967295 0", &[&at_last("0d0a41")], "no 76 taken=0 lines="),
        with(
            "76 ahead of 60, no place for its line",
            "0 4294967295 0",
            &[&at_last("4141410d0a")],
            "no 76 taken=0 lines=",
        ),
        with("60 with another's number full", "4294967295 0 4294967295", &[&at_last("0d0a41")], "no 60 taken=0 lines="),
        with("60 ahead of a later line's 76", "0 0 4294967295", &[&at_last("0d0a0d0d")], "no 60 taken=0 lines="),
        with("60 without a line", full, &[&at_last("0d4141")], "no 60 taken=0 lines="),
        with("the last place at full numbers", full, &[&at_last("0d")], "ok lines="),
    ]
}

/// A step of the scan at this clock.
fn step(clock: u32, room: usize) -> String {
    format!("scan.step {clock} {}", "a1".repeat(room.max(1)))
}

/// A datagram of register 61h, or another reply, from a module to this address.
fn answer(address: u8, module: u8, type_no: u8, register: u8) -> String {
    let reply = Message { dest: address, source: module, type_no, register, data: Vec::new() };
    format!("desk.reply {} -", hex(&reply.telegram()))
}

/// What a step of the scan says, and what needs a scan.
pub fn scans() -> Vec<Check> {
    let first = "scan.new 5";
    let fill = vec![format!("desk.open 1 15 4 102 - 60000 0 0 {}", "a1".repeat(20)); 95].join("\n");
    let each: Vec<String> =
        (0..160).flat_map(|turn| [step(0, 12), answer(161 + (turn % 95) as u8, turn as u8 + 1, 8, 97)]).collect();
    let up_to = |turns: usize| format!("{first}\n{}", each[..2 * turns].join("\n"));
    vec![
        calls("no scan", "scan.step 0 a1\nscan.dump", "no scan\nno scan"),
        calls("no scan on a fresh desk", "scan.new 5\ndesk.new\nscan.dump", "ok\nok\nno scan"),
        calls("a scan before its first turn", "scan.new 5\nscan.dump", "ok\nok done=0 turns=0 out=- results=-"),
        after("a turn", &[first, &step(0, 8)], "ok address=161 module=1 n=8 count=1 buf=0d01a104614c5b0a"),
        after("its ticket", &[first, &step(7, 9), "desk.dump"], "ok turn=162 tickets=161:5:1:4:97:100:7:0 closed=-"),
        after("a room one short", &[first, &step(0, 7)], "no 16 count=1 buf=a1a1a1a1a1a1a1"),
        after("a room one short is no turn", &[first, &step(0, 7), "scan.dump"], "ok done=0 turns=0 out=- results=-"),
        after("waiting", &[first, &step(0, 8), &step(100, 1)], "ok waiting=161 buf=a1"),
        after("job 0", &["scan.new 0", &step(0, 12), &step(9, 1)], "no 10 count=0 buf=a1"),
        after("a full desk", &[&fill, first, &step(0, 1)], "no 15 count=95 buf=a1"),
        after(
            "a full desk is no turn",
            &[&fill, first, &step(0, 12), "scan.dump"],
            "ok done=0 turns=0 out=- results=-",
        ),
        after(
            "the next module",
            &[&up_to(1), &step(0, 12)],
            "ok address=162 module=2 n=8 count=1 buf=0d02a204618ed70aa1a1a1a1",
        ),
        after(
            "159 turns",
            &[&up_to(159), "scan.dump"],
            &format!("ok done=0 turns=159 out=- results={}", "1".repeat(159)),
        ),
        after(
            "160 turns",
            &[&up_to(160), "scan.dump"],
            &format!("ok done=1 turns=160 out=- results={}", "1".repeat(160)),
        ),
        after("a step after that", &[&up_to(160), &step(0, 12)], "ok done=1 buf=a1a1a1a1a1a1a1a1a1a1a1a1"),
        after("a scan made anew", &[&up_to(160), "scan.new 5", "scan.dump"], "ok done=0 turns=0 out=- results=-"),
        after(
            "a job one past its type",
            &[first, &step(0, 8), "scan.new 4294967296", &step(0, 1)],
            "ok waiting=161 buf=a1",
        ),
    ]
}

/// What becomes of the first turn, by how its ticket ends; and what doesn't end it.
pub fn ended_turns() -> Vec<Check> {
    let ended = |name, calls: &[&str], want: &str| {
        let start = format!("scan.new 5\n{}", step(0, 8));
        after(name, &[&start, &calls.join("\n"), "scan.dump"], want)
    };
    let (absent, one, two) =
        ("ok done=0 turns=1 out=- results=a", "ok done=0 turns=1 out=- results=1", "ok done=0 turns=1 out=- results=2");
    let out = "ok done=0 turns=0 out=161 results=-";
    let beside = format!("desk.open 5 1 4 97 - 100 0 0 {}", "a1".repeat(12));
    vec![
        ended("a datagram", &[&answer(161, 1, 8, 97)], one),
        ended("a nack", &[&answer(161, 1, 0, 97)], two),
        ended("a check error", &[&answer(161, 1, 1, 97)], two),
        ended("busy", &[&answer(161, 1, 2, 97)], two),
        ended("a nack without the register", &[&answer(161, 1, 0, 0)], two),
        ended("a cancelled turn", &["desk.cancel 5 161 0"], absent),
        ended("an expired turn", &["desk.expire 100"], absent),
        ended("one of everything due", &["desk.expall 100 1"], absent),
        ended("a datagram when it is due", &["desk.expire 99", &step(100, 1), &answer(161, 1, 8, 97)], one),
        ended("no room in the list", &["desk.expall 100 0"], out),
        ended("not due yet", &["desk.expire 99", "desk.expall 99 95"], out),
        ended("an ack", &[&answer(161, 1, 3, 97)], out),
        ended("another module's datagram", &[&answer(161, 2, 8, 97)], out),
        ended("a datagram of another register", &[&answer(161, 1, 8, 98)], out),
        ended("another job's cancelling", &["desk.cancel 6 161 0"], out),
        ended("a ticket like it, booked", &[&beside, &answer(162, 1, 8, 97)], out),
        ended("a ticket like it, cancelled", &[&beside, "desk.cancel 5 162 0"], out),
        ended("a datagram after the cancel", &["desk.cancel 5 161 0", &answer(161, 1, 8, 97)], absent),
        ended(
            "a scan made anew meanwhile",
            &["scan.new 5", &answer(161, 1, 8, 97)],
            "ok done=0 turns=0 out=- results=-",
        ),
    ]
}
