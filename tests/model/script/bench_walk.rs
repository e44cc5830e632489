//! Walks over the bench: registers of all kinds and rights, and telegrams of every sort.

use super::numbers::{fitting, number, unfitting};
use super::{buffer, room, too_little, Script};
use crate::bench::{Bench, MOST_REGISTERS};
use crate::calls::hex;
use crate::faults::{address, broken, data, flip_within_16, spoil, BREAKS};
use crate::random::Random;
use crate::telegram::{frame, Message, No};
use crate::values::KINDS;

/// The start of every script: calls on a bench that was never made, refused makings between them.
pub fn no_bench_yet(script: &mut Script) {
    for refused in ["bench.new 0", "bench.new 161", "bench.new 255"] {
        for line in [
            "bench.dump",
            "bench.add 49 4 3",
            "bench.add 49 9 9",
            "bench.set 49 -5",
            "bench.tele 0d0a a1a2",
            "bench.tele - -",
        ] {
            script.call(line);
        }
        for line in ["bench.dump 1", "bench.add 49 4", "bench.set 49 x", "bench.tele 0d0a", refused] {
            script.call(line);
        }
    }
}

/// Makes a fresh bench on an address near a limit or a special byte, or on any.
pub fn new_bench(script: &mut Script) {
    let random = &mut script.random;
    let own = if random.one_in(2) { random.between(1, 160) as u8 } else { random.pick(&[1, 10, 13, 15, 94, 159, 160]) };
    script.call(format!("bench.new {own}"));
}

/// A bench that is not made: the one there was stays.
fn refused_bench(script: &mut Script) {
    let own = script.random.pick(&[0, 161, 162, 255]);
    script.call(format!("bench.new {own}"));
    script.call("bench.dump");
}

/// The bench as the script has it now.
pub fn bench(script: &Script) -> Bench {
    script.rehearsal.bench.clone().expect("a walk makes its bench first")
}

/// A register the bench holds.
fn held(random: &mut Random, bench: &Bench) -> Option<u8> {
    let numbers: Vec<u8> = bench.registers.keys().copied().collect();
    (!numbers.is_empty()).then(|| random.pick(&numbers))
}

/// A register the bench does not hold.
pub fn unheld(random: &mut Random, bench: &Bench) -> u8 {
    let numbers: Vec<u8> = (0..=255).filter(|number| !bench.registers.contains_key(number)).collect();
    random.pick(&numbers)
}

/// Adds so many registers, going through all pairs of kind and rights, and sets half of them.
fn add(script: &mut Script, registers: usize) {
    let first = script.random.below(7 * 8);
    for pair in first..first + registers {
        let bench = bench(script);
        let register = unheld(&mut script.random, &bench);
        let (kind, rights) = (KINDS[pair % 7], pair % 8);
        script.call(format!("bench.add {register} {kind} {rights}"));
        if script.random.one_in(2) {
            set(script, register, kind);
        }
    }
}

/// Adds a register of any kind with every right.
fn add_free(script: &mut Script) {
    let bench = bench(script);
    let (register, kind) = (unheld(&mut script.random, &bench), script.random.pick(&KINDS));
    script.call(format!("bench.add {register} {kind} 7"));
}

/// Sets a register to a number of its kind or, now and then, past its ends.
pub fn set(script: &mut Script, register: u8, kind: u8) {
    let value =
        if script.random.one_in(4) { number(&mut script.random, kind) } else { fitting(&mut script.random, kind) };
    script.call(format!("bench.set {register} {value}"));
}

/// An adding that is refused with this row (33 only by a full bench), with later faults by chance.
fn refused_add(script: &mut Script, row: No) {
    let bench = bench(script);
    let random = &mut script.random;
    let has: Vec<bool> = (30..=32).map(|no| no == row || (no > row && random.one_in(3))).collect();
    let kind = if has[0] { random.pick(&[0, 8, 9, 255]) } else { random.pick(&KINDS) };
    let rights = if has[1] { random.pick(&[8, 9, 15, 255]) } else { random.below(8) };
    let known = held(random, &bench).filter(|_| has[2]);
    let register = known.unwrap_or_else(|| unheld(random, &bench));
    script.call(format!("bench.add {register} {kind} {rights}"));
}

/// A setting that is refused: no such register, or a number past the ends of the kind.
fn refused_set(script: &mut Script) {
    let bench = bench(script);
    let random = &mut script.random;
    let known = if random.one_in(2) { None } else { held(random, &bench) };
    let register = known.unwrap_or_else(|| unheld(random, &bench));
    let kind = bench.registers.get(&register).map_or(1, |held| held.kind);
    let value = unfitting(random, kind);
    script.call(format!("bench.set {register} {value}"));
}

/// Registers added and set, rightly and wrongly.
pub fn registers(script: &mut Script) {
    new_bench(script);
    script.call("bench.dump");
    for row in [30, 31, 32].iter().cycle().take(24) {
        add(script, 1);
        refused_add(script, *row);
        refused_set(script);
    }
    script.call("bench.dump");
    refused_bench(script);
}

/// A bench filled to 32 registers, the 33rd refused, and telegrams to the full bench.
pub fn full_bench(script: &mut Script) {
    new_bench(script);
    add(script, MOST_REGISTERS);
    for row in [33, 33, 32, 31, 30].iter().cycle().take(20) {
        refused_add(script, *row);
    }
    refused_bench(script);
    walk(script, 40);
}

/// A bench with a few registers and many telegrams.
pub fn telegrams(script: &mut Script) {
    new_bench(script);
    add(script, 8);
    for _ in 0..script.random.below(9) {
        add_free(script);
    }
    walk(script, 130);
}

/// A bench that is silent to telegrams whose substitution is broken, in each way there is, and answers others between
/// them.
pub fn broken_telegrams(script: &mut Script) {
    new_bench(script);
    add(script, 8);
    for way in BREAKS.iter().cycle().take(BREAKS.len() * 2) {
        let bench = bench(script);
        let asked = request(&mut script.random, &bench);
        for frame in broken(&mut script.random, &asked, *way) {
            let room = script.random.pick(&[0, 8, 20]);
            tele(script, &frame, room);
        }
        right_telegram(script);
    }
    script.call("bench.dump");
}

/// So many steps over the bench there is, a dump after every few.
fn walk(script: &mut Script, steps: usize) {
    for step in 0..steps {
        match script.random.below(20) {
            0..=10 => right_telegram(script),
            11 => short_buffer(script),
            12..=16 => silent_telegram(script),
            17 => altered_telegram(script),
            18 => refused_set(script),
            _ => set_held(script),
        }
        if step % 4 == 3 {
            script.call("bench.dump");
        }
    }
    script.call("bench.dump");
}

/// The tester sets a held register.
fn set_held(script: &mut Script) {
    let bench = bench(script);
    if let Some(register) = held(&mut script.random, &bench) {
        set(script, register, bench.registers[&register].kind);
    }
}

/// A telegram for the bench: any request, mostly of a held register and of the right size.
fn request(random: &mut Random, bench: &Bench) -> Message {
    let known = if random.one_in(8) { None } else { held(random, bench) };
    let register = known.unwrap_or_else(|| unheld(random, bench));
    let type_no = random.pick(&[4, 4, 4, 5, 5, 6, 7, 9]);
    let size = bench.registers.get(&register).map_or(2, |held| held.value.len());
    let right = if type_no == 4 { 0 } else { size };
    let length = match random.below(6) {
        0 => random.pick(&[0, 1, size - 1, size + 1, 2 * size, 240]),
        _ => right,
    };
    let source = if random.one_in(8) { bench.address } else { address(random) };
    Message { dest: bench.address, source, type_no, register, data: data(random, length) }
}

/// The length of the reply the bench would send, or of a short one where it stays silent.
fn reply_length(bench: &Bench, frame: &[u8]) -> usize {
    bench.clone().tele(frame, usize::MAX).map_or(8, |reply| reply.len())
}

/// Adds a telegram for the bench with a buffer of that length.
pub fn tele(script: &mut Script, frame: &[u8], room: usize) {
    script.call(format!("bench.tele {} {}", hex(frame), hex(&buffer(room))));
}

/// A telegram the bench answers, with buffers around the very length of the reply.
fn right_telegram(script: &mut Script) {
    let bench = bench(script);
    let frame = request(&mut script.random, &bench).telegram();
    let room = room(&mut script.random, reply_length(&bench, &frame));
    tele(script, &frame, room);
}

/// A telegram whose reply has no room, and a dump to show that nothing was written.
fn short_buffer(script: &mut Script) {
    let bench = bench(script);
    let frame = request(&mut script.random, &bench).telegram();
    let room = too_little(&mut script.random, reply_length(&bench, &frame));
    tele(script, &frame, room);
    script.call("bench.dump");
}

/// A telegram the bench is silent to, for one of the rows, with faults of later rows by chance.
fn silent_telegram(script: &mut Script) {
    let bench = bench(script);
    let random = &mut script.random;
    let row = random.pick(&[1, 2, 3, 4, 5, 7, 8, 9, 35, 35, 36, 36]);
    let mut asked = request(random, &bench);
    if row == 35 || (row < 35 && random.one_in(4)) {
        asked.dest = random.pick(&[1, 160, 161, 255, asked.dest ^ 1, asked.dest ^ 128]);
    }
    if row == 36 || random.one_in(4) {
        asked.type_no = random.pick(&[0, 1, 2, 3, 8]);
    }
    let frame = if row < 35 { spoil(random, &asked, row) } else { asked.telegram() };
    let room = room(random, reply_length(&bench, &frame));
    tele(script, &frame, room);
}

/// A right telegram altered within 16 neighbouring bits: silence, and no register changed.
fn altered_telegram(script: &mut Script) {
    let bench = bench(script);
    let mut bytes = request(&mut script.random, &bench).bytes();
    flip_within_16(&mut script.random, &mut bytes);
    tele(script, &frame(&bytes), 20);
    script.call("bench.dump");
}
