//! Walks under noise that is no burst: telegrams that would be read, booked or done, first with an odd number of bits
//! altered, or two, then as they are.

use super::bench_walk::{bench, new_bench, set, tele, unheld};
use super::desk_walk::Walk;
use super::telegrams::read;
use super::{enough, Script};
use crate::desk::Request;
use crate::faults::{address, data, message};
use crate::flips::{altered, towards, NOISES};
use crate::random::Random;
use crate::telegram::{frame, Message, END, MOST_DATA, START, SUBSTITUTION};
use crate::values::KINDS;

/// Lengths of data: none, any, and the most.
fn lengths(random: &mut Random) -> [usize; 3] {
    [0, random.between(1, MOST_DATA - 1), MOST_DATA]
}

/// The frames of this message under each noise; with either address 0 and with a type that is none, but is substituted;
/// and with another byte at this place.
fn noisy(random: &mut Random, message: &Message, (place, byte): (usize, u8)) -> Vec<Vec<u8>> {
    let message = message.bytes();
    let no_type = random.pick(&[START, END, SUBSTITUTION]);
    let by_noise = NOISES.iter().map(|(_, bits)| altered(&message, &bits(random, 8 * message.len())));
    let by_aim = [(0, 0), (1, 0), (2, no_type), (place, byte)].map(|(place, byte)| towards(&message, place, byte));
    by_noise.chain(by_aim).map(|message| frame(&message)).collect()
}

/// The reader, on messages of the fewest and the most bytes and between.
pub fn reads(script: &mut Script) {
    for length in lengths(&mut script.random) {
        let random = &mut script.random;
        let data = data(random, length);
        let message = Message { data, ..message(random) };
        let register = (3, random.byte());
        for frame in noisy(random, &message, register) {
            let room = enough(&mut script.random, MOST_DATA);
            read(script, &frame, room);
        }
        read(script, &message.telegram(), MOST_DATA);
    }
}

/// The desk, where many jobs have asked the same of one module: with noise a reply closes neither its ticket nor the
/// one whose address it has by then.
pub fn replies(script: &mut Script) {
    let mut walk = Walk::new(script);
    let asked = walk.request();
    for job in 1..=walk.random().between(6, 30) as u32 {
        walk.open_for(&Request { job, folder: job, ..asked.clone() });
    }
    for length in lengths(walk.random()) {
        if let Some((address, ticket)) = walk.ticket() {
            let others: Vec<u8> = walk.desk().tickets.keys().copied().filter(|other| *other != address).collect();
            let other = (0, walk.random().pick(&others));
            let data = data(walk.random(), length);
            let reply = Message { data, ..walk.fitting_reply(address, &ticket) };
            walk.dump();
            for frame in noisy(walk.random(), &reply, other) {
                let room = enough(walk.random(), MOST_DATA);
                walk.reply_with(&frame, room);
            }
            walk.dump();
            walk.reply_with(&reply.telegram(), MOST_DATA);
        }
    }
    walk.dump();
}

/// A bench with two registers of one kind: with noise a write of any sort is done to neither of them, and the bench is
/// silent, whatever room its answer would have.
pub fn telegrams(script: &mut Script) {
    for type_no in [5, 6, 7, 9] {
        new_bench(script);
        let kind = script.random.pick(&KINDS);
        let [register, other] = [(); 2].map(|()| {
            let held = bench(script);
            let register = unheld(&mut script.random, &held);
            script.call(format!("bench.add {register} {kind} 7"));
            set(script, register, kind);
            register
        });
        let held = bench(script);
        let random = &mut script.random;
        let data = data(random, held.registers[&register].value.len());
        let asked = Message { dest: held.address, source: address(random), type_no, register, data };
        script.call("bench.dump");
        for frame in noisy(&mut script.random, &asked, (3, other)) {
            let room = script.random.pick(&[0, 8, 20]);
            tele(script, &frame, room);
        }
        script.call("bench.dump");
        tele(script, &asked.telegram(), 20);
        script.call("bench.dump");
    }
}
