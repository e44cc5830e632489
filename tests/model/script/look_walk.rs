//! Walks over how far an opening looks: free addresses at each distance from the turn, with open ones before them and
//! with resting ones, and the counts of refusals, of the desk's own openings and of the box's.

use super::desk_walk::Walk;
use super::rest_walk::book;
use super::varia_walk::{each_wish, end, new_box, wish, wish_with, ACK};
use super::Script;
use crate::desk::{FIRST_HOST, HOSTS, REST};
use crate::telegram::No;
use crate::varia::Wish;

/// Distances from the turn: the nearest, the farthest, next to them, and between; the turn's own address has 1.
const DISTANCES: [u8; 9] = [1, 2, 3, 20, 47, 80, 93, 94, 95];
/// What is wrong with a request itself, or with the room for its telegram.
const ROWS: [No; 6] = [10, 11, 12, 13, 14, 16];

/// The address at this distance from the turn.
fn at(walk: &Walk, distance: u8) -> u8 {
    FIRST_HOST + (walk.desk().turn - FIRST_HOST + distance - 1) % HOSTS
}

/// Each refusal on an empty desk, among a few tickets, and where no address is free. Then, at each distance from the
/// turn, the only address that is free: refused for want of room, given, and the desk is full again.
pub fn distances(script: &mut Script) {
    let mut walk = Walk::new(script);
    refusals(&mut walk);
    for _ in 0..3 {
        walk.open();
    }
    refusals(&mut walk);
    walk.fill();
    refusals(&mut walk);
    let mut distances = DISTANCES;
    walk.random().shuffle(&mut distances);
    for distance in distances {
        let address = at(&walk, distance);
        book(&mut walk, address);
        walk.open_short();
        walk.open();
        if walk.random().one_in(3) {
            walk.open();
        }
    }
    walk.dump();
}

/// An opening refused by each of those rows, or by 15 where that comes first.
fn refusals(walk: &mut Walk) {
    let mut rows = ROWS;
    walk.random().shuffle(&mut rows);
    for row in rows {
        walk.refused_open(row);
    }
}

/// Addresses that rest from the turn on, some, one and 94 of them, with open ones behind them at last: the next one is
/// booked and free, at a distance that counts them all, and no other is until their rest is over.
pub fn resting(script: &mut Script) {
    let mut walk = Walk::full(script);
    let few = walk.random().between(1, 30) as u8;
    for resting in [few, 1, HOSTS - 1] {
        let closing = walk.clock;
        rest_before_a_free_one(&mut walk, resting, 0);
        walk.clock = closing.wrapping_add(REST - 1);
        walk.open_short();
        walk.open();
        walk.open();
        walk.clock = closing.wrapping_add(REST);
        walk.open_short();
        walk.fill();
    }
    for open in [2, 5, 60] {
        let closing = walk.clock;
        rest_before_a_free_one(&mut walk, 9, open);
        walk.open_short();
        walk.open();
        walk.clock = closing.wrapping_add(REST);
        walk.fill();
    }
    walk.dump();
}

/// From the turn on so many addresses are cancelled, so many stay open, and the one after them is booked.
pub fn rest_before_a_free_one(walk: &mut Walk, resting: u8, open: u8) {
    let free = at(walk, resting + open + 1);
    for distance in 1..=resting {
        let address = at(walk, distance);
        let job = walk.desk().tickets[&address].job;
        walk.cancel(job, address);
    }
    book(walk, free);
}

/// Wishes of each sort where the turn's own address is the only one free, and where a far one is: refused for want of
/// room, then opened. The reply to an edge request leaves the farthest address, which another opening takes.
pub fn boxes(script: &mut Script) {
    let mut walk = Walk::new(script);
    new_box(&mut walk);
    walk.fill();
    for is_far in [false, true] {
        for wished in each_wish(&mut walk) {
            let far = walk.random().between(2, 95) as u8;
            let address = at(&walk, if is_far { far } else { 1 });
            book(&mut walk, address);
            wish_with(&mut walk, wished, 500, 0);
            wish(&mut walk, wished);
            if matches!(wished, Wish::Set(..)) {
                end(&mut walk, ACK);
                walk.open();
            }
        }
    }
    walk.dump();
}
