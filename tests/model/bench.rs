//! The bench module: one address and up to 32 registers, to test against.

use crate::telegram::{self, lowest, Message, No, Refusal, MOST_DATA};
use crate::values;
use std::collections::BTreeMap;

pub const MOST_REGISTERS: usize = 32;

/// A held register. Its value is kept as the stored bytes, lowest first.
#[derive(Clone)]
pub struct Register {
    pub kind: u8,
    pub rights: u8,
    pub value: Vec<u8>,
}

#[derive(Clone)]
pub struct Bench {
    pub address: u8,
    pub registers: BTreeMap<u8, Register>,
}

/// What the bench makes of a telegram for it.
enum Outcome {
    /// A datagram with the value.
    Datagram(Vec<u8>),
    /// An ack; these are the register's bytes from then on.
    Ack(Vec<u8>),
    /// Anything else: nothing changed.
    Nack,
}

impl Register {
    /// Whether the rights hold 1 (read), 2 (write) or 4 (bit writes).
    fn may(&self, right: u8) -> bool {
        self.rights / right % 2 == 1
    }
}

impl Bench {
    /// A fresh bench on this address, or 34.
    pub fn new(address: u8) -> Result<Bench, No> {
        lowest(&[(34, !(1..=160).contains(&address))])?;
        Ok(Bench { address, registers: BTreeMap::new() })
    }

    /// Adds a register with value 0: 30, 31, 32, 33.
    pub fn add(&mut self, register: u8, kind: u8, rights: u8) -> Result<(), No> {
        lowest(&[
            (30, !(1..=7).contains(&kind)),
            (31, rights > 7),
            (32, self.registers.contains_key(&register)),
            (33, self.registers.len() >= MOST_REGISTERS),
        ])?;
        let value = values::stored(kind, 0)?;
        self.registers.insert(register, Register { kind, rights, value });
        Ok(())
    }

    /// The tester sets a held register to a number of its kind, whatever the rights: 38, 43.
    pub fn set(&mut self, register: u8, value: i128) -> Result<(), No> {
        let held = self.registers.get_mut(&register).ok_or(38u32)?;
        held.value = values::stored(held.kind, value)?;
        Ok(())
    }

    /// Answers a telegram into a buffer with this room: 1 to 5, 7 to 9, 35, 36, 37 mean silence, 3 with its place.
    pub fn tele(&mut self, frame: &[u8], room: usize) -> Result<Vec<u8>, Refusal> {
        let asked = telegram::read(frame, MOST_DATA)?;
        lowest(&[(35, asked.dest != self.address), (36, [0, 1, 2, 3, 8].contains(&asked.type_no))])?;
        let outcome = self.outcome(&asked);
        let reply = self.reply(&asked, &outcome).telegram();
        lowest(&[(37, reply.len() > room)])?;
        if let (Outcome::Ack(value), Some(held)) = (outcome, self.registers.get_mut(&asked.register)) {
            held.value = value;
        }
        Ok(reply)
    }

    /// What the rights, the register and the size of the data make of a telegram.
    fn outcome(&self, asked: &Message) -> Outcome {
        let held = match self.registers.get(&asked.register) {
            Some(held) => held,
            None => return Outcome::Nack,
        };
        let right_size = asked.data.len() == held.value.len();
        match asked.type_no {
            4 if held.may(1) && asked.data.is_empty() => Outcome::Datagram(held.value.clone()),
            5 if held.may(2) && right_size => Outcome::Ack(asked.data.clone()),
            6 | 7 | 9 if held.may(4) && right_size => Outcome::Ack(masked(asked.type_no, &held.value, &asked.data)),
            _ => Outcome::Nack,
        }
    }

    /// The reply to the telegram's source: ack and nack carry the register and no data.
    fn reply(&self, asked: &Message, outcome: &Outcome) -> Message {
        let (type_no, data) = match outcome {
            Outcome::Datagram(value) => (8, value.clone()),
            Outcome::Ack(_) => (3, Vec::new()),
            Outcome::Nack => (0, Vec::new()),
        };
        Message { dest: asked.source, source: self.address, type_no, register: asked.register, data }
    }
}

/// The stored bytes after a bit write of type 6 (set), 7 (clear) or 9 (toggle) with this mask.
fn masked(type_no: u8, value: &[u8], mask: &[u8]) -> Vec<u8> {
    value.iter().zip(mask).map(|(byte, ones)| (0..8).map(|bit| masked_bit(type_no, *byte, *ones, bit)).sum()).collect()
}

/// One bit of a byte after a bit write, at its place: a one in the mask works on it, a zero keeps it.
fn masked_bit(type_no: u8, byte: u8, ones: u8, bit: u32) -> u8 {
    let place = 2u8.pow(bit);
    let before = byte / place % 2;
    let after = match (ones / place % 2, type_no) {
        (0, _) => before,
        (_, 6) => 1,
        (_, 7) => 0,
        _ => 1 - before,
    };
    after * place
}
