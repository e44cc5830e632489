//! The filter box: a VARIA's edges, attenuation and readings for the operators, above the desk.

use crate::desk::{Closing, Desk, Opened, Request};
use crate::telegram::{lowest, No, Refusal};

/// The register of each thing the box asks for.
const MONITOR: u8 = 0x13;
const ATTENUATION: u8 = 0x32;
const SHORT_PASS: u8 = 0x33;
const LONG_PASS: u8 = 0x34;
const STATUS: u8 = 0x66;
/// The most attenuation, in permille.
pub const MOST_ATTENUATION: u16 = 1000;

/// A filter edge; both are in tenths of a nanometre.
#[derive(Clone, Copy, PartialEq, Eq)]
pub enum Edge {
    Short,
    Long,
}

impl Edge {
    /// The edge as call scripts name it.
    pub fn name(self) -> &'static str {
        match self {
            Edge::Short => "short",
            Edge::Long => "long",
        }
    }
}

/// What an operator asks of the box.
#[derive(Clone, Copy)]
pub enum Wish {
    Set(Edge, u16),
    Attenuate(u16),
    Monitor,
    Status,
}

/// An edge request whose ticket is open.
#[derive(Clone, Copy)]
pub struct Out {
    pub address: u8,
    pub edge: Edge,
    pub value: u16,
}

#[derive(Clone)]
pub struct Varia {
    pub job: u32,
    pub module: u8,
    /// The edges as last acknowledged, none where that is unknown.
    pub short: Option<u16>,
    pub long: Option<u16>,
    pub out: Option<Out>,
}

impl Varia {
    /// A fresh box: both edges unknown, nothing out. Whatever is wrong with job or module, the desk says.
    pub fn new(job: u32, module: u8) -> Varia {
        Varia { job, module, short: None, long: None, out: None }
    }

    /// What the desk is asked to open for a wish: a write of the value, lowest byte first, or a read; on no folder.
    pub fn request(&self, wish: Wish, wait: u32, clock: u32) -> Request {
        let (register, value) = match wish {
            Wish::Set(Edge::Short, value) => (SHORT_PASS, Some(value)),
            Wish::Set(Edge::Long, value) => (LONG_PASS, Some(value)),
            Wish::Attenuate(value) => (ATTENUATION, Some(value)),
            Wish::Monitor => (MONITOR, None),
            Wish::Status => (STATUS, None),
        };
        let type_no = if value.is_some() { 5 } else { 4 };
        let data = value.map_or(Vec::new(), |value| vec![(value % 256) as u8, (value / 256) as u8]);
        Request { job: self.job, module: self.module, type_no, register, data, wait, folder: 0, clock }
    }

    /// The box's own numbers, ahead of the desk's: 59 and 63 for an edge, 62 for the attenuation.
    fn check(&self, wish: Wish) -> Result<(), No> {
        match wish {
            Wish::Set(edge, value) => lowest(&[(59, self.out.is_some()), (63, !self.is_in_order(edge, value))]),
            Wish::Attenuate(value) => lowest(&[(62, value > MOST_ATTENUATION)]),
            Wish::Monitor | Wish::Status => Ok(()),
        }
    }

    /// The short-pass edge must be above the long-pass edge; an unknown other edge allows any.
    pub fn is_in_order(&self, edge: Edge, value: u16) -> bool {
        match edge {
            Edge::Short => self.long.map_or(true, |long| value > long),
            Edge::Long => self.short.map_or(true, |short| short > value),
        }
    }

    /// Opens a ticket for a wish, with this room for the telegram: the box's numbers, which have no count, then the
    /// desk's 10 to 16.
    pub fn ask(
        &mut self,
        desk: &mut Desk,
        wish: Wish,
        wait: u32,
        clock: u32,
        room: usize,
    ) -> Result<Opened, Refusal> {
        self.check(wish)?;
        let opened = desk.open(&self.request(wish, wait, clock), room)?;
        if let Wish::Set(edge, value) = wish {
            self.out = Some(Out { address: opened.address, edge, value });
        }
        Ok(opened)
    }

    /// Is told that the desk closed the ticket on an address. Only that of the edge request matters: an ack makes the
    /// edge what was asked, any other reply leaves it, a cancel or an expiry makes it unknown.
    pub fn hear(&mut self, address: u8, closing: Closing) {
        let ended = match self.out {
            Some(out) if out.address == address => out,
            _ => return,
        };
        self.out = None;
        let known = match ended.edge {
            Edge::Short => &mut self.short,
            Edge::Long => &mut self.long,
        };
        match closing {
            Closing::Booked(3) => *known = Some(ended.value),
            Closing::Booked(_) => (),
            Closing::Lost => *known = None,
        }
    }
}

/// Which data the display shows.
#[derive(Clone, Copy, PartialEq, Eq)]
pub enum Shown {
    Fresh,
    Kept,
}

/// The two bytes to show, of the fresh reply where it has exactly two, else of the kept one where that has, or 64.
pub fn display<'a>(fresh: &'a [u8], kept: &'a [u8]) -> Result<(Shown, &'a [u8]), No> {
    let offered = [(Shown::Fresh, fresh), (Shown::Kept, kept)];
    offered.into_iter().find(|(_, data)| data.len() == 2).ok_or(64)
}

/// Whether any of the filters 1 to 3 is moving: status bits 12, 13 and 14.
pub fn is_moving(status: u16) -> bool {
    [12, 13, 14].iter().any(|bit| status / 2u16.pow(*bit) % 2 == 1)
}
