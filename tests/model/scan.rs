//! The scan at the start of a shift: who is on the line. Each module is asked in turn, through the desk.

use crate::desk::{Closing, Desk, Opened, Request};
use crate::telegram::Refusal;

/// How many turns a scan has: one for each module's address.
pub const TURNS: usize = 160;
/// The register that each module is asked for.
pub const ASKED: u8 = 0x61;
/// For how long it is waited for, in milliseconds.
pub const WAIT: u32 = 100;

/// What a turn has shown of its module.
#[derive(Clone, Copy)]
pub enum Shown {
    Absent,
    /// By a datagram.
    Read,
    /// By a nack, a check error or busy.
    Refused,
}

/// What a step of the scan has come to.
pub enum Step {
    /// The request of the next turn is opened, for this module.
    Opened(u8, Opened),
    /// The ticket on this address is still open.
    Waiting(u8),
    Done,
}

#[derive(Clone)]
pub struct Scan {
    pub job: u32,
    /// What each finished turn has shown, that of module 1 first.
    pub shown: Vec<Shown>,
    /// The address of the ticket that is out.
    pub out: Option<u8>,
}

impl Scan {
    /// A scan before its first turn. Whatever is wrong with the job, the desk says, at each step.
    pub fn new(job: u32) -> Scan {
        Scan { job, shown: Vec::new(), out: None }
    }

    /// Whether all turns are finished.
    pub fn is_done(&self) -> bool {
        self.shown.len() == TURNS
    }

    /// What the desk is asked to open for the next turn: a read, on no folder.
    pub fn request(&self, clock: u32) -> Request {
        let (job, module) = (self.job, self.shown.len() as u8 + 1);
        Request { job, module, type_no: 4, register: ASKED, data: Vec::new(), wait: WAIT, folder: 0, clock }
    }

    /// Takes the scan on: opens the request of the next turn with this room for the telegram, where no ticket is out
    /// and not all turns are finished. Where the desk refuses, its number is passed on and the turn is still to come.
    pub fn step(&mut self, desk: &mut Desk, clock: u32, room: usize) -> Result<Step, Refusal> {
        if let Some(address) = self.out {
            return Ok(Step::Waiting(address));
        }
        if self.is_done() {
            return Ok(Step::Done);
        }
        let request = self.request(clock);
        let opened = desk.open(&request, room)?;
        self.out = Some(opened.address);
        Ok(Step::Opened(request.module, opened))
    }

    /// Is told that the desk closed the ticket on an address. Only that of the turn matters, and finishes it. The desk
    /// books no ack on a read.
    pub fn hear(&mut self, address: u8, closing: Closing) {
        if self.out == Some(address) {
            self.out = None;
            self.shown.push(match closing {
                Closing::Booked(8) => Shown::Read,
                Closing::Booked(_) => Shown::Refused,
                Closing::Lost => Shown::Absent,
            });
        }
    }
}
