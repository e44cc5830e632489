//! A night in the lab without a rig, played from the page in `examples/lab` on the model's own desk, lanes, benches,
//! receiver and tally. The C host that stands beside that page plays the same night on the proved library.

use crate::bench::Bench;
use crate::calls::hex;
use crate::desk::{after, Desk, Request, HOSTS};
use crate::lanes::Lanes;
use crate::listing::Fate;
use crate::receiver::Receiver;
use crate::tally::Tally;
use crate::telegram::{self, Message, No, Refusal, LONGEST_TELEGRAM, MOST_DATA};
use crate::values;
use std::collections::BTreeMap;

/// The number that all draws come from, at first.
const FIRST_NUMBER: u32 = 20261126;
const ROUNDS: u32 = 600;
/// The rounds in which jobs ask come before this one.
const ASKING_ROUNDS: u32 = 500;
/// The clock of round 0.
const FIRST_CLOCK: u32 = 4294965000;
/// How far the rounds are apart, in milliseconds.
const APART: u32 = 10;
/// In the last of so many rounds a ticket is cancelled.
const CANCEL_ROUNDS: u32 = 50;
/// After how many rounds a late reply comes.
const LATE: u32 = 40;
const RIGS: [u8; 4] = [15, 16, 13, 94];
/// The job whose tickets are cancelled.
const CANCELLER: u32 = 101;

/// Who asks, and with which folder.
#[derive(Clone, Copy)]
struct Job {
    job: u32,
    module: u8,
    folder: u32,
}

const JOBS: [Job; 5] = [
    Job { job: 101, module: 15, folder: 1 },
    Job { job: 102, module: 16, folder: 2 },
    Job { job: 103, module: 13, folder: 3 },
    Job { job: 104, module: 94, folder: 4 },
    Job { job: 105, module: 16, folder: 1 },
];

/// The number that all chance of the night comes from.
struct Draws(u32);

impl Draws {
    /// A draw below this limit.
    fn below(&mut self, limit: u32) -> u32 {
        self.0 = self.0.wrapping_mul(1664525).wrapping_add(1013904223);
        self.0 / 65536 % limit
    }
}

/// The night under way.
struct Night {
    draws: Draws,
    round: u32,
    desk: Desk,
    lanes: Lanes,
    rigs: Vec<Bench>,
    receiver: Receiver,
    tally: Tally,
    /// All bytes that have come, each at its place.
    heard: Vec<u8>,
    /// What is still to come, by its round and its ticket.
    coming: BTreeMap<(u32, u32), Vec<u8>>,
    /// The number of the ticket that was opened last on each address.
    numbers: BTreeMap<u8, u32>,
    opened: u32,
    booked: u32,
    cancelled: u32,
    expired: u32,
    printed: String,
}

/// A bench with the registers that each rig has.
fn rig(module: u8) -> Result<Bench, No> {
    let mut bench = Bench::new(module)?;
    for (register, kind, rights, value) in [(48, 1, 7, 0), (55, 3, 3, 1000), (102, 3, 1, 256 * i128::from(module))] {
        bench.add(register, kind, rights)?;
        bench.set(register, value)?;
    }
    Ok(bench)
}

/// The line of a rig at the end of the night.
fn rig_line(bench: &Bench) -> String {
    let value = |register: u8| {
        let held = &bench.registers[&register];
        values::get(held.kind, &held.value, 0).expect("a value of its kind")
    };
    format!("rig {} 48={} 55={}", bench.address, value(48), value(55))
}

/// The same message to the address after the reply's own.
fn crossed(reply: &[u8]) -> Vec<u8> {
    let read = telegram::read(reply, MOST_DATA).map_err(|refusal| refusal.no);
    let message = read.expect("a bench's reply is a telegram");
    Message { dest: after(message.dest), ..message }.telegram()
}

impl Night {
    /// Everything as it is before round 0.
    fn new() -> Night {
        Night {
            draws: Draws(FIRST_NUMBER),
            round: 0,
            desk: Desk::new(),
            lanes: Lanes::new(),
            rigs: RIGS.iter().map(|module| rig(*module).expect("a module with three registers")).collect(),
            receiver: Receiver::new(0),
            tally: Tally::cleared(),
            heard: Vec::new(),
            coming: BTreeMap::new(),
            numbers: BTreeMap::new(),
            opened: 0,
            booked: 0,
            cancelled: 0,
            expired: 0,
            printed: String::new(),
        }
    }

    /// The clock of the round.
    fn clock(&self) -> u32 {
        FIRST_CLOCK.wrapping_add(APART * self.round)
    }

    /// Prints a line of the round.
    fn print(&mut self, line: String) {
        self.printed += &format!("{} {line}\n", APART * self.round);
    }

    /// Prints a line of the end.
    fn print_end(&mut self, line: String) {
        self.printed += &format!("{line}\n");
    }

    /// All five steps of a round.
    fn play(&mut self, round: u32) {
        self.round = round;
        if round < ASKING_ROUNDS {
            JOBS.iter().for_each(|job| self.ask(*job));
        }
        self.grant();
        self.listen();
        if round % CANCEL_ROUNDS == CANCEL_ROUNDS - 1 {
            self.cancel();
        }
        self.expire();
    }

    /// A job asks for something, or doesn't.
    fn ask(&mut self, job: Job) {
        if self.draws.below(5) == 0 {
            let request = self.request(job);
            if let Err(no) = self.lanes.join(request) {
                self.print(format!("job {} not joined {no}", job.job));
            }
        }
    }

    /// What a job asks for. The clock of a request that waits means nothing.
    fn request(&mut self, Job { job, module, folder }: Job) -> Request {
        let (type_no, register, data) = match self.draws.below(3) {
            0 => (4, 102, Vec::new()),
            1 => (5, 55, (self.draws.below(65536) as u16).to_le_bytes().to_vec()),
            _ => (9, 48, vec![self.draws.below(256) as u8]),
        };
        let wait = 50 + self.draws.below(250);
        Request { job, module, type_no, register, data, wait, folder, clock: 0 }
    }

    /// Grants once. The telegram of a ticket that is opened goes to the rigs, and their reply on its way.
    fn grant(&mut self) {
        let clock = self.clock();
        match self.lanes.grant(&mut self.desk, clock, LONGEST_TELEGRAM) {
            Ok((job, opened)) => {
                self.opened += 1;
                self.numbers.insert(opened.address, self.opened);
                self.print(format!("ticket {} job {job} asks from {}", self.opened, opened.address));
                let reply = self.reply(&opened.telegram);
                self.send(reply);
            }
            Err(Refusal { no: 74, .. }) => (),
            Err(Refusal { no: 75, job: Some(job), .. }) => self.print(format!("job {job} taken out 75")),
            Err(Refusal { no, .. }) => self.print(format!("not granted {no}")),
        }
    }

    /// What the rigs answer: all of them take the telegram, and only the one that it is for isn't silent.
    fn reply(&mut self, asked: &[u8]) -> Vec<u8> {
        self.rigs.iter_mut().flat_map(|bench| bench.tele(asked, LONGEST_TELEGRAM).unwrap_or_default()).collect()
    }

    /// What the line does to the reply of the ticket that was opened last, and the round that it comes in.
    fn send(&mut self, reply: Vec<u8>) {
        let (came, round) = match self.draws.below(12) {
            0 => return,
            1 => (self.damaged(reply), self.soon()),
            2 => (reply, self.round + LATE),
            3 => (crossed(&reply), self.soon()),
            _ => (reply, self.soon()),
        };
        self.coming.insert((round, self.opened), came);
    }

    /// The reply with one bit inverted.
    fn damaged(&mut self, mut reply: Vec<u8>) -> Vec<u8> {
        let place = self.draws.below(reply.len() as u32) as usize;
        reply[place] ^= 2u8.pow(self.draws.below(8));
        reply
    }

    /// The round in which a reply comes that is neither lost nor late.
    fn soon(&mut self) -> u32 {
        self.round + 1 + self.draws.below(5)
    }

    /// Takes what comes in this round in pieces.
    fn listen(&mut self) {
        let round = self.round;
        let now = self.coming.range((round, 0)..(round + 1, 0));
        let mut left: Vec<u8> = now.flat_map(|(_, bytes)| bytes.clone()).collect();
        if round == ROUNDS - 1 {
            left.push(13);
        }
        while !left.is_empty() {
            let length = 1 + self.draws.below(16) as usize;
            let later = left.split_off(length.min(left.len()));
            self.hear(&left);
            left = later;
        }
    }

    /// Takes a piece by steps, with the tally.
    fn hear(&mut self, piece: &[u8]) {
        self.heard.extend(piece);
        let mut left = piece;
        while !left.is_empty() {
            let step = self.receiver.step(left, &mut self.tally);
            let (taken, ended) = step.expect("places and numbers are far from their ends");
            left = &left[taken..];
            if let Some((place, fate)) = ended {
                self.hear_frame(place as usize, &fate);
            }
        }
    }

    /// Tells what became of the frame that has just ended; its 13 has this place.
    fn hear_frame(&mut self, place: usize, fate: &Fate) {
        match fate {
            Fate::Read(_) => self.book(place),
            Fate::Refused(Refusal { no, place: None, .. }) => self.print(format!("line refused {no}")),
            Fate::Refused(Refusal { no, place: Some(wrong), .. }) => {
                self.print(format!("line refused {no} in {wrong}"))
            }
            Fate::Dropped => self.print("line dropped".to_string()),
            Fate::Open => (),
        }
    }

    /// Brings the telegram that has just ended to the desk.
    fn book(&mut self, place: usize) {
        let frame = &self.heard[place..self.receiver.place as usize];
        match self.desk.reply(frame, MOST_DATA) {
            Ok((closed, Message { type_no, data, .. })) => {
                self.booked += 1;
                let (number, data) = (self.numbers[&closed.address], hex(&data));
                let (job, folder) = (closed.job, closed.folder);
                self.print(format!("ticket {number} job {job} booked type {type_no} data {data} folder {folder}"));
            }
            Err(Refusal { no, .. }) => self.print(format!("reply refused {no}")),
        }
    }

    /// Cancels the ticket of job 101 with the lowest address, if it has one.
    fn cancel(&mut self) {
        let clock = self.clock();
        let lowest = self.desk.tickets.iter().find(|(_, ticket)| ticket.job == CANCELLER).map(|(address, _)| *address);
        if let Some(address) = lowest {
            let closed = self.desk.cancel(CANCELLER, address, clock).expect("its open ticket");
            self.cancelled += 1;
            let number = self.numbers[&address];
            self.print(format!("ticket {number} job {} cancelled folder {}", closed.job, closed.folder));
        }
    }

    /// Lets everything due expire.
    fn expire(&mut self) {
        let clock = self.clock();
        for closed in self.desk.expire_all(clock, usize::from(HOSTS)) {
            self.expired += 1;
            let number = self.numbers[&closed.address];
            self.print(format!("ticket {number} job {} expired folder {}", closed.job, closed.folder));
        }
    }

    /// Prints what the night came to.
    fn end(&mut self) {
        let Night { opened, booked, cancelled, expired, tally, .. } = *self;
        let open = self.desk.tickets.len();
        self.print_end(format!("tickets {opened} booked {booked} cancelled {cancelled} expired {expired} open {open}"));
        let rig_lines: Vec<String> = self.rigs.iter().map(rig_line).collect();
        rig_lines.into_iter().for_each(|line| self.print_end(line));
        if let Some(place) = self.receiver.open_at() {
            self.print_end(format!("open at {place}"));
        }
        self.print_end(format!("line ok {} refused {} dropped {}", tally.read, tally.refused, tally.dropped));
    }
}

/// All that is printed in a night.
pub fn night() -> String {
    let mut night = Night::new();
    (0..ROUNDS).for_each(|round| night.play(round));
    night.end();
    night.printed
}
