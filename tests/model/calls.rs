//! Call scripts: a line is parsed, run on the desk, the lanes, the box, the scan, the bench, the receiver with its
//! tally or a sheet, and its answer formatted.

use crate::bench::{Bench, Register};
use crate::catalogue;
use crate::desk::{Closed, Closing, Desk, Opened, Request, Ticket};
use crate::edits;
use crate::lanes::Lanes;
use crate::receiver::{Fed, Receiver};
use crate::remainder::remainder;
use crate::scan::{self, Scan, Step};
use crate::sheet::{self, Head, Setting};
use crate::tally::Tally;
use crate::telegram::{self, Message, No, Refusal};
use crate::values;
use crate::varia::{self, Edge, Out, Shown, Varia, Wish};
use std::fmt::Display;

/// The longest line, its newline not counted, that is still a call.
pub const LONGEST_LINE: usize = 65536;
/// The most settings that a line may name, more than a sheet holds.
pub const MOST_NAMED: usize = 200;
/// The most entries of a list of expired tickets, more than there are tickets.
pub const MOST_ENTRIES: usize = 200;
const LEAST_VALUE: i128 = -9223372036854775808;
const GREATEST_VALUE: i128 = 18446744073709551615;

/// A line that parsed.
enum Call {
    Rem { bytes: Vec<u8> },
    Read { frame: Vec<u8>, buf: Vec<u8> },
    Write { message: Message, buf: Vec<u8> },
    ValGet { kind: u8, bytes: Vec<u8>, index: u64 },
    ValPut { kind: u8, value: i128, buf: Vec<u8> },
    Cat { type_no: u8, register: u8 },
    BenchNew { address: u8 },
    OnBench(BenchCall),
    DeskNew,
    DeskOpen { request: Request, buf: Vec<u8> },
    DeskReply { frame: Vec<u8>, buf: Vec<u8> },
    DeskCancel { job: u32, address: u8, clock: u32 },
    DeskExpire { clock: u32 },
    DeskExpall { clock: u32, room: usize },
    DeskDump,
    LaneJoin { request: Request },
    LaneGrant { clock: u32, buf: Vec<u8> },
    LaneWithdraw { job: u32, place: u64 },
    LaneDump,
    VariaNew { job: u32, module: u8 },
    OnVaria(VariaCall),
    ScanNew { job: u32 },
    OnScan(ScanCall),
    TallySet { tally: Tally },
    TallyGet,
    RxNew { place: u64 },
    RxFeed { chunk: Vec<u8> },
    RxEnd,
    SheetWrite { settings: Vec<Setting>, buf: Vec<u8> },
    SheetCheck { sheet: Vec<u8> },
    SheetRead { sheet: Vec<u8>, index: u64, buf: Vec<u8> },
    SheetRem { buf: Vec<u8>, length: u64, index: u64 },
    SheetRemmod { buf: Vec<u8>, length: u64, module: u8 },
    SheetAdd { buf: Vec<u8>, length: u64, setting: Setting },
}

/// A call that needs a bench.
enum BenchCall {
    Add { register: u8, kind: u8, rights: u8 },
    Set { register: u8, value: i128 },
    Tele { frame: Vec<u8>, buf: Vec<u8> },
    Dump,
}

/// A call that needs a box.
enum VariaCall {
    Ask { wish: Wish, wait: u32, clock: u32, buf: Vec<u8> },
    Display { fresh: Vec<u8>, kept: Vec<u8> },
    Moving { status: u16 },
    Dump,
}

/// A call that needs a scan.
enum ScanCall {
    Step { clock: u32, buf: Vec<u8> },
    Dump,
}

/// The words of a line that are still to be read.
struct Words<'a>(std::vec::IntoIter<&'a [u8]>);

impl<'a> Words<'a> {
    /// The words of a line, parted by exactly one blank.
    fn new(line: &'a [u8]) -> Words<'a> {
        Words(line.split(|byte| *byte == b' ').collect::<Vec<&[u8]>>().into_iter())
    }

    /// The next word as it stands.
    fn word(&mut self) -> Option<&'a [u8]> {
        self.0.next()
    }

    /// The next word as a byte's number, 0 to 255.
    fn byte(&mut self) -> Option<u8> {
        u8::try_from(decimal(self.word()?)?).ok()
    }

    /// The next word as a 16-bit number: a value of the box, or its module's status.
    fn short_number(&mut self) -> Option<u16> {
        u16::try_from(decimal(self.word()?)?).ok()
    }

    /// The next word as a 32-bit number.
    fn number(&mut self) -> Option<u32> {
        u32::try_from(decimal(self.word()?)?).ok()
    }

    /// The next word as a 64-bit number: an element's or a record's, a place in a capture or a lane, or a length.
    fn long_number(&mut self) -> Option<u64> {
        u64::try_from(decimal(self.word()?)?).ok()
    }

    /// The next word as the room of a list, at most 200 entries.
    fn room(&mut self) -> Option<usize> {
        let room = usize::try_from(decimal(self.word()?)?).ok()?;
        (room <= MOST_ENTRIES).then_some(room)
    }

    /// The next word as a value, -2^63 to 2^64-1.
    fn value(&mut self) -> Option<i128> {
        let word = self.word()?;
        let value = match word.strip_prefix(b"-") {
            Some(digits) => -decimal(digits)?,
            None => decimal(word)?,
        };
        (LEAST_VALUE..=GREATEST_VALUE).contains(&value).then_some(value)
    }

    /// The next word as bytes.
    fn bytes(&mut self) -> Option<Vec<u8>> {
        unhex(self.word()?)
    }

    /// Nothing may follow.
    fn end(&mut self) -> Option<()> {
        self.word().is_none().then_some(())
    }
}

/// A number from decimal digits alone; leading zeros are allowed, and what is past any width is none.
fn decimal(word: &[u8]) -> Option<i128> {
    if word.is_empty() || !word.iter().all(u8::is_ascii_digit) {
        return None;
    }
    word.iter().try_fold(0i128, |number, digit| number.checked_mul(10)?.checked_add(i128::from(digit - b'0')))
}

/// Bytes from lower-case hex of an even number of digits, `-` for none.
pub fn unhex(word: &[u8]) -> Option<Vec<u8>> {
    if word == b"-" {
        return Some(Vec::new());
    }
    if word.is_empty() || word.len() % 2 != 0 {
        return None;
    }
    word.chunks(2).map(|pair| Some(hex_digit(pair[0])? * 16 + hex_digit(pair[1])?)).collect()
}

/// One lower-case hex digit.
fn hex_digit(digit: u8) -> Option<u8> {
    b"0123456789abcdef".iter().position(|known| *known == digit).map(|place| place as u8)
}

/// Bytes as a script shows them: lower-case hex, `-` for none.
pub fn hex(bytes: &[u8]) -> String {
    if bytes.is_empty() {
        return "-".to_string();
    }
    bytes.iter().map(|byte| format!("{byte:02x}")).collect()
}

/// The call a line stands for, or none for a bad line.
fn parse(line: &[u8]) -> Option<Call> {
    if line.len() > LONGEST_LINE {
        return None;
    }
    let mut words = Words::new(line);
    let name = words.word()?;
    let call = parse_call(name, &mut words)?;
    words.end()?;
    Some(call)
}

/// The call of this name with its words.
fn parse_call(name: &[u8], words: &mut Words) -> Option<Call> {
    Some(match name {
        b"rem" => Call::Rem { bytes: words.bytes()? },
        b"read" => Call::Read { frame: words.bytes()?, buf: words.bytes()? },
        b"write" => Call::Write { message: parse_message(words)?, buf: words.bytes()? },
        b"val.get" => Call::ValGet { kind: words.byte()?, bytes: words.bytes()?, index: words.long_number()? },
        b"val.put" => Call::ValPut { kind: words.byte()?, value: words.value()?, buf: words.bytes()? },
        b"cat" => Call::Cat { type_no: words.byte()?, register: words.byte()? },
        b"bench.new" => Call::BenchNew { address: words.byte()? },
        b"bench.add" => {
            Call::OnBench(BenchCall::Add { register: words.byte()?, kind: words.byte()?, rights: words.byte()? })
        }
        b"bench.set" => Call::OnBench(BenchCall::Set { register: words.byte()?, value: words.value()? }),
        b"bench.tele" => Call::OnBench(BenchCall::Tele { frame: words.bytes()?, buf: words.bytes()? }),
        b"bench.dump" => Call::OnBench(BenchCall::Dump),
        b"desk.new" => Call::DeskNew,
        b"desk.open" => Call::DeskOpen { request: parse_request(words)?, buf: words.bytes()? },
        b"desk.reply" => Call::DeskReply { frame: words.bytes()?, buf: words.bytes()? },
        b"desk.cancel" => Call::DeskCancel { job: words.number()?, address: words.byte()?, clock: words.number()? },
        b"desk.expire" => Call::DeskExpire { clock: words.number()? },
        b"desk.expall" => Call::DeskExpall { clock: words.number()?, room: words.room()? },
        b"desk.dump" => Call::DeskDump,
        b"lane.join" => Call::LaneJoin { request: parse_waiting(words)? },
        b"lane.grant" => Call::LaneGrant { clock: words.number()?, buf: words.bytes()? },
        b"lane.withdraw" => Call::LaneWithdraw { job: words.number()?, place: words.long_number()? },
        b"lane.dump" => Call::LaneDump,
        b"varia.new" => Call::VariaNew { job: words.number()?, module: words.byte()? },
        b"varia.short" => parse_wish(Wish::Set(Edge::Short, words.short_number()?), words)?,
        b"varia.long" => parse_wish(Wish::Set(Edge::Long, words.short_number()?), words)?,
        b"varia.att" => parse_wish(Wish::Attenuate(words.short_number()?), words)?,
        b"varia.monitor" => parse_wish(Wish::Monitor, words)?,
        b"varia.status" => parse_wish(Wish::Status, words)?,
        b"varia.display" => Call::OnVaria(VariaCall::Display { fresh: words.bytes()?, kept: words.bytes()? }),
        b"varia.moving" => Call::OnVaria(VariaCall::Moving { status: words.short_number()? }),
        b"varia.dump" => Call::OnVaria(VariaCall::Dump),
        b"scan.new" => Call::ScanNew { job: words.number()? },
        b"scan.step" => Call::OnScan(ScanCall::Step { clock: words.number()?, buf: words.bytes()? }),
        b"scan.dump" => Call::OnScan(ScanCall::Dump),
        b"tally.set" => Call::TallySet { tally: parse_tally(words)? },
        b"tally.get" => Call::TallyGet,
        b"rx.new" => Call::RxNew { place: words.long_number()? },
        b"rx.feed" => Call::RxFeed { chunk: words.bytes()? },
        b"rx.end" => Call::RxEnd,
        b"sheet.write" => Call::SheetWrite { settings: parse_settings(words.word()?)?, buf: words.bytes()? },
        b"sheet.check" => Call::SheetCheck { sheet: words.bytes()? },
        b"sheet.read" => Call::SheetRead { sheet: words.bytes()?, index: words.long_number()?, buf: words.bytes()? },
        b"sheet.rem" => parse_removal(words)?,
        b"sheet.remmod" => {
            Call::SheetRemmod { buf: words.bytes()?, length: words.long_number()?, module: words.byte()? }
        }
        b"sheet.add" => {
            let (buf, length) = (words.bytes()?, words.long_number()?);
            Call::SheetAdd { buf, length, setting: parse_setting(words.word()?)? }
        }
        _ => return None,
    })
}

/// DEST SRC TYPE REG DATA of a write.
fn parse_message(words: &mut Words) -> Option<Message> {
    let (dest, source, type_no, register) = (words.byte()?, words.byte()?, words.byte()?, words.byte()?);
    Some(Message { dest, source, type_no, register, data: words.bytes()? })
}

/// JOB MODULE TYPE REG DATA WAIT FOLDER of a request that is to wait, with no clock yet.
fn parse_waiting(words: &mut Words) -> Option<Request> {
    let (job, module, type_no, register) = (words.number()?, words.byte()?, words.byte()?, words.byte()?);
    let (data, wait, folder) = (words.bytes()?, words.number()?, words.number()?);
    Some(Request { job, module, type_no, register, data, wait, folder, clock: 0 })
}

/// The same and CLOCK, of an opening.
fn parse_request(words: &mut Words) -> Option<Request> {
    let waiting = parse_waiting(words)?;
    Some(Request { clock: words.number()?, ..waiting })
}

/// WAIT CLOCK BUF of a wish.
fn parse_wish(wish: Wish, words: &mut Words) -> Option<Call> {
    let (wait, clock) = (words.number()?, words.number()?);
    Some(Call::OnVaria(VariaCall::Ask { wish, wait, clock, buf: words.bytes()? }))
}

/// READ REFUSED DROPPED of a tally.
fn parse_tally(words: &mut Words) -> Option<Tally> {
    Some(Tally { read: words.number()?, refused: words.number()?, dropped: words.number()? })
}

/// BUF LENGTH INDEX MODULE REG of a removal. Module and register name the same record as the index, so it goes by the
/// index; they must be bytes all the same.
fn parse_removal(words: &mut Words) -> Option<Call> {
    let (buf, length, index) = (words.bytes()?, words.long_number()?, words.long_number()?);
    words.byte()?;
    words.byte()?;
    Some(Call::SheetRem { buf, length, index })
}

/// SETTINGS, `-` for none: up to 200 of them, parted by semicolons.
pub fn parse_settings(word: &[u8]) -> Option<Vec<Setting>> {
    if word == b"-" {
        return Some(Vec::new());
    }
    let named: Vec<&[u8]> = word.split(|byte| *byte == b';').collect();
    if named.len() > MOST_NAMED {
        return None;
    }
    named.into_iter().map(parse_setting).collect()
}

/// MODULE:REG:KIND:COUNT:HEX of one setting.
pub fn parse_setting(named: &[u8]) -> Option<Setting> {
    let mut words = Words(named.split(|byte| *byte == b':').collect::<Vec<&[u8]>>().into_iter());
    let head = Head { module: words.byte()?, register: words.byte()?, kind: words.byte()?, count: words.byte()? };
    let value = words.bytes()?;
    words.end()?;
    Some(Setting { head, value })
}

/// What the calls work on: the desk and its lanes, the box, the scan and the bench once there is one, the receiver, and
/// the tally that is lent to it.
#[derive(Clone)]
pub struct Rehearsal {
    pub desk: Desk,
    pub lanes: Lanes,
    pub varia: Option<Varia>,
    pub scan: Option<Scan>,
    pub bench: Option<Bench>,
    pub receiver: Receiver,
    pub tally: Tally,
}

impl Rehearsal {
    /// A fresh desk with fresh lanes, no box, no scan, no bench, a fresh receiver at place 0, and a cleared tally.
    pub fn new() -> Rehearsal {
        Rehearsal {
            desk: Desk::new(),
            lanes: Lanes::new(),
            varia: None,
            scan: None,
            bench: None,
            receiver: Receiver::new(0),
            tally: Tally::cleared(),
        }
    }

    /// The answer line to a call line, both without their newline.
    pub fn answer(&mut self, line: &[u8]) -> String {
        match parse(line) {
            Some(call) => self.run(call),
            None => "bad line".to_string(),
        }
    }

    /// Runs a call and formats its answer.
    fn run(&mut self, call: Call) -> String {
        match call {
            Call::Rem { bytes } => ok(format!("rem={}", remainder(&bytes))),
            Call::Read { frame, buf } => lent(buf, |room| telegram::read(&frame, room).map(read_fields)),
            Call::Write { message, buf } => lent(buf, |room| telegram::write(&message, room).map(length_field)),
            Call::ValGet { kind, bytes, index } => {
                plain(values::get(kind, &bytes, index).map(|value| format!("value={value}")))
            }
            Call::ValPut { kind, value, buf } => {
                lent(buf, |room| values::put(kind, value, room).map(|bytes| (String::new(), bytes)))
            }
            Call::Cat { type_no, register } => plain(catalogue::find(type_no, register).map(catalogue_fields)),
            Call::BenchNew { address } => plain(self.new_bench(address)),
            Call::OnBench(call) => match &mut self.bench {
                Some(bench) => run_on_bench(bench, call),
                None => "no bench".to_string(),
            },
            Call::DeskNew => ok(self.new_desk()),
            Call::DeskOpen { request, buf } => lent(buf, |room| self.desk.open(&request, room).map(open_fields)),
            Call::DeskReply { frame, buf } => lent(buf, |room| self.reply(&frame, room).map(reply_fields)),
            Call::DeskCancel { job, address, clock } => plain(self.cancel(job, address, clock).map(closed_fields)),
            Call::DeskExpire { clock } => plain(self.expire(clock).map(closed_fields)),
            Call::DeskExpall { clock, room } => ok(expired_fields(&self.expire_all(clock, room), room)),
            Call::DeskDump => ok(desk_fields(&self.desk)),
            Call::LaneJoin { request } => plain(self.lanes.join(request).map(joined_fields)),
            Call::LaneGrant { clock, buf } => {
                lent(buf, |room| self.lanes.grant(&mut self.desk, clock, room).map(granted_fields))
            }
            Call::LaneWithdraw { job, place } => plain(self.lanes.withdraw(job, place).map(|()| String::new())),
            Call::LaneDump => ok(lanes_fields(&self.lanes)),
            Call::VariaNew { job, module } => ok(self.new_varia(job, module)),
            Call::OnVaria(call) => match &mut self.varia {
                Some(varia) => run_on_varia(varia, &mut self.desk, call),
                None => "no box".to_string(),
            },
            Call::ScanNew { job } => ok(self.new_scan(job)),
            Call::OnScan(call) => match &mut self.scan {
                Some(scan) => run_on_scan(scan, &mut self.desk, call),
                None => "no scan".to_string(),
            },
            Call::TallySet { tally } => ok(self.set_tally(tally)),
            Call::TallyGet => ok(tally_fields(self.tally)),
            Call::RxNew { place } => ok(self.new_receiver(place)),
            Call::RxFeed { chunk } => fed(self.receiver.feed(&chunk, &mut self.tally)),
            Call::RxEnd => ok(format!("text={}", self.receiver.rest().replace('\n', "\\n"))),
            Call::SheetWrite { settings, buf } => lent(buf, |room| sheet::write(&settings, room).map(length_field)),
            Call::SheetCheck { sheet } => plain(sheet::check(&sheet).map(|held| format!("count={}", held.len()))),
            Call::SheetRead { sheet, index, buf } => {
                lent(buf, |room| sheet::read(&sheet, index, room).map(setting_fields))
            }
            Call::SheetRem { buf, length, index } => edited(buf, |buf| edits::remove(buf, length, index)),
            Call::SheetRemmod { buf, length, module } => edited(buf, |buf| edits::remove_module(buf, length, module)),
            Call::SheetAdd { buf, length, setting } => edited(buf, |buf| edits::add(buf, length, setting)),
        }
    }

    /// A fresh bench takes the place of the one there was, or 34 leaves that one; no fields are answered.
    fn new_bench(&mut self, address: u8) -> Result<String, No> {
        self.bench = Some(Bench::new(address)?);
        Ok(String::new())
    }

    /// A fresh desk and fresh lanes take the place of those there were, and there is neither a box nor a scan; no
    /// fields are answered.
    fn new_desk(&mut self) -> String {
        self.desk = Desk::new();
        self.lanes = Lanes::new();
        self.varia = None;
        self.scan = None;
        String::new()
    }

    /// A fresh box takes the place of the one there was, if any; no fields are answered.
    fn new_varia(&mut self, job: u32, module: u8) -> String {
        self.varia = Some(Varia::new(job, module));
        String::new()
    }

    /// A fresh scan takes the place of the one there was, if any, whose ticket stays open; no fields are answered.
    fn new_scan(&mut self, job: u32) -> String {
        self.scan = Some(Scan::new(job));
        String::new()
    }

    /// Tells the box and the scan, if there are any, how the ticket on an address was closed.
    fn tell(&mut self, address: u8, closing: Closing) {
        if let Some(varia) = &mut self.varia {
            varia.hear(address, closing);
        }
        if let Some(scan) = &mut self.scan {
            scan.hear(address, closing);
        }
    }

    /// Books a reply at the desk and tells the box and the scan.
    fn reply(&mut self, frame: &[u8], room: usize) -> Result<(Closed, Message), Refusal> {
        let (closed, reply) = self.desk.reply(frame, room)?;
        self.tell(closed.address, Closing::Booked(reply.type_no));
        Ok((closed, reply))
    }

    /// Cancels a ticket at the desk and tells the box and the scan.
    fn cancel(&mut self, job: u32, address: u8, clock: u32) -> Result<Closed, No> {
        let closed = self.desk.cancel(job, address, clock)?;
        self.tell(address, Closing::Lost);
        Ok(closed)
    }

    /// Lets a ticket expire at the desk and tells the box and the scan.
    fn expire(&mut self, clock: u32) -> Result<Closed, No> {
        let closed = self.desk.expire(clock)?;
        self.tell(closed.address, Closing::Lost);
        Ok(closed)
    }

    /// Lets everything due expire at the desk, as far as the list has room, and tells the box and the scan of each.
    fn expire_all(&mut self, clock: u32, room: usize) -> Vec<Closed> {
        let expired = self.desk.expire_all(clock, room);
        expired.iter().for_each(|closed| self.tell(closed.address, Closing::Lost));
        expired
    }

    /// A fresh receiver takes the place of the one there was; no fields are answered. The tally is the caller's, not
    /// the receiver's, and stays: it is cleared by setting it.
    fn new_receiver(&mut self, place: u64) -> String {
        self.receiver = Receiver::new(place);
        String::new()
    }

    /// The tally has these numbers from now on, all 0 where it is cleared; no fields are answered.
    fn set_tally(&mut self, tally: Tally) -> String {
        self.tally = tally;
        String::new()
    }
}

/// Runs a call on the bench there is.
fn run_on_bench(bench: &mut Bench, call: BenchCall) -> String {
    match call {
        BenchCall::Add { register, kind, rights } => plain(bench.add(register, kind, rights).map(|()| String::new())),
        BenchCall::Set { register, value } => plain(bench.set(register, value).map(|()| String::new())),
        BenchCall::Tele { frame, buf } => lent(buf, |room| bench.tele(&frame, room).map(length_field)),
        BenchCall::Dump => ok(bench_fields(bench)),
    }
}

/// Runs a call on the box there is, above its desk.
fn run_on_varia(varia: &mut Varia, desk: &mut Desk, call: VariaCall) -> String {
    match call {
        VariaCall::Ask { wish, wait, clock, buf } => {
            lent(buf, |room| varia.ask(desk, wish, wait, clock, room).map(open_fields))
        }
        VariaCall::Display { fresh, kept } => plain(varia::display(&fresh, &kept).map(display_fields)),
        VariaCall::Moving { status } => ok(format!("moving={}", u8::from(varia::is_moving(status)))),
        VariaCall::Dump => ok(varia_fields(varia)),
    }
}

/// Runs a call on the scan there is, above its desk.
fn run_on_scan(scan: &mut Scan, desk: &mut Desk, call: ScanCall) -> String {
    match call {
        ScanCall::Step { clock, buf } => lent(buf, |room| scan.step(desk, clock, room).map(step_fields)),
        ScanCall::Dump => ok(scan_fields(scan)),
    }
}

/// `ok` and its fields.
fn ok(fields: String) -> String {
    match fields.is_empty() {
        true => "ok".to_string(),
        false => format!("ok {fields}"),
    }
}

/// `ok` and its fields, or `no` and its number, with its place, its job and its count where it has one.
fn plain(result: Result<String, impl Into<Refusal>>) -> String {
    match result.map_err(Into::into) {
        Ok(fields) => ok(fields),
        Err(Refusal { no, place, job, count }) => {
            format!("no {no}{}{}{}", told("place", place), told("job", job), told("count", count))
        }
    }
}

/// A field of a refusal, where it has one.
fn told(name: &str, number: Option<impl Display>) -> String {
    number.map_or(String::new(), |number| format!(" {name}={number}"))
}

/// The same for a call with a lent buffer: what it hands over goes to the first bytes, a refusal touches none.
fn lent<R: Into<Refusal>>(
    mut buf: Vec<u8>,
    call: impl FnOnce(usize) -> Result<(String, Vec<u8>), R>,
) -> String {
    let result = call(buf.len());
    if let Ok((_, bytes)) = &result {
        buf[..bytes.len()].copy_from_slice(bytes);
    }
    format!("{} buf={}", plain(result.map(|(fields, _)| fields)), hex(&buf))
}

/// The same for a call on the sheet in a lent buffer, whose new sheet goes to the first bytes.
fn edited(buf: Vec<u8>, call: impl FnOnce(&[u8]) -> Result<Vec<u8>, No>) -> String {
    let result = call(&buf).map(length_field);
    lent(buf, |_| result)
}

/// The lines of a chunk, parted by semicolons; a refusal also tells how many bytes were taken before it.
fn fed(fed: Fed) -> String {
    let lines = fed.lines.join(";");
    match fed.refusal {
        None => format!("ok lines={lines}"),
        Some(no) => format!("no {no} taken={} lines={lines}", fed.taken),
    }
}

/// The fields of a message that was read, and its data for the buffer.
fn read_fields(read: Message) -> (String, Vec<u8>) {
    let Message { dest, source, type_no, register, data } = read;
    (format!("dest={dest} src={source} type={type_no} reg={register} n={}", data.len()), data)
}

/// The length of a telegram or a sheet, and its bytes for the buffer.
fn length_field(written: Vec<u8>) -> (String, Vec<u8>) {
    (format!("n={}", written.len()), written)
}

/// The fields of a record that was read, and its value for the buffer.
fn setting_fields(Setting { head, value }: Setting) -> (String, Vec<u8>) {
    let Head { module, register, kind, count } = head;
    (format!("module={module} reg={register} kind={kind} count={count} n={}", value.len()), value)
}

/// The fields of a catalogue row.
fn catalogue_fields(entry: catalogue::Entry) -> String {
    format!("kind={} write={} lo={} hi={}", entry.kind, u8::from(entry.write), entry.lowest, entry.highest)
}

/// The fields of an opened ticket, and its telegram for the buffer.
fn open_fields(Opened { address, telegram, count }: Opened) -> (String, Vec<u8>) {
    (format!("address={address} n={} count={count}", telegram.len()), telegram)
}

/// The lane and the place of a request that has joined.
fn joined_fields((lane, place): (usize, usize)) -> String {
    format!("lane={lane} at={place}")
}

/// The job of a request that was granted, the fields of its ticket, and its telegram for the buffer.
fn granted_fields((job, opened): (u32, Opened)) -> (String, Vec<u8>) {
    let (fields, telegram) = open_fields(opened);
    (format!("job={job} {fields}"), telegram)
}

/// The lane last served, and what waits in each lane, the oldest first.
fn lanes_fields(lanes: &Lanes) -> String {
    let shown = |request: &Request| {
        let Request { job, module, type_no, register, data, wait, folder, .. } = request;
        format!("{job}:{module}:{type_no}:{register}:{}:{wait}:{folder}", hex(data))
    };
    let each: Vec<String> = lanes.lanes.iter().map(|lane| list(lane.iter().map(shown).collect())).collect();
    format!("last={} lanes={}", lanes.last, each.join("|"))
}

/// The fields of a booked reply, and its data for the buffer.
fn reply_fields((Closed { job, address, folder }, reply): (Closed, Message)) -> (String, Vec<u8>) {
    let Message { type_no, data, .. } = reply;
    (format!("job={job} address={address} type={type_no} n={} folder={folder}", data.len()), data)
}

/// The fields of a ticket that was cancelled or expired.
fn closed_fields(Closed { job, address, folder }: Closed) -> String {
    format!("job={job} address={address} folder={folder}")
}

/// How many tickets expired, and the list of so many entries after it: theirs, then `.` for each entry that stayed.
fn expired_fields(expired: &[Closed], room: usize) -> String {
    let shown = |Closed { job, address, folder }: &Closed| format!("{job}:{address}:{folder}");
    let mut entries: Vec<String> = expired.iter().map(shown).collect();
    entries.resize(room, ".".to_string());
    format!("n={} list={}", expired.len(), list(entries))
}

/// The bench's address and its registers, by rising register.
fn bench_fields(bench: &Bench) -> String {
    let shown = |(number, register): (&u8, &Register)| {
        let Register { kind, rights, value } = register;
        format!("{number}:{kind}:{rights}:{}", hex(value))
    };
    format!("address={} regs={}", bench.address, list(bench.registers.iter().map(shown).collect()))
}

/// The desk's turn, its tickets, and the addresses without one whose last was cancelled or expired, by rising address.
fn desk_fields(desk: &Desk) -> String {
    let shown = |(address, ticket): (&u8, &Ticket)| {
        let Ticket { job, module, type_no, register, wait, opened, folder } = ticket;
        format!("{address}:{job}:{module}:{type_no}:{register}:{wait}:{opened}:{folder}")
    };
    let tickets = list(desk.tickets.iter().map(shown).collect());
    let closed = list(desk.closed.iter().map(|(address, clock)| format!("{address}:{clock}")).collect());
    format!("turn={} tickets={tickets} closed={closed}", desk.turn)
}

/// Which data are shown, and their two bytes.
fn display_fields((shown, two): (Shown, &[u8])) -> String {
    let which = match shown {
        Shown::Fresh => "fresh",
        Shown::Kept => "kept",
    };
    format!("which={which} two={}", hex(two))
}

/// The box's edges, `?` for unknown, and its edge request that is out, `-` for none.
fn varia_fields(varia: &Varia) -> String {
    let known = |edge: Option<u16>| edge.map_or("?".to_string(), |value| value.to_string());
    let shown = |Out { address, edge, value }: Out| format!("{address}:{}:{value}", edge.name());
    let out = varia.out.map_or("-".to_string(), shown);
    format!("short={} long={} out={out}", known(varia.short), known(varia.long))
}

/// What a step of the scan has come to, and its telegram, if it opened a ticket, for the buffer.
fn step_fields(step: Step) -> (String, Vec<u8>) {
    match step {
        Step::Opened(module, Opened { address, telegram, count }) => {
            (format!("address={address} module={module} n={} count={count}", telegram.len()), telegram)
        }
        Step::Waiting(address) => (format!("waiting={address}"), Vec::new()),
        Step::Done => ("done=1".to_string(), Vec::new()),
    }
}

/// How far the scan is, its ticket that is out, `-` for none, and one letter for each finished turn, `-` for none.
fn scan_fields(scan: &Scan) -> String {
    let letter = |shown: &scan::Shown| match shown {
        scan::Shown::Absent => 'a',
        scan::Shown::Read => '1',
        scan::Shown::Refused => '2',
    };
    let (done, turns) = (u8::from(scan.is_done()), scan.shown.len());
    let out = scan.out.map_or("-".to_string(), |address| address.to_string());
    let letters: String = scan.shown.iter().map(letter).collect();
    format!("done={done} turns={turns} out={out} results={}", if turns == 0 { "-" } else { &letters })
}

/// The three numbers of the tally.
fn tally_fields(Tally { read, refused, dropped }: Tally) -> String {
    format!("read={read} refused={refused} dropped={dropped}")
}

/// The entries of a list parted by commas, `-` for none.
fn list(entries: Vec<String>) -> String {
    if entries.is_empty() {
        return "-".to_string();
    }
    entries.join(",")
}

/// The lines of a text. A last line without newline counts; nothing after the last newline is no line.
pub fn lines(text: &[u8]) -> Vec<&[u8]> {
    let mut lines: Vec<&[u8]> = text.split(|byte| *byte == b'\n').collect();
    if lines.last().map_or(false, |last| last.is_empty()) {
        lines.pop();
    }
    lines
}

/// The answers to a whole script, one line for each call line, from a fresh start.
pub fn answers(script: &[u8]) -> String {
    let mut rehearsal = Rehearsal::new();
    lines(script).iter().map(|line| rehearsal.answer(line) + "\n").collect()
}
