"""What the scripts beside it share: the bytes of telegrams, worked out by long division, those of settings sheets, call
lines with the words of their answers, and how many addresses an opening considers. Nothing here follows a desk, a box or
lanes: a script says itself which address is given, and the turn stands behind that one, and which folder a ticket has, 0
for none. Nothing here reads or judges a sheet."""
import itertools
import re
import sys

HOSTS = range(161, 256)
WRAP = 2**32
ROOM = 12  # bytes lent to an opening, where nothing else is said
NACK, CHECK_ERROR, BUSY, ACK, READ, WRITE, SET, CLEAR, DATAGRAM, TOGGLE = range(10)

script = []  # a call and its answer


def say(call, answer):
    script.append((call, answer))


def bad(*lines):
    for line in lines:
        say(line, "bad line")


def printed():
    """The calls of a script, or what each must answer."""
    for call, answer in script:
        print(call if sys.argv[1:] == ["calls"] else answer)


def lent(room, first=b""):
    return (first.hex() + "ee" * (room - len(first))) or "-"


# ---- telegrams


DIVISOR = (1 << 16) | (1 << 12) | (1 << 5) | 1  # x^16 + x^12 + x^5 + 1


def remainder(data):
    """A byte string is one long binary number, and the remainder is found by taking the divisor away, highest term first,
    as long division on paper does."""
    rest = int.from_bytes(data, "big") << 16
    while rest.bit_length() > 16:
        rest ^= DIVISOR << (rest.bit_length() - 17)
    return rest


def framed(message):
    return b"\r" + re.sub(rb"[\n\r\x5e]", lambda byte: bytes([94, byte[0][0] + 64]), message) + b"\n"


def telegram(dest, src, sort, register, data=b""):
    message = bytes([dest, src, sort, register]) + data
    return framed(message + remainder(message).to_bytes(2, "big"))


assert telegram(15, 162, READ, 0x66).hex() == "0d0fa20466c7b60a"  # T1

SPECIAL = bytes([10, 13, 94])  # what is converted


def longest(head):
    """A right message of 246 bytes, all of which are converted but for those of the head: the last ten data bytes are
    looked for until both remainder bytes are converted too."""
    before = head + bytes([94] * 230)
    carried = remainder(before).to_bytes(2, "big")
    for tail in itertools.product(SPECIAL, repeat=10):
        # the remainder of what comes before is carried on by the two bytes that follow
        seal = remainder(bytes([carried[0] ^ tail[0], carried[1] ^ tail[1], *tail[2:]])).to_bytes(2, "big")
        if set(seal) <= set(SPECIAL):
            return before + bytes(tail) + seal
    raise SystemExit("no such message")


# ---- how far an opening looks

standing = 161  # where the turn stands: on a fresh desk there, then behind the address given last


def way(address):
    """The addresses from the turn up to and including this one, going up, after 255 from 161 on: how many they are."""
    if address >= standing:
        return address - standing + 1
    return (255 - standing + 1) + (address - 161 + 1)


def taken(address):
    """The count of an opening that is given this address; the turn moves behind it."""
    global standing
    count = way(address)
    standing = 161 if address == 255 else address + 1
    return count


def refusal(number, would=None):
    """What a refused opening says ahead of its buffer: with 16 the count goes up to the address that would have been
    given, and the box's own numbers have none."""
    assert (number == 16) == (would is not None)
    if number in (59, 62, 63):
        return f"no {number}"
    count = way(would) if number == 16 else {10: 0, 11: 0, 12: 0, 13: 0, 14: 0, 75: 0, 15: 95}[number]
    return f"no {number} count={count}"


# ---- the desk's calls


def new():
    global standing
    standing = 161
    say("desk.new", "ok")


def opening(job, module, sort, register, data, wait, folder, clock, room):
    return f"desk.open {job} {module} {sort} {register} {data.hex() or '-'} {wait} {folder} {clock} {lent(room)}"


def given(address, clock, job=None, wait=60000, module=15, sort=READ, register=102, data=b"", room=ROOM, folder=0):
    """An opening, by a job of the address' own number where no other is named: this address is given."""
    frame = telegram(module, address, sort, register, data)
    call = opening(address if job is None else job, module, sort, register, data, wait, folder, clock, room)
    say(call, f"ok address={address} n={len(frame)} count={taken(address)} buf={lent(room, frame)}")


def not_given(
    number, clock, would=None, job=1, wait=60000, module=15, sort=READ, register=102, data=b"", room=ROOM, folder=0
):
    """An opening that is refused; with 16, this address would have been given."""
    call = opening(job, module, sort, register, data, wait, folder, clock, room)
    say(call, f"{refusal(number, would)} buf={lent(room)}")


# what 10 to 14 are told of
FAULTS = (
    (10, dict(job=0)), (11, dict(module=0)), (11, dict(module=161)), (11, dict(module=255)), (12, dict(sort=3)),
    (12, dict(sort=8)), (12, dict(sort=10)), (12, dict(sort=255)), (13, dict(data=b"\x03")),
    (13, dict(sort=WRITE, data=bytes(241))), (14, dict(wait=0)), (14, dict(wait=60001)), (14, dict(wait=WRAP - 1)),
    # and with all that come behind it
    (13, dict(data=b"\x03", wait=0)), (12, dict(sort=3, data=bytes(241), wait=60001)),
    (11, dict(module=161, sort=3, data=bytes(241), wait=0)),
    (10, dict(job=0, module=0, sort=255, data=bytes(241), wait=0)),
)


def fill(clock, wait=60000, short=()):
    """A fresh desk whose 95 addresses are all given, each to the job of its number; those of `short` wait 100 ms."""
    new()
    for address in HOSTS:
        given(address, clock, wait=100 if address in short else wait)


def cancelled(address, clock, job=None, folder=0):
    job = address if job is None else job
    say(f"desk.cancel {job} {address} {clock}", f"ok job={job} address={address} folder={folder}")


def no_cancel(address, clock, job=None):
    say(f"desk.cancel {address if job is None else job} {address} {clock}", "no 21")


def expired(address, clock, job=None, folder=0):
    say(f"desk.expire {clock}", f"ok job={address if job is None else job} address={address} folder={folder}")


def no_expiry(clock):
    say(f"desk.expire {clock}", "no 22")


def every(clock, room, expired=()):
    """All that is due: these expire in this order, each an address of the job of its own number, or job and address, or
    these and a folder; all other entries of the list stay."""
    each = [(one, one) if isinstance(one, int) else one for one in expired]
    entries = ["{}:{}:{}".format(*one, 0) for one in each]  # 0 where no folder is named
    stayed = ["."] * (room - len(entries))
    assert len(entries) <= room
    say(f"desk.expall {clock} {room}", f"ok n={len(entries)} list={','.join(entries + stayed) or '-'}")


def booked(address, job=None, module=15, sort=DATAGRAM, register=102, data=b"\x34\x12", room=4, folder=0):
    frame = telegram(address, module, sort, register, data)
    job = address if job is None else job
    said = f"ok job={job} address={address} type={sort} n={len(data)} folder={folder} buf={lent(room, data)}"
    say(f"desk.reply {frame.hex()} {lent(room)}", said)


def not_booked(number, address, source=15, sort=DATAGRAM, register=102, data=b"\x34\x12", room=4, frame=None):
    """The number is one, or 3 with its place."""
    frame = frame or telegram(address, source, sort, register, data)
    say(f"desk.reply {frame.hex()} {lent(room)}", f"no {number} buf={lent(room)}")


def misread(address):
    """Replies to a ticket that is or was on this address, which the frame reader refuses."""
    right = telegram(address, 15, DATAGRAM, 102, b"\x34\x12")
    not_booked(1, address, frame=right[:-1])
    not_booked(2, address, frame=right[:-1] + b"\r\n")
    not_booked(f"3 place={len(right) - 1}", address, frame=right[:-1] + b"\x5e\n")
    not_booked(4, address, frame=right[:5] + b"\n")
    not_booked(5, address, data=bytes(241))
    not_booked(6, address, room=1)
    not_booked(7, address, frame=right[:-2] + bytes([right[-2] ^ 1]) + b"\n")
    not_booked(8, address, source=0)
    not_booked(9, address, sort=11)


def desk(turn, tickets="-", closed="-"):
    """The desk as it is shown, its turn stated once more by hand."""
    assert turn == standing
    say("desk.dump", f"ok turn={turn} tickets={tickets} closed={closed}")


def shown(turn, tickets, closed):
    """The desk: tickets as a list of (address, job, wait, opened), with a folder behind them where they have one, or as
    they are shown, closings of (address, clock)."""
    each = [one if isinstance(one, str) else "{}:{}:15:4:102:{}:{}:{}".format(*one, 0) for one in tickets]
    desk(turn, ",".join(each) or "-", ",".join(f"{address}:{clock}" for address, clock in closed) or "-")


# ---- the filter box's calls

JOB, MODULE = 9, 16  # where nothing else is said: a VARIA with its switch at 0
ATT, SHORT, LONG, MONITOR, STATUS = 0x32, 0x33, 0x34, 0x13, 0x66
NAMES = {ATT: "att", SHORT: "short", LONG: "long", MONITOR: "monitor", STATUS: "status"}


def making(job=JOB, module=MODULE):
    say(f"varia.new {job} {module}", "ok")


def asking(module, address, register, value=None):
    """The box's telegram: a write of the value, lowest byte first, or a read."""
    if value is None:
        return telegram(module, address, READ, register)
    return telegram(module, address, WRITE, register, value.to_bytes(2, "little"))


assert asking(16, 163, SHORT, 6000).hex() == "0d10a305337017945e4d0a"  # the call scripts' example


def wish(register, value, clock, wait, room):
    words = [f"varia.{NAMES[register]}", value, wait, clock, lent(room)]
    return " ".join(str(word) for word in words if word is not None)


def asked(address, register, value=None, clock=0, wait=60000, room=16, module=MODULE):
    """The box asks, and this address is given. Hands the telegram over."""
    frame = asking(module, address, register, value)
    said = f"ok address={address} n={len(frame)} count={taken(address)} buf={lent(room, frame)}"
    say(wish(register, value, clock, wait, room), said)
    return frame


def refused(number, register, value=None, clock=0, wait=60000, room=16, would=None):
    """The box asks and is refused; with 16, this address would have been given."""
    say(wish(register, value, clock, wait, room), f"{refusal(number, would)} buf={lent(room)}")


def box(short="?", long="?", out="-"):
    say("varia.dump", f"ok short={short} long={long} out={out}")


# ---- the lanes' calls

ENOUGH = 494  # bytes, which a grant wants


def request(job, register, module=15, sort=READ, data=b"", wait=60000, folder=0):
    """A request as lane.dump shows it."""
    return f"{job}:{module}:{sort}:{register}:{data.hex() or '-'}:{wait}:{folder}"


def joining(job, register, **how):
    return "lane.join " + request(job, register, **how).replace(":", " ")


def joined(lane, at, job, register, **how):
    """The request takes this place in this lane."""
    say(joining(job, register, **how), f"ok lane={lane} at={at}")


def not_joined(number, job, register=102, **how):
    say(joining(job, register, **how), f"no {number}")


def granted(job, address, clock, register, module=15, sort=READ, data=b"", room=ENOUGH):
    """A grant opens this job's request, and this address is given."""
    frame = telegram(module, address, sort, register, data)
    said = f"ok job={job} address={address} n={len(frame)} count={taken(address)} buf={lent(room, frame)}"
    say(f"lane.grant {clock} {lent(room)}", said)


def not_granted(number, clock=0, room=ENOUGH):
    """73 and 74 are the lanes' own and have no count."""
    said = f"no {number}" if number in (73, 74) else refusal(number)
    say(f"lane.grant {clock} {lent(room)}", f"{said} buf={lent(room)}")


def taken_out(job, clock=0, room=ENOUGH):
    """A grant comes to this job's request, whose folder another job holds."""
    say(f"lane.grant {clock} {lent(room)}", f"no 75 job={job} count=0 buf={lent(room)}")


def withdrawn(job, place):
    say(f"lane.withdraw {job} {place}", "ok")


def not_withdrawn(job, *places):
    for place in places:
        say(f"lane.withdraw {job} {place}", "no 55")


def lanes(last, held={}):
    """The lane last served, and those that hold something: requests as they are shown, or job and register, with a folder
    behind them where they have one."""
    each = {
        lane: ",".join(one if isinstance(one, str) else request(*one[:2], folder=(*one, 0)[2]) for one in held[lane])
        for lane in held
    }
    say("lane.dump", f"ok last={last} lanes=" + "|".join(each.get(lane, "-") for lane in range(1, 17)))


# ---- settings (module, register, kind, count, value) and the sheet of them

LINE = 65536  # bytes: no call line has more
SIZES = {1: 1, 2: 1, 3: 2, 4: 2, 5: 4, 6: 4, 7: 8}


def text(data):
    return data.hex() or "-"


def little(number, width=4):
    return number.to_bytes(width, "little")


def laid(settings):
    """The sheet of these settings as they stand."""
    records = values = b""
    for *head, value in settings:
        records += bytes(head) + little(len(values))
        values += value
    return little(1, 2) + little(len(settings), 2) + little(12) + little(12 + 8 * len(settings)) + records + values


def changed(sheet, *changes):
    """The sheet with other bytes at these places, none of which moves another."""
    for place, data in changes:
        data = bytes.fromhex(data) if isinstance(data, str) else data
        assert sheet[place:place + len(data)] != data and place + len(data) <= len(sheet)
        sheet = sheet[:place] + data + sheet[place + len(data):]
    return sheet


def named(settings):
    return ";".join(":".join(map(str, head)) + ":" + text(value) for *head, value in settings) or "-"
