"""scan.py calls | answers: the call lines of tests/vectors/scan_night.calls, and what each must answer. Which module is asked
on which address, what becomes of each turn, which number is told and what scan, desk, box and lanes show stands here line by
line, worked out by hand from the papers; nothing here follows a scan or a desk. Only the bytes of telegrams are worked out,
by long division, and how far it was from the turn to an address. Where nothing else is said, the scan is job 5's."""
import wire
from wire import ACK, BUSY, CHECK_ERROR, DATAGRAM, HOSTS, NACK, READ, ROOM, SET, SHORT, WRAP, WRITE
from wire import asked, bad, box, cancelled, desk, every, expired, fill, given, granted, joined, lanes, lent, making, new
from wire import no_cancel, no_expiry, not_given, not_granted, printed, refusal, say, script, taken, telegram

ASKED = 0x61  # the register
JOB = 5

# ---- the scan's calls


def scanning(job=JOB):
    say(f"scan.new {job}", "ok")


def turn(address, module, clock, room=ROOM):
    """A step that opens the turn of this module, and this address is given. Hands the telegram over."""
    frame = telegram(module, address, READ, ASKED)
    said = f"ok address={address} module={module} n={len(frame)} count={taken(address)} buf={lent(room, frame)}"
    say(f"scan.step {clock} {lent(room)}", said)
    return frame


assert telegram(1, 164, READ, ASKED).hex() == "0d01a40461a7ab0a"  # the call scripts' example


def no_turn(number, clock, would=None, room=ROOM):
    """A step whose opening is refused; with 16, this address would have been given."""
    say(f"scan.step {clock} {lent(room)}", f"{refusal(number, would)} buf={lent(room)}")


def waits(address, clock, *rooms):
    """Steps while the ticket on this address is out."""
    for room in rooms or (ROOM,):
        say(f"scan.step {clock} {lent(room)}", f"ok waiting={address} buf={lent(room)}")


def done(clock, *rooms):
    """Steps after the last turn."""
    for room in rooms or (ROOM,):
        say(f"scan.step {clock} {lent(room)}", f"ok done=1 buf={lent(room)}")


def scan(turns=0, results="-", out="-", is_done=0):
    """The scan as it is shown: so many turns are finished."""
    assert turns == len(results.replace("-", ""))
    say("scan.dump", f"ok done={is_done} turns={turns} out={out} results={results}")


def no_scan():
    for line in ("scan.dump", f"scan.step 0 {lent(ROOM)}", "scan.step 4294967295 ee", "scan.step 0 -"):
        say(line, "no scan")


# ---- the desk's calls, for the scan's ticket


def booked(address, module, sort=DATAGRAM, register=ASKED, data=b"\x60", job=JOB):
    wire.booked(address, job, module, sort, register, data, max(4, len(data)))


def not_booked(number, address, module, sort=DATAGRAM, register=ASKED, data=b"\x60", room=4, frame=None):
    wire.not_booked(number, address, module, sort, register, data, room, frame)


def lost(address, clock, way="expire", job=JOB):
    """The scan's ticket is cancelled, or expires alone or as the only one of a list."""
    if way == "cancel":
        cancelled(address, clock, job)
    elif way == "expire":
        expired(address, clock, job)
    else:
        every(clock, 3, [(job, address)])


# ---- no scan before one was made, and lines that make none

no_scan()
bad("scan.new", "scan.new ", "scan.new -", "scan.new -1", "scan.new +5", "scan.new 5 0", "scan.new  5", "scan.new 4294967296")
bad("scan.new 4294967301", "scan.new 05h", "scan.New 5", "SCAN.new 5", "scan", "scan.", "scan.open 5", " scan.new 5")
no_scan()
bad("scan.step", "scan.step 0", "scan.step 0 ", "scan.dump 0")  # no calls, scan or not
scanning()  # the desk needs no desk.new
scan()
turn(161, 1, 0)
new()
no_scan()
desk(161)

# ---- the call scripts' example: the box before the scan has 163

given(161, 0, job=7, wait=1000)
cancelled(161, 40, job=7)
given(162, 50, job=8, wait=10)
every(100, 3, [(8, 162)])
making()
asked(163, SHORT, 6000, clock=200, wait=500)
example = len(script)
scanning()
turn(164, 1, 400)
waits(164, 400)
scan(out=164)
# the script must agree with the papers before it may judge the library
assert [answer.replace("ee", "00") for _, answer in script[example:]] == [
    "ok", "ok address=164 module=1 n=8 count=1 buf=0d01a40461a7ab0a00000000", "ok waiting=164 buf=000000000000000000000000",
    "ok done=0 turns=0 out=164 results=-",
]

# ---- a turn's ticket: a read of register 61h without data, 100 ms, no folder

new()
scanning()
scan()
turn(161, 1, 0, room=8)  # the very length
desk(162, "161:5:1:4:97:100:0:0")
scan(out=161)
booked(161, 1)
scan(1, "1")
desk(162)  # free at once, and the next turn is not opened by itself
turn(162, 2, 7, room=9)
desk(163, "162:5:2:4:97:100:7:0")
scan(1, "1", 162)
scanning(WRAP - 1)  # the largest job
turn(163, 1, 8)
desk(164, "162:5:2:4:97:100:7:0,163:4294967295:1:4:97:100:8:0")
booked(163, 1, job=WRAP - 1)
scan(1, "1")

# ---- each end of a turn

DATA = (b"\x60", b"", b"\x34\x12", b"\x0d\x0a\x5e", bytes(range(240)))
for data in DATA:  # its data are not judged
    new()
    scanning()
    turn(161, 1, 0)
    booked(161, 1, data=data)
    scan(1, "1")
    turn(162, 2, 0)
for sort in (NACK, CHECK_ERROR, BUSY):
    for register in (ASKED, 0):  # the manual's old modules
        for data in (b"", b"\x01\x02"):
            new()
            scanning()
            turn(161, 1, 0)
            booked(161, 1, sort, register, data)
            scan(1, "2")
            desk(162)
            turn(162, 2, 0)
            scan(1, "2", 162)
for way, clock in (
    ("cancel", 0), ("cancel", 99), ("cancel", 100), ("cancel", 5000), ("expire", 100), ("expire", 101), ("expire", 60000), ("all", 100),
    ("all", 70000),
):
    new()
    scanning()
    turn(161, 1, 0)
    lost(161, clock, way)
    scan(1, "a")
    desk(162, closed=f"161:{clock}")  # it rests
    not_booked(61, 161, 1)  # late
    scan(1, "a")
    turn(162, 2, clock)
    not_booked(61, 161, 1)
    not_booked(18, 162, 1)  # module 1 is not asked any more
    scan(1, "a", 162)
    booked(162, 2)
    scan(2, "a1")
    not_booked(17, 162, 2)
    scan(2, "a1")
# a reply after the waiting time is booked while the ticket is open
new()
scanning()
turn(161, 1, 0)
waits(161, 100)
waits(161, 60000)
booked(161, 1)
scan(1, "1")
turn(162, 2, 60000)
waits(162, 90000)
booked(162, 2, BUSY, 0, b"")
scan(2, "12")

# ---- what ends no turn: steps, whatever clock and room; replies that misfit; other jobs' cancels; what is not due

new()
scanning()
turn(161, 1, 1000)
for clock in (0, 999, 1000, 1099, 1100, 61000, WRAP - 1):
    waits(161, clock, 0, 1, 7, 8, 12, 494)
RIGHT = telegram(161, 1, DATAGRAM, ASKED, b"\x60")
not_booked(1, 161, 1, frame=RIGHT[:-1])
not_booked(2, 161, 1, frame=RIGHT[:-1] + b"\r\n")
not_booked("3 place=8", 161, 1, frame=RIGHT[:-1] + b"\x5e\n")
not_booked(4, 161, 1, frame=RIGHT[:5] + b"\n")
not_booked(5, 161, 1, data=bytes(241))
not_booked(6, 161, 1, room=0)
not_booked(7, 161, 1, frame=RIGHT[:3] + bytes([RIGHT[3] ^ 8]) + RIGHT[4:])  # a datagram made a nack
not_booked(8, 161, 0)
not_booked(9, 161, 1, 11)
not_booked(17, 162, 1)
not_booked(17, 160, 1)
for module in (2, 160, 161, 255):
    not_booked(18, 161, module)
not_booked(19, 161, 1, ACK, data=b"")  # no ack on a read: the turn waits on
not_booked(19, 161, 1, ACK, 0, b"")
not_booked(19, 161, 1, ACK)
waits(161, 1000)
for sort in (READ, WRITE, SET, 7, 9):
    not_booked(19, 161, 1, sort)
for register in (0, 96, 98, 61):  # 61 is not 61h
    not_booked(20, 161, 1, register=register)
for sort in (NACK, CHECK_ERROR, BUSY):
    not_booked(20, 161, 1, sort, 98, b"")
for job in (0, 4, 6, 65541, WRAP - 1):
    no_cancel(161, 1000, job)
no_cancel(162, 1000, JOB)
no_expiry(1000)
no_expiry(1099)
for room in (0, 1, 95):
    every(1099, room)
every(1100, 0)  # due, and no room
scan(out=161)
desk(162, "161:5:1:4:97:100:1000:0")
waits(161, 1100)
lost(161, 1100)
scan(1, "a")

# ---- others' tickets, of the same job, module and register too: whatever becomes of them, the turn goes on

new()
given(161, 0, job=JOB, module=1, register=ASKED)  # before the scan
scanning()
turn(162, 1, 0)
given(163, 0, job=JOB, wait=100, module=1, register=ASKED)
given(164, 0, job=7, wait=50, module=1, register=ASKED)
given(165, 0, job=JOB, wait=50, module=2, register=ASKED)
given(166, 0, job=8, folder=4)
given(167, 0, job=9, module=1, sort=WRITE, register=ASKED, data=b"\x01")
scan(out=162)
booked(161, 1)
scan(out=162)
waits(162, 10)
cancelled(163, 20, job=JOB)
scan(out=162)
expired(164, 50, job=7)
every(50, 1, [(JOB, 165)])
scan(out=162)
wire.booked(166, 8, folder=4)
wire.booked(167, 9, 1, ACK, ASKED, b"")
scan(out=162)
not_booked(61, 163, 1)
not_booked(17, 161, 1)
waits(162, 99)
desk(168, "162:5:1:4:97:100:0:0", "163:20,164:50,165:50")
booked(162, 1, NACK, 0, b"")
scan(1, "2")
# between turns nothing is the scan's
given(168, 99, job=JOB, module=2, register=ASKED)
booked(168, 2)
given(169, 99, job=JOB, wait=1, module=2, register=ASKED)
expired(169, 100, job=JOB)
scan(1, "2")
turn(170, 2, 100)
# expired with others: below it, above it, the list full before its turn
given(171, 100, job=7, wait=100)
given(172, 100, job=8)
every(199, 95)
every(200, 0)
every(200, 1, [(JOB, 170)])
scan(2, "2a")
turn(173, 3, 200)
every(300, 1, [(7, 171)])  # 173 is due too, and there is no room
scan(2, "2a", 173)
waits(173, 300)
given(174, 300, job=9, wait=1)
every(301, 5, [(JOB, 173), (9, 174)])
scan(3, "2aa")
# its old address goes to another, whose ticket is nothing to the scan
turn(175, 4, 301)
booked(175, 4)
for address in (*range(176, 256), 161):
    given(address, 400)
given(162, 400, job=JOB, module=4, register=ASKED)  # the first turn had it
booked(162, 4)
given(163, 1500, job=JOB, wait=100, module=5, register=ASKED)
lost(163, 1600)
scan(4, "2aa1")

# ---- a refused opening is tried again at the next call, and is no turn: 16

new()
scanning()
for room in (0, 1, 2, 7):
    no_turn(16, 0, would=161, room=room)
    scan()
desk(161)  # the desk's turn stays too
turn(161, 1, 0, room=8)
booked(161, 1)
no_turn(16, 5, would=162, room=7)
no_turn(16, 6, would=162, room=0)
scan(1, "1")
given(162, 6, job=7)  # another is quicker: then it is the next address
no_turn(16, 7, would=163, room=7)
turn(163, 2, 7)
scan(1, "1", 163)
lost(163, 7, "cancel")
# by the very telegram: modules 10, 13 and 94 are converted, and so is a remainder byte now and then
new()
scanning()
for module in range(1, 95):
    longer = {10: 9, 13: 9, 88: 9, 94: 9}  # from 248 to 88 the remainder is 0A48
    length = longer.get(module, 8)
    assert len(telegram(module, 160 + module, READ, ASKED)) == length
    no_turn(16, module, would=160 + module, room=length - 1)
    turn(160 + module, module, module, room=length)
    booked(160 + module, module, DATAGRAM if module % 2 else BUSY, data=b"")
scan(94, "12" * 47)

# ---- 15: all open, then open and resting, then all resting; and what frees an address

fill(0)
scanning()
for clock in (0, 1, 59999, 60000, WRAP - 1):  # due ones hold their addresses
    no_turn(15, clock)
    no_turn(15, clock, room=0)  # ahead of 16
scan()
desk(161, ",".join(f"{address}:{address}:15:4:102:60000:0:0" for address in HOSTS))
cancelled(161, 1000)
no_turn(15, 1000)
no_turn(15, 1999)
wire.booked(200)
no_turn(16, 1999, would=200, room=7)  # 161 rests at 999, 162 to 199 are open
turn(200, 1, 1999)
not_given(15, 1999)
waits(200, 1999)
booked(200, 1)
scan(1, "1")
turn(200, 2, 1999)  # 201 to 255 and 161 to 200: 95
lost(200, 1999, "cancel")
scan(2, "1a")
no_turn(16, 2000, would=161, room=7)  # 161 at 1000
turn(161, 3, 2000)
scan(2, "1a", 161)
lost(161, 2100)
scan(3, "1aa")
no_turn(15, 2998)  # 200 at 999
turn(200, 4, 2999)
booked(200, 4, BUSY, data=b"")
given(200, 2999)
no_turn(15, 3099)  # 161 at 999
every(62999, 95, [*range(162, 256)])  # 200 was opened at 2999; 161 is closed
given(161, 62999)
every(122999, 95, [161])
given(162, 122999)  # which has rested since 62999
scan(4, "1aa2")
# all rest
fill(0, wait=100)
scanning()
no_turn(15, 99)
every(100, 95, HOSTS)
no_turn(15, 100)
no_turn(15, 1099)
scan()
turn(161, 1, 1100)
lost(161, 1200)
turn(162, 2, 1200)
scan(1, "a", 162)

# ---- job 0: 10 for ever, ahead of 15 and 16, and nothing of it is a turn

new()
scanning(0)
for clock in (0, 1, 1000, WRAP - 1):
    no_turn(10, clock)
    no_turn(10, clock, room=0)
scan()
desk(161)
given(161, 0, job=7)
wire.booked(161, 7)
no_turn(10, 0)
fill(0)
scanning(0)
no_turn(10, 0)
no_turn(10, 0, room=0)
for address in HOSTS:
    wire.booked(address)
for clock in range(200):
    no_turn(10, clock)
scan()
desk(161)
scanning()  # for a job then
turn(161, 1, 0)

# ---- made anew: from module 1, and the ticket of the one before is nothing to it

for way in ("book", "cancel", "expire", "all"):
    new()
    scanning()
    turn(161, 1, 0)
    booked(161, 1)
    turn(162, 2, 0)
    scan(1, "1", 162)
    scanning()
    scan()
    desk(163, "162:5:2:4:97:100:0:0")  # the desk still has it
    if way == "book":
        booked(162, 2)
    else:
        lost(162, 100, way)
    scan()
    turn(163, 1, 100)  # module 1 again
    scan(out=163)
    booked(163, 1, NACK, data=b"")
    scan(1, "2")
    turn(164, 2, 100)
    # once more, both out
    scanning(6)
    turn(165, 1, 100)
    waits(165, 100)
    if way == "book":
        booked(164, 2)
    elif way == "all":
        every(200, 1, [(JOB, 164)])  # 165 is due as well, and there is no room
    else:
        lost(164, 200, way)
    scan(out=165)
    no_cancel(165, 200, JOB)  # job 6's
    booked(165, 1, job=6)
    scan(1, "1")
# between turns, and by lines that make none
new()
scanning()
turn(161, 1, 0)
lost(161, 0, "cancel")
scan(1, "a")
bad("scan.new 4294967296", "scan.new", "scan.new 5 5", "scan.step 0", "scan.step - ee", "scan.dump -")
scan(1, "a")
scanning()
scan()
turn(162, 1, 0)
# a box, a bench, a receiver and lanes made or asked for are nothing to it
making()
say("bench.new 15", "ok")
say("rx.new 0", "ok")
say("tally.set 1 2 3", "ok")
scan(out=162)
# desk.new drops it, while a ticket is out, between turns and before the first
new()
no_scan()
not_booked(17, 162, 1)
scanning()
turn(161, 1, 0)
booked(161, 1)
new()
no_scan()
scanning()
new()
no_scan()

# ---- beside the box and the lanes: the scan opens at the desk directly, and takes no lane's turn

new()
making()
joined(1, 1, JOB, 71)
joined(2, 1, 8, 81)
scanning()
turn(161, 1, 0)
asked(162, SHORT, 7000)
granted(JOB, 163, 0, 71)
scan(out=161)
lanes(1, {2: [(8, 81)]})
booked(161, 1)
box(out="162:short:7000")
wire.booked(162, 9, 16, ACK, SHORT, b"")
box(short=7000)
scan(1, "1")
turn(164, 2, 0)
granted(8, 165, 0, 81)
lanes(2)
asked(166, SHORT, 6000, wait=100)
every(100, 3, [(JOB, 164), (9, 166)])  # both are told
box()
scan(2, "1a")
joined(1, 1, JOB, ASKED, module=3)  # a request like the turn's
turn(167, 3, 100)
granted(JOB, 168, 100, ASKED, module=3)
booked(168, 3)
scan(2, "1a", 167)
lost(167, 100, "cancel")
scan(3, "1aa")
lanes(1)
# on no folder: others hold theirs, the scan none
given(169, 100, job=7, folder=3)
turn(170, 4, 100)
given(171, 100, job=8, folder=5)
booked(170, 4)
scan(4, "1aa1")
# no address for either
fill(0)
scanning()
joined(1, 1, 7, 71)
no_turn(15, 0)
not_granted(15, 0)
wire.booked(180)
turn(180, 1, 0)
not_granted(15, 0)
booked(180, 1)
granted(7, 180, 0, 71)
no_turn(15, 0)
scan(1, "1")

# ---- the clock's wrap: due at 94 and not at 93; a clock set back makes it due

new()
scanning()
turn(161, 1, 4294967290)
waits(161, 4294967295)
waits(161, 0)
no_expiry(93)
every(93, 3)
lost(161, 94)
turn(162, 2, 94)
no_expiry(94)
lost(162, 93)  # age 4294967295
scan(2, "aa")
turn(163, 3, WRAP - 1)
lost(163, 99, "all")
turn(164, 4, 99)
booked(164, 4, CHECK_ERROR, 0, b"")
scan(4, "aaa2")

# ---- a whole scan: 160 turns. A turn that is booked takes 10 ms, one that is cancelled 20, one that expires 100

RESULTS = (
    "1aa122211aa1aa121aaa"  # 1 to 20
    "222211aaaaaaaaa11121"
    "aaaaa1aaaa2aaaa2aaaa"  # 41 to 60
    "21111111111111111111"
    "1aaaaaaaaaaaaaaaaaaa"  # 81 to 100
    "a2222222222222222222"
    "212aa22a12aa22a12aa2"  # 121 to 140
    "21aaaaaaaaaaaaaaaaa1"
)
assert len(RESULTS) == 160


def told(turns, out="-", is_done=0):
    scan(turns, RESULTS[:turns], out, is_done)


def stretch(first, last, address, final, clock, ends):
    """Turns of these modules on neighbouring addresses, after 255 from 161 on, the last of which stands here once more:
    d a datagram, D without data, L with 240 bytes; n a nack, k a check error, b busy, in capitals with register 0; c
    cancelled, e expired, x expired as one of a list. Hands over the clock after them."""
    assert len(ends) == last - first + 1
    for module, end in zip(range(first, last + 1), ends):
        turn(address, module, clock)
        if end in "cex":
            clock += 20 if end == "c" else 100
            lost(address, clock, {"c": "cancel", "e": "expire", "x": "all"}[end])
        else:
            sort = {"d": DATAGRAM, "n": NACK, "k": CHECK_ERROR, "b": BUSY, "l": DATAGRAM}[end.lower()]
            data = {"d": b"\x74", "L": bytes(range(240))}.get(end, b"")
            booked(address, module, sort, 0 if end in "NKB" else ASKED, data)
            clock += 10
        if module < last:
            address = 161 if address == 255 else address + 1
    assert address == final
    return clock


new()
scanning()
clock = stretch(1, 4, 161, 164, 1000, "deed")
assert clock == 1220
desk(165, closed="162:1110,163:1210")
told(4)
clock = stretch(5, 14, 165, 174, clock, "nbkddcedex")
assert clock == 1220 + 10 + 10 + 10 + 10 + 10 + 20 + 100 + 10 + 100 + 100
told(14)
# a COMPACT is there, and answers by itself; then a VARIA, which has no such register and nacks
say("bench.new 15", "ok")
say("bench.add 97 1 1", "ok")
say("bench.set 97 116", "ok")
frame = turn(175, 15, 2000)
reply = telegram(175, 15, DATAGRAM, ASKED, b"\x74")
say(f"bench.tele {frame.hex()} {lent(16)}", f"ok n={len(reply)} buf={lent(16, reply)}")
told(14, 175)
say(f"desk.reply {reply.hex()} {lent(4)}", "ok job=5 address=175 type=8 n=1 folder=0 buf=74eeeeee")
told(15)
frame = turn(176, 16, 2010)
say(f"bench.tele {frame.hex()} {lent(16)}", f"no 35 buf={lent(16)}")  # that is not for module 15
say("bench.new 16", "ok")
reply = telegram(176, 16, NACK, ASKED)
say(f"bench.tele {frame.hex()} {lent(16)}", f"ok n={len(reply)} buf={lent(16, reply)}")
say(f"desk.reply {reply.hex()} {lent(4)}", "ok job=5 address=176 type=0 n=0 folder=0 buf=eeeeeeee")
told(16)
# an ack first, which is no answer to a read
turn(177, 17, 2020)
not_booked(19, 177, 17, ACK, data=b"")
waits(177, 2025)
told(16, 177)
booked(177, 17)
told(17)
# too late, twice
turn(178, 18, 2030)
no_expiry(2129)
lost(178, 2130)
not_booked(61, 178, 18)
turn(179, 19, 2130)
not_booked(61, 178, 18)
lost(179, 2140, "cancel")
not_booked(61, 179, 19)
told(19)
# expired with those of two other jobs
given(180, 2140, job=7, wait=50)
given(181, 2140, job=8, wait=100)
turn(182, 20, 2140)
every(2240, 95, [(7, 180), (8, 181), (JOB, 182)])
told(20)
# another job's reply while it is out
given(183, 2240, job=7)
turn(184, 21, 2240)
wire.booked(183, 7)
waits(184, 2245, 0, 12)
told(20, 184)
booked(184, 21, BUSY, data=b"")
told(21)
clock = stretch(22, 39, 185, 202, 2250, "KNBDLeeecccxxxdddn")
told(39)
# a full desk in between: the other jobs have every address
for address in (*range(203, 256), *range(161, 203)):
    given(address, 100000)
for _ in range(3):
    no_turn(15, 100000)
told(39)
cancelled(203, 100500)
no_turn(15, 101399)
wire.booked(230)
no_turn(16, 101400, would=230, room=7)
turn(230, 40, 101400)  # 203 rests, 204 to 229 are open
waits(230, 101400)
booked(230, 40)
told(40)
given(230, 101400)  # round from 231
no_turn(15, 101499)
given(203, 101500)
no_turn(15, 101500)
every(161500, 95, HOSTS)
no_turn(15, 161500)
no_turn(15, 162499)
told(40)
clock = stretch(41, 41, 204, 204, 162500, "e")
clock = stretch(42, 61, 205, 224, clock, "eeeedeeeeneeeebeeeek")
told(61)
clock = stretch(62, 81, 225, 244, clock, "dddddddddddddddddddd")
told(81)
clock = stretch(82, 101, 245, 169, clock, "cxecxecxecxecxecxecx")
told(101)
clock = stretch(102, 121, 170, 189, clock, "nkbnkbnkbnkbnkbnkbnk")
told(121)
clock = stretch(122, 141, 190, 209, clock, "dneckbxdneckbxdneckb")
told(141)
clock = stretch(142, 159, 210, 227, clock, "deeeeeeeeeeeeeeeee")
told(159)
# the last one: a short buffer first
no_turn(16, clock, would=228, room=7)
told(159)
turn(228, 160, clock + 5)
told(159, 228)
waits(228, clock + 6)
booked(228, 160)
told(160, is_done=1)
# done, however often and whenever it is asked, without room and on a desk that has none
for when in (clock + 7, 0, WRAP - 1):
    done(when, 0, 1, 7, 8, 12, 494)
told(160, is_done=1)
not_booked(17, 228, 160)
given(229, clock, job=JOB, wait=100, module=160, register=ASKED)
expired(229, clock + 100, job=JOB)
told(160, is_done=1)
# then another: module 1 again
scanning(6)
scan()
turn(230, 1, clock + 100)
scan(out=230)
booked(230, 1, job=6)
scan(1, "1")

# ---- nobody is there: 160 expire, by single calls and by lists in turn

new()
scanning()
for module in range(1, 161):
    address = 161 + (module - 1) % 95
    turn(address, module, 100 * module)
    lost(address, 100 * module + 100, "expire" if module % 2 else "all")
scan(160, "a" * 160, is_done=1)
done(16100)
fill(17100)  # and a fresh desk knows of no scan
no_scan()

# ---- everybody is there at once, on the same clock: 160 datagrams, no address twice within 95 turns

new()
scanning()
for module in range(1, 161):
    address = 161 + (module - 1) % 95
    turn(address, module, 0)
    booked(address, module)
scan(160, "1" * 160, is_done=1)
done(0)
desk(226)
# on a full desk it is done all the same
for address in (*range(226, 256), *range(161, 226)):
    given(address, 0)
done(0, 0, 12)
not_given(15, 0)

# ---- all cancelled on the same clock: 95 rest, and the 96th turn waits for the first of them

new()
scanning()
for module in range(1, 96):
    turn(160 + module, module, 50)
    lost(160 + module, 50, "cancel")
for clock in (50, 51, 1049):
    no_turn(15, clock)
scan(95, "a" * 95)
turn(161, 96, 1050)
booked(161, 96, NACK, data=b"")
scan(96, "a" * 95 + "2")

# ---- lines that are no calls change nothing

turn(162, 97, 1050)
bad(
    "scan.step", "scan.step ", "scan.step 0", "scan.step 0 ", "scan.step 0 e", "scan.step 0 EE", "scan.step 0 0x", "scan.step - ee",
    "scan.step -1 ee", "scan.step +1 ee", "scan.step 4294967296 ee", "scan.step 0  ee", "scan.step 0 ee ", "scan.step 0 ee 0",
    "scan.step 0 100 ee", "scan.step 97 0 ee", "scan.Step 0 ee", "scan.steps 0 ee", "scan.dump ", "scan.dump 0", "scan.dumps", "Scan.dump",
    "scan.end", "scan.new 5 6",
)
scan(96, "a" * 95 + "2", 162)
waits(162, 1050)

printed()
