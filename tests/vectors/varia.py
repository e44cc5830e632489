"""varia.py calls | answers: the call lines of tests/vectors/varia_night.calls, and what each must answer. Which address is
given, which number is told and what box, bench and desk show stands here line by line, worked out by hand from the papers;
nothing here follows a box, a bench or a desk. Only the bytes of telegrams are worked out, by long division, and how far it
was from the turn to an address."""
import itertools
from functools import partial

import wire
from wire import ACK, ATT, BUSY, CHECK_ERROR, DATAGRAM, HOSTS, JOB, LONG, MODULE, MONITOR, NACK, READ, SHORT, STATUS, WRAP
from wire import WRITE, asked as given, asking, bad, box, desk, lent, making, new, no_expiry, printed, refused, say, script
from wire import telegram

ROOM = 16  # bytes lent, where nothing else is said

# ---- the box's calls


def refused_all(number, clock=0, wait=60000, room=ROOM, would=None):
    """Each thing that can be asked for, at numbers that the box itself would take."""
    for register, value in ((SHORT, 7000), (LONG, 4000), (ATT, 1000), (MONITOR, None), (STATUS, None)):
        refused(number, register, value, clock, wait, room, would)


def known(address, edge, value, clock=0):
    """The box asks for an edge, and an ack is booked."""
    given(address, edge, value, clock)
    booked(address, ACK, edge)


# ---- the desk's calls


def other(address, clock=0, job=7, module=15, sort=READ, register=102, data=b"", wait=60000):
    """An opening that is not the box's."""
    wire.given(address, clock, job, wait, module, sort, register, data, ROOM)


def booked(address, sort, register, data=b"", job=JOB, module=MODULE):
    wire.booked(address, job, module, sort, register, data)


def not_booked(number, address, sort, register, data=b"", module=MODULE, room=4, frame=None):
    wire.not_booked(number, address, module, sort, register, data, room, frame)


cancelled, no_cancel, expired = (partial(call, job=JOB) for call in (wire.cancelled, wire.no_cancel, wire.expired))


# ---- the bench's calls


def bench(att=3, short=3, long=3):
    """A bench VARIA, its setpoints with these rights."""
    say(f"bench.new {MODULE}", "ok")
    for register, rights in ((MONITOR, 1), (STATUS, 1), (ATT, att), (SHORT, short), (LONG, long)):
        say(f"bench.add {register} 3 {rights}", "ok")


def answers(frame, address, sort, register, data=b""):
    """The bench answers the box's telegram with this."""
    reply = telegram(address, MODULE, sort, register, data)
    say(f"bench.tele {frame.hex()} {lent(ROOM)}", f"ok n={len(reply)} buf={lent(ROOM, reply)}")


def exchanged(address, register, value, clock, sort=ACK, data=b""):
    """The box asks, the bench answers, and the desk books it."""
    answers(given(address, register, value, clock), address, sort, register, data)
    booked(address, sort, register, data)


def registers(monitor, att, short, long, status):
    values = ((MONITOR, 1, monitor), (ATT, 3, att), (SHORT, 3, short), (LONG, 3, long), (STATUS, 1, status))
    say("bench.dump", f"ok address={MODULE} regs=" + ",".join(f"{r}:3:{rights}:{v}" for r, rights, v in values))


def display(fresh, kept, answer):
    say(f"varia.display {fresh} {kept}", answer)


def moving(status, answer):
    say(f"varia.moving {status}", f"ok moving={answer}")


# ---- no box

ON_A_BOX = (
    f"varia.short 6000 500 0 {lent(ROOM)}", f"varia.long 5000 500 0 {lent(ROOM)}", f"varia.att 500 500 0 {lent(ROOM)}",
    f"varia.att 1001 0 0 {lent(ROOM)}", f"varia.monitor 500 0 {lent(ROOM)}", "varia.status 500 0 -",
    "varia.display 3412 -", "varia.display - -", "varia.moving 4096", "varia.dump",
)


def no_box():
    for line in ON_A_BOX:
        say(line, "no box")


no_box()
bad("varia.new", "varia.new ", "varia.new 9", "varia.new 9 256", "varia.new 4294967296 16", "varia.new -1 16", "varia.new 9 -1")
bad("varia.new 9 16 0", "varia.new 9  16", "varia.new 9 10h", "varia", "varia.", "varia.open 9 16", "VARIA.new 9 16")
no_box()  # none of those made one
bad("varia.short 6000 500 0", "varia.moving", "varia.display 3412", "varia.dump 0")  # no calls, box or not
desk(161)

# ---- the call scripts' example, as far as it goes by now

new()
other(161, 0, job=7, wait=1000)
cancelled(161, 40, job=7)
other(162, 50, job=8, wait=10)
expired(162, 100, job=8)
example = len(script)
making()
given(163, SHORT, 6000, clock=200, wait=500)
refused(59, LONG, 7000, clock=200, wait=500)
refused(62, ATT, 1001, clock=200, wait=500, room=2)
display("3412", "-", "ok which=fresh two=3412")
display("01", "3412", "ok which=kept two=3412")
display("01", "02", "no 64")
moving(4096, 1)
box(out="163:short:6000")
# the script must agree with the papers before it may judge the library
assert [answer.replace("ee", "00") for _, answer in script[example:]] == [
    "ok", "ok address=163 n=11 count=1 buf=0d10a305337017945e4d0a0000000000",
    "no 59 buf=00000000000000000000000000000000", "no 62 buf=0000", "ok which=fresh two=3412", "ok which=kept two=3412", "no 64", "ok moving=1",
    "ok short=? long=? out=163:short:6000",
]

# ---- an evening at a bench VARIA: each telegram goes from the box to the bench and its answer to the desk

new()
bench()
making()
box()
frame = given(161, SHORT, 7000, clock=1000)
box(out="161:short:7000")
answers(frame, 161, ACK, SHORT)
box(out="161:short:7000")  # the desk hasn't heard of it yet
desk(162, "161:9:16:5:51:60000:1000:0")
booked(161, ACK, SHORT)
box(short=7000)
exchanged(162, LONG, 4000, 1100)
box(7000, 4000)
exchanged(163, ATT, 500, 1200)
box(7000, 4000)
registers("0000", "f401", "581b", "a00f", "0000")
say(f"bench.set {MONITOR} 437", "ok")
exchanged(164, MONITOR, None, 1300, DATAGRAM, b"\xb5\x01")
display("b501", "-", "ok which=fresh two=b501")
say(f"bench.set {STATUS} 8194", "ok")  # filter 2 is moving, the interlock is off
exchanged(165, STATUS, None, 1400, DATAGRAM, b"\x02\x20")
moving(8194, 1)
say(f"bench.set {STATUS} 2", "ok")
exchanged(166, STATUS, None, 1500, DATAGRAM, b"\x02\x00")
moving(2, 0)
desk(167)
# another light: edges one apart, then no light
exchanged(167, SHORT, 5000, 1600)
exchanged(168, LONG, 4999, 1700)
box(5000, 4999)
refused(63, SHORT, 4999, clock=1800)
refused(63, LONG, 5000, clock=1800)
box(5000, 4999)
registers("b501", "f401", "8813", "8713", "0200")
exchanged(169, SHORT, 5000, 1900)  # the same once more is no new order
exchanged(170, LONG, 0, 1900)
exchanged(171, SHORT, 1, 1900)
box(1, 0)
registers("b501", "f401", "0100", "0000", "0200")
desk(172)
# a bench whose long-pass setpoint can't be written nacks it, and one without that of the short-pass too
bench(long=1)
exchanged(172, SHORT, 6000, 2000)
exchanged(173, LONG, 5000, 2100, NACK)
box(6000, 0)  # as it was
say(f"bench.new {MODULE}", "ok")
exchanged(174, SHORT, 6500, 2200, NACK)
exchanged(175, STATUS, None, 2300, NACK)
display("-", "0200", "ok which=kept two=0200")  # nothing fresh
box(6000, 0)
# the module says busy, then that the check failed: both leave the edge
bench()
given(176, SHORT, 6500, clock=2400)
booked(176, BUSY, SHORT)
box(6000, 0)
given(177, LONG, 3000, clock=2500)
booked(177, CHECK_ERROR, 0)  # types 0 to 3 may carry register 0
box(6000, 0)
# the ack is lost: what the module has now is unknown
frame = given(178, SHORT, 6500, clock=2600, wait=200)
answers(frame, 178, ACK, SHORT)
no_expiry(2799)
box(6000, 0, "178:short:6500")
expired(178, 2800)
box("?", 0)
desk(179, closed="178:2800")
not_booked(61, 178, ACK, SHORT)  # late
box("?", 0)
exchanged(179, LONG, 7000, 2900)  # the other one is unknown: anything goes
box("?", 7000)
refused(63, SHORT, 6500, clock=2900)  # although the module has it
exchanged(180, SHORT, 7001, 2900)
box(7001, 7000)
# given up by its job
frame = given(181, LONG, 6000, clock=3000)
cancelled(181, 3050)
box(7001, "?")
answers(frame, 181, ACK, LONG)
not_booked(61, 181, ACK, LONG)
box(7001, "?")
refused(63, LONG, 7001, clock=3100)
exchanged(182, SHORT, 0, 3100)
box(0, "?")
refused(63, LONG, 0, clock=3200)  # nothing is below 0
refused(63, LONG, 65535, clock=3200)
registers("0000", "0000", "0000", "7017", "0000")
desk(183, closed="178:2800,181:3050")

# ---- each end of an edge request, the edge known before or not, the other one known or not

OTHER = {SHORT: LONG, LONG: SHORT}
BEFORE = {SHORT: 6000, LONG: 5000}
ASKED = {SHORT: 7000, LONG: 4000}
WORD = {SHORT: "short", LONG: "long"}


def state(edge, own, others, out="-"):
    box(*((own, others) if edge == SHORT else (others, own)), out)


for edge in (SHORT, LONG):
    for own, others in (("?", "?"), (BEFORE[edge], "?"), ("?", BEFORE[OTHER[edge]]), (BEFORE[edge], BEFORE[OTHER[edge]])):
        for end, after in (
            (ACK, ASKED[edge]), (NACK, own), (CHECK_ERROR, own), (BUSY, own), ("cancel", "?"), ("expire", "?"),
        ):
            for carried in (edge, 0):
                new()
                making()
                address = 161
                if own != "?":
                    known(address, edge, own)
                    address += 1
                if others != "?":
                    known(address, OTHER[edge], others)
                    address += 1
                given(address, edge, ASKED[edge], wait=100)
                state(edge, own, others, f"{address}:{WORD[edge]}:{ASKED[edge]}")
                if end == "cancel":
                    cancelled(address, carried)
                elif end == "expire":
                    expired(address, 100 + carried)
                else:
                    booked(address, end, carried)
                state(edge, after, others)
                # the other edge, where this one is: refused unless this one is unknown
                if after == "?":
                    given(address + 1, OTHER[edge], ASKED[edge], clock=200)
                else:
                    refused(63, OTHER[edge], after, clock=200)

# ---- edges: equal, one apart, far apart, at the ends of their numbers, by number and not by bytes or sign

for long, short in ((0, 1), (255, 256), (4000, 4001), (32767, 32768), (65534, 65535), (0, 65535)):
    new()
    making()
    known(161, LONG, long)
    refused(63, SHORT, long)
    refused(63, SHORT, 0)
    refused(63, SHORT, max(long - 1, 0))
    box("?", long)
    known(162, SHORT, short)
    box(short, long)
    making()
    known(163, SHORT, short)
    refused(63, LONG, short)
    refused(63, LONG, 65535)
    refused(63, LONG, min(short + 1, 65535))
    box(short, "?")
    known(164, LONG, long)
    box(short, long)
new()
making()
known(161, LONG, 65535)  # allowed, the other one being unknown
refused(63, SHORT, 65535)  # nothing is above it
refused(63, SHORT, 0)
known(162, LONG, 65534)
known(163, SHORT, 65535)
making()
known(164, SHORT, 0)  # allowed too
refused(63, LONG, 0)
refused(63, LONG, 1)
known(165, SHORT, 1)
known(166, LONG, 0)
box(1, 0)

# ---- the other edge as last acknowledged: neither as asked for, nor as refused, nor its own last value

new()
making()
known(161, SHORT, 6000)
known(162, LONG, 5000)
given(163, LONG, 3000)
booked(163, NACK, LONG)
refused(63, SHORT, 4000)  # 3000 was asked for, 5000 acknowledged
refused(63, SHORT, 5000)
known(164, SHORT, 5001)
given(165, SHORT, 9000)
booked(165, BUSY, SHORT)
refused(63, LONG, 7000)  # 9000 was asked for
known(166, SHORT, 9000)
known(167, LONG, 7000)
known(168, LONG, 8999)
known(169, LONG, 1)
known(170, SHORT, 2)
box(2, 1)
given(171, SHORT, 3)
cancelled(171, 0)
given(172, LONG, 65535)  # the short-pass edge is unknown now: neither 2 nor 3
booked(172, CHECK_ERROR, LONG)
box("?", 1)  # the long-pass edge is still known
refused(63, SHORT, 1)
given(173, SHORT, 2)
cancelled(173, 0)
given(174, LONG, 1)
cancelled(174, 0)
box()
given(175, SHORT, 0)  # both unknown, as at first
booked(175, NACK, SHORT)
given(176, LONG, 65535)
booked(176, NACK, LONG)
box()

# ---- 59: either edge blocks both, due or not, ahead of 63 and of the desk's; attenuation and reads neither block nor are blocked

for edge in (SHORT, LONG):
    new()
    making()
    known(161, SHORT, 7000)
    known(162, LONG, 4000)
    given(163, edge, 5000, wait=100)
    out = f"163:{WORD[edge]}:5000"
    refused(59, SHORT, 6000)
    refused(59, LONG, 4500)
    refused(59, edge, 5000)
    refused(59, SHORT, 4000)  # 63 as well
    refused(59, LONG, 7000)
    refused(59, SHORT, 6000, wait=0)  # 14 as well
    refused(59, LONG, 4500, wait=60001)
    refused(59, SHORT, 6000, room=0)  # 16 as well
    refused(59, LONG, 65535, wait=0, room=0)  # 63, 14 and 16
    box(7000, 4000, out)
    given(164, ATT, 1000)
    given(165, MONITOR)
    given(166, STATUS)
    refused(62, ATT, 1001)
    refused(14, ATT, 1000, wait=0)
    refused(16, MONITOR, room=7, would=167)
    box(7000, 4000, out)
    no_expiry(99)
    refused(59, SHORT, 6000, clock=99)
    refused(59, SHORT, 6000, clock=100)  # due, and its ticket is open
    refused(59, LONG, 4500, clock=50000)
    box(7000, 4000, out)
    booked(164, NACK, ATT)
    booked(165, DATAGRAM, MONITOR, b"\x01\x02")
    booked(166, BUSY, 0)
    box(7000, 4000, out)
    given(167, ATT, 0, clock=50000)
    given(168, MONITOR, clock=50000)
    booked(163, ACK, edge)  # after its waiting time, and booked all the same
    box(*((5000, 4000) if edge == SHORT else (7000, 5000)))
    given(169, SHORT, 9000, clock=50000)  # 167 and 168 are out and don't block it
    refused(59, LONG, 1, clock=50000)
    booked(169, ACK, 0)
    given(170, LONG, 8999, clock=50000)
    booked(170, ACK, 0)
    box(9000, 8999)
    ticket = "167:9:16:5:50:60000:50000:0,168:9:16:4:19:60000:50000:0"
    desk(171, ticket)

# ---- 62: attenuation from 0 to 1000, ahead of the desk's; many may be out

new()
making()
for address, value in zip(HOSTS, (0, 1, 10, 999, 1000)):
    given(address, ATT, value)
for value in (1001, 1002, 1024, 32768, 65535):
    refused(62, ATT, value)
    refused(62, ATT, value, wait=0, room=0)
refused(14, ATT, 1000, wait=0)
box()
desk(166, ",".join(f"{address}:9:16:5:50:60000:0:0" for address in HOSTS[:5]))
for address, end in zip(HOSTS, (ACK, NACK, CHECK_ERROR, BUSY, ACK)):
    booked(address, end, ATT)
    box()
bad("varia.att 65536 500 0 eeee", "varia.att -1 500 0 eeee", "varia.short 65536 500 0 eeee", "varia.long 65536 500 0 eeee")
bad("varia.att 1000 4294967296 0 eeee", "varia.att 1000 500 4294967296 eeee", "varia.att 1000 500 0", "varia.att 500 0 eeee")
bad("varia.monitor 1000 500 0 eeee", "varia.monitor -1 0 eeee", "varia.status 500 0 EE", "varia.status 500 0 eee", "varia.dump -")
bad("varia.att 1000 500 0 eeee ", "varia.short 6.0 500 0 eeee", "varia.long 0x10 500 0 eeee", "varia.short - 500 0 eeee")
box()
desk(166)

# ---- the desk's refusals, passed up whole; nothing is out then and nothing has changed

new()
for job, module, wait, room, number in (
    (0, 16, 60000, ROOM, 10), (0, 161, 0, 0, 10), (9, 0, 60000, ROOM, 11), (9, 161, 60000, ROOM, 11), (9, 255, 0, 0, 11),
    (9, 16, 0, ROOM, 14), (9, 16, 60001, ROOM, 14), (9, 16, WRAP - 1, 0, 14), (9, 16, 60000, 0, 16), (9, 16, 60000, 7, 16),
):
    making(job, module)  # made whatever the desk will say
    refused_all(number, wait=wait, room=room, would=161 if number == 16 else None)
    refused(62, ATT, 1001, wait=wait, room=room)  # the box's own goes ahead
    box()
    desk(161)
# on the other side
for address, (job, module, wait) in zip(HOSTS, ((1, 16, 60000), (WRAP - 1, 1, 1), (9, 160, 60000), (9, 159, 59999))):
    making(job, module)
    given(address, SHORT, 7000, wait=wait, module=module)
    booked(address, ACK, SHORT, job=job, module=module)
    box(short=7000)
desk(165)
# 63 ahead of the desk's, and known edges stay where it refuses
making()
known(165, SHORT, 6000)
known(166, LONG, 5000)
refused(63, SHORT, 5000, wait=0, room=0)
refused(63, LONG, 6000, wait=60001)
refused(14, SHORT, 5001, wait=0, room=0)
refused(16, LONG, 5999, room=0, would=167)
refused(16, SHORT, 7000, room=9, would=167)
box(6000, 5000)
desk(167)
known(167, SHORT, 7000)
box(7000, 5000)

# ---- room: the very telegram's length, and one less

new()
making()
assert len(asking(16, 161, SHORT, 7000)) == len(asking(16, 162, LONG, 6999)) == 10
refused(16, SHORT, 7000, room=9, would=161)
box()
given(161, SHORT, 7000, room=10)
booked(161, ACK, SHORT)
refused(16, LONG, 6999, room=9, would=162)
given(162, LONG, 6999, room=10)
booked(162, ACK, LONG)
for address, register in ((163, MONITOR), (164, STATUS)):
    needed = len(asking(16, address, register))
    refused(16, register, room=needed - 1, would=address)
    given(address, register, room=needed)
box(7000, 6999)
# it depends on the address that would be given, here by a remainder byte that is converted
value = next(v for v in range(65536) if [len(asking(16, a, LONG, v)) for a in (161, 162)] == [10, 11])
new()
making()
given(161, LONG, value, room=10)
cancelled(161, 0)
refused(16, LONG, value, room=10, would=162)
box()
given(162, LONG, value, room=11)
# bytes that are converted: the module's, the value's lowest and highest
new()
for address, (module, value) in zip(HOSTS, itertools.product((10, 13, 94), (10, 13, 94, 0x0A00, 0x0D0A, 0x5E5E))):
    making(module=module)
    needed = len(asking(module, address, LONG, value))
    refused(16, LONG, value, room=needed - 1, would=address)
    given(address, LONG, value, room=needed, module=module)
    booked(address, ACK, LONG, module=module)
    box("?", value)

# ---- all 95 addresses open, or open and resting: 15, behind the box's own numbers

new()
making()
known(161, LONG, 4000)
for address in (*HOSTS[1:], 161):
    other(address)
refused(15, SHORT, 4001)
refused(15, LONG, 4000)
refused(15, ATT, 1000)
refused(15, MONITOR)
refused(15, STATUS, room=0)  # ahead of 16
refused(14, STATUS, wait=0)  # behind 14
refused(63, SHORT, 4000)
refused(62, ATT, 1001)
box("?", 4000)
booked(200, DATAGRAM, 102, job=7, module=15)
given(200, SHORT, 4001, clock=1000)  # free at once
refused(59, SHORT, 4001, clock=1000)
refused(59, LONG, 4001, clock=1000)
refused(15, ATT, 1000, clock=1000)
box("?", 4000, "200:short:4001")
cancelled(200, 5000)
box("?", 4000)
refused(15, SHORT, 4001, clock=5000)  # it rests
refused(15, SHORT, 4001, clock=5999)
refused(63, SHORT, 4000, clock=5999)
box("?", 4000)
given(200, SHORT, 4002, clock=6000)
booked(200, ACK, SHORT)
box(4002, 4000)
# the box's old address goes to others: whatever becomes of their tickets, the box keeps its edges
other(200, 6000, job=8)
refused(15, SHORT, 5000, clock=6000)
cancelled(200, 6000, job=8)
box(4002, 4000)
other(200, 7000, job=8, wait=100)
expired(200, 7100, job=8)  # the others are not due before 60000
box(4002, 4000)
other(200, 8100, job=8, module=16, sort=WRITE, register=SHORT, data=b"\x01\x00")
booked(200, ACK, SHORT, job=8)
box(4002, 4000)
# and from an edge that is unknown: another's ack of the same register on the same address tells it nothing
given(200, SHORT, 5000, clock=8100, wait=100)
expired(200, 8200)
box("?", 4000)
other(200, 9200, job=8, module=16, sort=WRITE, register=SHORT, data=b"\x88\x13")
booked(200, ACK, SHORT, job=8)
box("?", 4000)
other(200, 9200, job=9, module=16, sort=WRITE, register=LONG, data=b"\x01\x00")  # for the box's own job too
cancelled(200, 9200)
box("?", 4000)

# ---- others' tickets while an edge request is out, on the same module, register and job too

new()
making()
other(161, job=7, wait=100)
other(162, job=8, module=16, sort=WRITE, register=SHORT, data=b"\x01\x00")
other(163, job=9, module=16, sort=WRITE, register=SHORT, data=b"\x02\x00")
given(164, SHORT, 7000, wait=100)
other(165, job=9, module=16, sort=WRITE, register=SHORT, data=b"\x03\x00")
other(166, job=9, module=16, sort=WRITE, register=LONG, data=b"\x04\x00", wait=100)
other(167, job=7)
OUT = "164:short:7000"
box(out=OUT)
booked(162, ACK, SHORT, job=8)
box(out=OUT)
booked(163, ACK, SHORT)
box(out=OUT)
booked(165, ACK, SHORT)
box(out=OUT)
cancelled(167, 50, job=7)
box(out=OUT)
no_cancel(164, 50, job=7)  # not that job's
no_cancel(164, 50, job=0)
no_cancel(165, 50)
no_expiry(99)
box(out=OUT)
refused(59, LONG, 1, clock=99)
expired(161, 100, job=7)  # the due one with the lowest address
box(out=OUT)
expired(164, 100)
box()
expired(166, 100)
box()
no_expiry(100)
desk(168, closed="161:100,164:100,166:100,167:50")
# replies on the edge request's own address that are refused
given(168, SHORT, 7000, clock=200)
OUT = "168:short:7000"
RIGHT = telegram(168, 16, ACK, SHORT)
not_booked(1, 168, ACK, SHORT, frame=RIGHT[:-1])
not_booked(2, 168, ACK, SHORT, frame=RIGHT[:-1] + b"\r\n")
not_booked("3 place=7", 168, ACK, SHORT, frame=RIGHT[:-1] + b"\x5e\n")
not_booked(4, 168, ACK, SHORT, frame=RIGHT[:4] + b"\n")
not_booked(5, 168, ACK, SHORT, frame=telegram(168, 16, ACK, SHORT, bytes(241)))
not_booked(6, 168, ACK, SHORT, b"\x01", room=0)
not_booked(7, 168, ACK, SHORT, frame=RIGHT[:3] + bytes([RIGHT[3] ^ 1]) + RIGHT[4:])  # an ack made a busy
not_booked(8, 168, ACK, SHORT, module=0)
not_booked(9, 168, 11, SHORT)
not_booked(17, 169, ACK, SHORT)  # never given
not_booked(17, 162, ACK, SHORT)  # booked before
not_booked(61, 164, ACK, SHORT)  # the edge request before this one, late
not_booked(18, 168, ACK, SHORT, module=17)
not_booked(19, 168, DATAGRAM, SHORT, b"\x58\x1b")
not_booked(19, 168, WRITE, SHORT)
not_booked(20, 168, ACK, LONG)
not_booked(20, 168, NACK, ATT)
box(out=OUT)
refused(59, LONG, 1, clock=200)
booked(168, ACK, 0, b"\x09\x09")  # register 0 fits, and its data are not judged
box(short=7000)
not_booked(17, 168, ACK, SHORT)  # a second one
box(short=7000)
desk(169, closed="161:100,164:100,166:100,167:50")
# reads: what is booked, cancelled or expired of them is nothing to the box
given(169, MONITOR, clock=300)
given(170, STATUS, clock=300, wait=100)
given(171, MONITOR, clock=300)
given(172, STATUS, clock=300)
not_booked(19, 169, ACK, MONITOR)  # no ack on a read
booked(169, DATAGRAM, MONITOR, b"\xe8\x03")
expired(170, 400)
cancelled(171, 400)
booked(172, NACK, 0)
given(173, ATT, 7, clock=400)
cancelled(173, 400)
box(short=7000)

# ---- the clock's wrap: out since before it, due after it

new()
making()
given(161, LONG, 4000, clock=WRAP - 10, wait=100)
refused(59, SHORT, 7000, clock=WRAP - 1)
refused(59, SHORT, 7000, clock=89)
no_expiry(89)
box(out="161:long:4000")
refused(59, SHORT, 7000, clock=90)
expired(161, 90)
box()
given(162, SHORT, 7000, clock=90)
# a clock set back makes it due
expired(162, 89)
box()
desk(163, closed="161:90,162:89")

# ---- a box made anew, while the edge request of the one before is out

new()
making()
known(161, SHORT, 7000)
given(162, LONG, 4000)
box(7000, "?", "162:long:4000")
making()
box()
desk(163, "162:9:16:5:52:60000:0:0")  # the desk still has it
booked(162, ACK, LONG)
box()
given(163, SHORT, 3000)
making()
given(164, SHORT, 5000)  # nothing is out: the other one's request is not this box's
OUT = "164:short:5000"
box(out=OUT)
booked(163, ACK, SHORT)  # which this box doesn't learn from
box(out=OUT)
making(job=8, module=17)
cancelled(164, 10)
box()
given(165, LONG, 6000, module=17)
no_cancel(165, 10)  # job 8's
not_booked(18, 165, ACK, LONG)  # module 17's
booked(165, ACK, LONG, job=8, module=17)
box("?", 6000)
given(166, SHORT, 6001, module=17, wait=100)
making()
box()
given(167, SHORT, 1, wait=100)
expired(166, 100, job=8)
box(out="167:short:1")
expired(167, 100)
box()
known(168, SHORT, 7000, clock=200)
# lines that make none leave it, and a bench or a receiver is nothing to it
given(169, LONG, 1, clock=200)
bad("varia.new 9", "varia.new 9 256", "varia.new 9 16 0", "desk.new 0")
say("bench.new 16", "ok")
say("bench.new 161", "no 34")
say("rx.new 0", "ok")
box(7000, "?", "169:long:1")
booked(169, ACK, LONG)
box(7000, 1)
# a fresh desk has no box
given(170, LONG, 2, clock=200)
new()
no_box()
not_booked(17, 170, ACK, LONG)
desk(161)
making()
box()
given(161, SHORT, 1)
box(out="161:short:1")

# ---- display: exactly two bytes, the fresh ones first; what is out is nothing to it

FRESH = ("-", "f1", "f1f2", "f1f2f3", "f1f2f3f4", "f1" * 240)
KEPT = ("-", "e1", "e1e2", "e1e2e3", "e1e2e3e4", "e1" * 240)
for fresh in FRESH:
    for kept in KEPT:
        said = "no 64"
        if kept == "e1e2":
            said = "ok which=kept two=e1e2"
        if fresh == "f1f2":
            said = "ok which=fresh two=f1f2"
        display(fresh, kept, said)
display("0d0a", "-", "ok which=fresh two=0d0a")
display("-", "5e5e", "ok which=kept two=5e5e")
display("0000", "ffff", "ok which=fresh two=0000")
display("00", "ffff", "ok which=kept two=ffff")
display("ffff", "ffff", "ok which=fresh two=ffff")
bad("varia.display", "varia.display -", "varia.display f1f2", "varia.display f1f2 e1e", "varia.display F1F2 -")
bad("varia.display - - -")

# ---- moving: bits 12, 13 and 14, and no other

for bit in range(16):
    moving(2**bit, 1 if bit in (12, 13, 14) else 0)
    moving(65535 - 2**bit, 1)  # two of the three at least
for status, answer in (
    (0, 0), (65535, 1), (0x7000, 1), (0x3000, 1), (0x5000, 1), (0x6000, 1), (0x8FFF, 0), (0x8000, 0), (0x0FFF, 0), (4095, 0),
    (4096, 1), (4097, 1), (28672, 1), (28671, 1), (32767, 1), (32768, 0), (36863, 0), (36864, 1), (0x0800, 0), (0x8800, 0),
):
    moving(status, answer)
bad("varia.moving 65536", "varia.moving -1", "varia.moving -", "varia.moving 0 0", "varia.moving 1000h")
box(out="161:short:1")
desk(162, "161:9:16:5:51:60000:0:0")

printed()
