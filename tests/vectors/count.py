"""count.py calls | answers: the call lines of tests/vectors/count_night.calls, and what each must answer. How many addresses
an opening considers stands here beside the address that it is given, both worked out by hand from the papers; nothing here
follows a desk or a box. Where the count is not what the turn, behind the address given last, makes it, the script ends."""
import re

from wire import ACK, ATT, DATAGRAM, FAULTS, HOSTS, JOB, LONG, MODULE, MONITOR, NACK, READ, SHORT, STATUS, WRAP, WRITE
from wire import asked, box, booked, cancelled, desk, every, expired, fill, given, making, new, no_cancel, no_expiry
from wire import not_booked, not_given, printed, refused, say, script, shown, telegram, way

ROUND = [*HOSTS, *HOSTS]  # going up, after 255 from 161 on


def looks(count, address, clock=0, **how):
    """An opening that considers so many addresses, and is given the last of them."""
    assert count == way(address)
    given(address, clock, **how)


def short(count, address, clock=0, room=7, **how):
    """The same in a buffer that is too short for it."""
    assert count == way(address)
    not_given(16, clock, would=address, room=room, **how)


def box_looks(count, address, register, value=None, clock=0, **how):
    """The box asks, and so many addresses are considered."""
    assert count == way(address)
    asked(address, register, value, clock, **how)


def box_short(count, address, register, value=None, clock=0, room=7):
    assert count == way(address)
    refused(16, register, value, clock, room=room, would=address)


# ---- before the first desk.new, and on a fresh desk: the turn's own address, and the turn moves on with it

for _ in range(2):
    looks(1, 161)
    looks(1, 162)
    looks(1, 163)
    new()

# ---- the call scripts' example, as far as it goes by now

ZEROS = "000000000000000000000000"
say(f"desk.open 7 15 4 102 - 1000 3 0 {ZEROS}", "ok address=161 n=8 count=1 buf=0d0fa104669ee60a00000000")
say(f"desk.open 8 15 4 102 - 1000 3 0 {ZEROS}", f"no 75 count=0 buf={ZEROS}")
say("desk.open 0 15 4 102 - 1000 3 0 -", "no 10 count=0 buf=-")
say("desk.open 8 15 4 102 - 1000 0 0 00", "no 16 count=1 buf=00")
say("desk.cancel 7 161 40", "ok job=7 address=161 folder=3")
say(f"desk.open 8 15 4 102 - 10 4 50 {ZEROS}", "ok address=162 n=8 count=1 buf=0d0fa20466c7b60a00000000")
say("desk.expall 100 3", "ok n=1 list=8:162:4,.,.")
say("varia.new 9 16", "ok")
say(f"varia.short 6000 500 200 {'00' * 16}", "ok address=163 n=11 count=1 buf=0d10a305337017945e4d0a0000000000")
say(f"varia.long 7000 500 200 {'00' * 16}", f"no 59 buf={'00' * 16}")
say("varia.att 1001 500 200 0000", "no 62 buf=0000")

# ---- all 95, one after the other: each is the turn's own; the 96th finds none, however often it is asked for

new()
for address in HOSTS:
    short(1, address)
    looks(1, address)
OPEN = [(address, address, 60000, 0) for address in HOSTS]
for _ in range(3):
    not_given(15, 0)
not_given(15, 0, room=0)  # ahead of 16
not_given(15, 60000)  # all are due, and hold their addresses
shown(161, OPEN, [])
# 94 open and the 95th free: the last one that is considered, the first, one in the middle
booked(255)
looks(95, 255)
booked(161)
looks(1, 161)  # the turn has come round
booked(208)
looks(47, 208)  # 162 to 208
booked(208)
looks(95, 208)  # 209 to 255 are 47, 161 to 208 are 48
not_given(15, 0)
shown(209, OPEN, [])

# ---- each count from 1 to 95: all are open but one, which is so far from the turn; 16 first, which moves no turn

fill(0)
turn = 0  # its place in ROUND
for count in range(1, 96):
    address = ROUND[turn + count - 1]
    booked(address)
    short(count, address)
    looks(count, address)
    turn = (turn + count) % 95
not_given(15, 0)

# ---- all addresses rest: closed at 100, 101, .. in the order in which they will be given, each `step` further on than the
# one before it, so that one is at 1000 ms and all others at less; it is cancelled again at once and rests

for step, times in ((1, 12), (2, 95), (47, 24), (94, 24)):
    fill(0)
    order = [ROUND[(step * n - 1) % 95] for n in range(1, 96)]
    assert sorted(order) == list(HOSTS)
    for n, address in enumerate(order):
        cancelled(address, 100 + n)
    not_given(15, 194)  # no address is open, all rest
    for n, address in enumerate(order[:times]):
        not_given(15, 1099 + n)  # it is at 999
        short(step, address, 1100 + n)  # 1000
        looks(step, address, 1100 + n)
        not_given(15, 1100 + n)  # now it is open
        cancelled(address, 1100 + n)

# ---- past 255: the turn at 255, which is free; then it is taken, 161 too, and more

fill(0)
booked(254)
looks(94, 254)  # the turn is at 255 now
booked(255)
short(1, 255)
looks(1, 255)  # and at 161
booked(254)
looks(94, 254)
booked(161)
short(2, 161)
looks(2, 161)  # 255 is taken
booked(254)
looks(93, 254)  # 162 to 254
booked(162)
looks(3, 162)  # 255 and 161 are taken
booked(254)
looks(92, 254)
booked(163)
booked(164)  # further than the first free one nothing is considered
looks(4, 163)
looks(1, 164)
booked(253)
looks(89, 253)  # 165 to 253
booked(161)
looks(3, 161)  # 254, 255, 161
booked(254)
looks(93, 254)  # 162 to 254
booked(254)
short(95, 254)
looks(95, 254)  # 255, and 161 to 254: the whole round, from 255
not_given(15, 0)
# with rests: 255 and 161 are passed over while they rest
cancelled(255, 1000)
cancelled(161, 1500)
booked(163)
short(4, 163, 1999)  # 255 at 999, 161 at 499, 162 open
looks(4, 163, 1999)
booked(254)
looks(91, 254, 1999)  # 164 to 254
looks(1, 255, 2000)  # 255 at 1000
booked(162)
looks(2, 162, 2000)  # 161 at 500
booked(254)
looks(92, 254, 2000)  # 163 to 254
booked(255)
cancelled(254, 2000)
booked(162)
looks(1, 255, 2000)
looks(2, 162, 2499)  # 161 at 999
looks(94, 161, 2500)  # 163 to 255 are 93; 254 among them, at 500
looks(93, 254, 3000)  # 162 to 254
not_given(15, 3000)

# ---- rests in between, at 999 and at 1000 ms, a clock set back, a clock gone round

fill(0)
cancelled(165, 1000)
booked(170)
short(10, 170, 1000)  # 165 at 0: passed over, and counted
short(10, 170, 1999)  # 999
short(5, 165, 2000)  # 1000: given, and nothing behind it is considered
short(5, 165, 999)  # set back by one: its age is 4294967295
short(5, 165, 0)
short(10, 170, 1500)  # gone round: it rests again
short(5, 165, WRAP - 1)
looks(10, 170, 1999)
not_given(15, 1999)
short(90, 165, 2000)  # 171 to 255 are 85, 161 to 165 are 5
looks(90, 165, 2000)
# several of them, closed a millisecond after one another: 166 to 170 at 3000 to 3004; 171 is free all the time
for n, address in enumerate((166, 167, 168, 169, 170)):
    cancelled(address, 3000 + n)
booked(171)
for clock, count, address in (
    (2999, 1, 166), (3000, 2, 167), (3003, 5, 170), (3004, 6, 171), (3999, 6, 171), (4000, 1, 166), (4004, 1, 166),
):
    short(count, address, clock)
looks(1, 166, 4000)
short(5, 171, 4000)  # 167 at 999
looks(1, 167, 4001)
short(4, 171, 4001)  # 168 to 170 rest
looks(1, 168, 4002)
looks(3, 171, 4002)  # 169 and 170 rest
not_given(15, 4002)
looks(93, 169, 4003)  # 172 to 255 are 84, 161 to 169 are 9
not_given(15, 4003)  # 170 at 999
looks(1, 170, 4004)
not_given(15, 4004)
# closed in the other order, the furthest first
for n, address in enumerate((175, 174, 173, 172, 171)):
    cancelled(address, 5000 + n)
not_given(15, 5999)
for clock, count, address in ((6000, 5, 175), (6001, 4, 174), (6002, 3, 173), (6003, 2, 172), (6004, 1, 171)):
    short(count, address, clock)
looks(5, 175, 6000)
looks(94, 174, 6001)  # 176 to 255 are 80, 161 to 174 are 14
looks(94, 173, 6002)  # 175 to 255 are 81, 161 to 173 are 13
OPENED = {165: 2000, 166: 4000, 167: 4001, 168: 4002, 169: 4003, 170: 4004, 173: 6002, 174: 6001, 175: 6000}
left = [(address, address, 60000, OPENED.get(address, 0)) for address in HOSTS if address not in (171, 172)]
shown(174, left, [(171, 5004), (172, 5003)])

# ---- some open, some resting: the 48 odd addresses are closed at 2000, the even ones are open

fill(0)
for address in HOSTS[::2]:
    cancelled(address, 2000)
not_given(15, 2999)
booked(254)
short(94, 254, 2999)
looks(94, 254, 2999)  # 47 resting and 46 open ones come before it
not_given(15, 2999)
looks(1, 255, 3000)
looks(1, 161, 3000)
for address in range(163, 255, 2):
    looks(2, address, 3000)  # an open one comes before it
not_given(15, 3000)
# threes: one open, one resting, one free
fill(0)
for address in range(162, 256, 3):
    cancelled(address, 1000)
for address in range(163, 256, 3):
    booked(address)
looks(3, 163, 1999)
looks(3, 166, 1999)
looks(3, 169, 1999)  # 167 open, 168 at 999
looks(2, 171, 2000)  # 170 open, 171 at 1000
looks(1, 172, 2000)
looks(2, 174, 2000)
looks(1, 175, 1999)  # the clock set back within the rests
for address in range(178, 256, 3):
    looks(3, address, 1999)
not_given(15, 1999)
looks(2, 255, 2000)  # 254 is open
looks(2, 162, 2000)
looks(3, 165, 2000)  # 163 has been given
looks(3, 168, 2000)
looks(9, 177, 2000)  # 169 to 176 are open
looks(3, 180, 2000)

# ---- 16 counts up to the very address whose telegram was too long: 8 bytes on 161, 9 on 162 for this register

new()
for room in range(8):
    short(1, 161, room=room)
looks(1, 161, room=8)
short(1, 162)
desk(162, "161:161:15:4:102:60000:0:0")
register = next(r for r in range(256) if [len(telegram(15, a, READ, r)) for a in (161, 162)] == [8, 9])
fill(0)
cancelled(162, 0)
cancelled(161, 1000)
short(2, 162, 1999, room=8, register=register)  # 161 at 999
short(1, 161, 2000, room=7, register=register)
looks(1, 161, 2000, room=8, register=register)
short(1, 162, 2000, room=8, register=register)
booked(161, register=register)
looks(1, 162, 2000, room=9, register=register)
short(94, 161, 2000, room=7, register=register)  # 163 to 255 are 93
looks(94, 161, 2000, room=8, register=register)
# the longest data, too
DATA = bytes(range(16, 256))
length = len(telegram(15, 209, WRITE, 48, DATA))
booked(209)
for room in (0, 247, length - 1):
    short(48, 209, 2000, room=room, sort=WRITE, register=48, data=DATA)  # 162 to 209
looks(48, 209, 2000, room=length, sort=WRITE, register=48, data=DATA)
not_given(15, 2000, room=length - 1, sort=WRITE, register=48, data=DATA)

# ---- 10 to 14: none is considered, on whatever desk and with whatever else is wrong; the lowest number is told


def none_considered():
    for number, wrong in FAULTS:
        not_given(number, 0, **wrong)
        not_given(number, 0, room=0, **wrong)  # a short buffer as well


new()
none_considered()
short(1, 161)  # the turn is where it was
desk(161)
looks(1, 161)
# all open: 15 and 16 stand behind them
fill(0)
none_considered()
not_given(15, 0, room=0)
shown(161, OPEN, [])
# one free, far from the turn
booked(255)
none_considered()
short(95, 255)
looks(95, 255)
# all resting
for address in HOSTS:
    cancelled(address, 0)
none_considered()
not_given(15, 999)
looks(1, 161, 1000)

# ---- after each kind of closing: a booked address is given at once, whatever its reply's type; one that was cancelled or
# expired, alone or with others, is passed over until its rest is over; none of these moves the turn

fill(0, short=(200, 210, 220, 230, 250))
booked(180)
looks(20, 180)  # 161 to 180
booked(183, sort=NACK, data=b"")
looks(3, 183)  # 181 to 183
cancelled(190, 0)
not_given(15, 0)
not_given(15, 999)
short(7, 190, 1000)
looks(7, 190, 1000)  # 184 to 190
expired(200, 1000)
not_given(15, 1999)
looks(10, 200, 2000)
every(2000, 2, [210, 220])
not_given(15, 2999)
looks(10, 210, 3000)
every(3000, 1, [230])
looks(10, 220, 3000)  # closed at 2000
not_given(15, 3999)
looks(10, 230, 4000)
every(4000, 9, [250])
booked(240)
looks(10, 240, 4000)
not_given(15, 4999)
looks(10, 250, 5000)
# calls that close nothing leave the count
booked(249)
no_cancel(249, 5000)
no_cancel(161, 5000, job=1)
no_expiry(5000)
every(5000, 3)
every(70000, 0)
not_booked(17, 249)
not_booked(18, 161, source=16)
looks(94, 249, 5000)  # 251 to 255 are 5, 161 to 249 are 89

# ---- through the filter box: what opening answers goes up whole, and its own numbers have no count

EACH = ((SHORT, 7000), (LONG, 4000), (ATT, 1000), (MONITOR, None), (STATUS, None))


def refused_each(number, clock=0, **how):
    for register, value in EACH:
        refused(number, register, value, clock, **how)


def answered(address, sort, register, data=b""):
    booked(address, JOB, MODULE, sort, register, data)


# on a fresh desk, others' openings between
new()
making()
box_short(1, 161, SHORT, 7000)
box_looks(1, 161, SHORT, 7000)
refused(59, LONG, 4000)
refused(59, SHORT, 7000, room=0)
looks(1, 162)
box_looks(1, 163, ATT, 0)
refused(62, ATT, 1001)
box_looks(1, 164, MONITOR)
looks(1, 165)
box_looks(1, 166, STATUS)
answered(161, ACK, SHORT)
refused(63, LONG, 7000)
refused(63, LONG, 65535, room=0)
box_looks(1, 167, LONG, 6999)  # 161 is free again, and behind the turn
looks(1, 168)
# 10, 11 and 14 with 0, on a fresh desk and on a full one, in a short buffer too
for filled in (False, True):
    if filled:
        fill(0)
    else:
        new()
    for job, module, wait, number in (
        (0, 16, 60000, 10), (0, 161, 0, 10), (9, 0, 60000, 11), (9, 161, 60000, 11), (9, 255, 0, 11), (9, 16, 0, 14),
        (9, 16, 60001, 14),
    ):
        making(job, module)
        refused_each(number, wait=wait)
        refused_each(number, wait=wait, room=0)
        refused(62, ATT, 1001, wait=wait, room=0)
    desk(161, ",".join(f"{a}:{a}:15:4:102:60000:0:0" for a in HOSTS) if filled else "-")
# on the full one
making()
refused_each(15)
refused_each(15, room=0)
refused(62, ATT, 1001)
box()
booked(200)
for register, value in EACH:
    box_short(40, 200, register, value)
box_short(40, 200, SHORT, 7000, room=9)
box_looks(40, 200, SHORT, 7000, room=10)  # 161 to 200
refused(59, SHORT, 7000)
refused(59, LONG, 4000, room=0)
refused(15, ATT, 1000)
refused(15, STATUS, room=0)
answered(200, ACK, SHORT)
refused(63, LONG, 7000)
box_short(95, 200, LONG, 6999)
box_looks(95, 200, LONG, 6999)  # 201 to 255 are 55, 161 to 200 are 40
answered(200, ACK, LONG)
box(7000, 6999)
box_looks(95, 200, ATT, 1000)
answered(200, NACK, ATT)
box_looks(95, 200, MONITOR)
answered(200, DATAGRAM, MONITOR, b"\x01\x02")
box_looks(95, 200, STATUS)
booked(205)
box_looks(5, 205, MONITOR)
# over addresses that rest
cancelled(210, 1000)
booked(212)
box_short(7, 212, STATUS, clock=1999)  # 210 at 999
box_looks(5, 210, ATT, 1, clock=2000)
box_looks(2, 212, SHORT, 7001, clock=2000)
refused(59, SHORT, 7001, clock=2000)
cancelled(212, 2000, job=JOB)
box("?", 6999)
refused(63, SHORT, 6999, clock=2999)
refused(15, SHORT, 8000, clock=2999)
box_short(95, 212, SHORT, 8000, clock=3000)
box_looks(95, 212, SHORT, 8000, clock=3000, wait=100)
expired(212, 3100, job=JOB)
refused_each(15, clock=4099)
box_looks(95, 212, MONITOR, clock=4100)
# past 255
booked(255)
booked(161)
booked(163)
box_looks(43, 255, MONITOR, clock=4100)  # 213 to 255
box_looks(1, 161, STATUS, clock=4100)
box_looks(2, 163, LONG, 5000, clock=4100)
booked(162)
looks(94, 162, 4100)  # 164 to 255 are 92

# every count from 1 to 95 has been met, given and refused
for kind in (r"ok address=\d+ n=\d+", "no 16"):
    met = {int(found[1]) for _, answer in script if (found := re.match(rf"{kind} count=(\d+) ", answer))}
    assert met == set(range(1, 96))

printed()
