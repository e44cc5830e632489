"""expall.py calls | answers: the call lines of tests/vectors/expall_night.calls, and what each must answer. Which tickets
expire and in which order, which entries stay, what rests then and what desk and box show stands here line by line, worked
out by hand from the papers; nothing here follows a desk or a box. Only the bytes of telegrams are worked out, by long
division, and how far it was from the turn to an address."""
from functools import partial

import wire
from wire import ACK, ATT, HOSTS, JOB, LONG, MODULE, MONITOR, NAMES, ROOM, SHORT, STATUS, WRAP, WRITE
from wire import bad, booked, box, cancelled, every, expired, fill, given, making, new, no_cancel, no_expiry, not_booked
from wire import not_given, printed, say, script, shown

asked, refused = partial(wire.asked, room=ROOM), partial(wire.refused, room=ROOM)


def acked(address, register):
    booked(address, JOB, MODULE, ACK, register, b"")


# ---- before the first desk.new, and on a fresh desk: nothing is due

for _ in range(2):
    for room in (0, 1, 2, 94, 95, 96, 200):
        every(0, room)
    every(WRAP - 1, 3)
    every(2**31, 3)
    shown(161, [], [])
    say("varia.dump", "no box")
    new()

# ---- the call scripts' example, as far as it goes by now

given(161, 0, job=7, wait=1000, folder=3)
cancelled(161, 40, job=7, folder=3)
shown(162, [], [(161, 40)])
given(162, 50, job=8, wait=10, folder=4)
every(100, 3, [(8, 162, 4)])
assert script[-1] == ("desk.expall 100 3", "ok n=1 list=8:162:4,.,.")
shown(163, [], [(161, 40), (162, 100)])

# ---- the power dip: 95 tickets, none of them due, then all; a list of none

OPEN = [(address, address, 60000, 0) for address in HOSTS]
CLOSED = [(address, 60000) for address in HOSTS]
fill(0)
for room in (0, 1, 2, 94, 95, 96, 200):
    every(0, room)  # just opened
    every(59999, room)  # one ms before
shown(161, OPEN, [])
every(60000, 0)  # all are due, and there is no room
every(WRAP - 1, 0)
shown(161, OPEN, [])
not_given(15, 60000)

# ---- all 95 due, 95 entries

every(60000, 95, HOSTS)
shown(161, [], CLOSED)  # no turn is moved
for room in (0, 1, 94, 95, 96):
    every(60000, room)  # nothing is left
no_expiry(60000)
every(WRAP - 1, 95)  # at no clock
shown(161, [], CLOSED)
not_given(15, 60000)  # all 95 rest
not_given(15, 60999)
for address in HOSTS:
    not_booked(61, address)  # each was expired
given(161, 61000)
given(162, 61000)
every(61000, 95)  # two tickets, just opened
every(120999, 95)
every(121000, 95, [161, 162])
shown(163, [], [(161, 121000), (162, 121000), *CLOSED[2:]])  # the others rest from the call that closed them

# ---- 96 entries: the last one stays

fill(0)
every(60000, 96, HOSTS)
shown(161, [], CLOSED)

# ---- 200: the last 105 stay

fill(0)
every(60000, 200, HOSTS)
shown(161, [], CLOSED)
bad("desk.expall 60000 201")

# ---- 94: 255 is left, and comes at a second call

fill(0)
every(60000, 94, HOSTS[:94])
shown(161, [(255, 255, 60000, 0)], CLOSED[:94])
not_booked(61, 254)
every(60000, 0)
every(60000, 94, [255])
shown(161, [], CLOSED)

# ---- 1: the lowest, and the other 94 at a second call

fill(0)
every(60000, 1, [161])
shown(161, OPEN[1:], CLOSED[:1])
every(60000, 94, HOSTS[1:])
shown(161, [], CLOSED)
every(60000, 1)

# ---- as single expiries would: both by turns, each going on where the other has ended

fill(0)
expired(161, 60000)
every(60000, 2, [162, 163])
expired(164, 60000)
every(60000, 1, [165])
every(60000, 0)
every(60000, 3, [166, 167, 168])
expired(169, 60000)
shown(161, OPEN[9:], CLOSED[:9])
every(60000, 85, range(170, 255))
expired(255, 60000)
no_expiry(60000)
shown(161, [], CLOSED)

# ---- at two clocks: each address rests from the call that closed it

fill(0)
every(60000, 50, HOSTS[:50])  # 161 to 210
every(60500, 50, HOSTS[50:])  # 211 to 255; five entries stay
shown(161, [], [*((a, 60000) for a in range(161, 211)), *((a, 60500) for a in range(211, 256))])
not_given(15, 60999)
for address in HOSTS[:50]:
    given(address, 61000)
not_given(15, 61000)
not_given(15, 61499)
given(211, 61500)

# ---- some due: what is not due stays, wherever it stands, and the lowest addresses come first

new()
for address, wait in ((161, 300), (162, 100), (163, 200), (164, 100), (165, 60000), (166, 100), (167, 101), (168, 99)):
    given(address, 0, wait=wait)
every(98, 95)
every(99, 0)
every(99, 95, [168])
every(100, 2, [162, 164])  # 166 is due too, and there is no room
shown(169, [(161, 161, 300, 0), (163, 163, 200, 0), (165, 165, 60000, 0), (166, 166, 100, 0), (167, 167, 101, 0)],
      [(162, 100), (164, 100), (168, 99)])
every(100, 2, [166])  # the rest of them
every(100, 2)
every(199, 2, [167])  # due since 101
every(200, 1, [163])
every(59999, 3, [161])  # due since 300
every(60000, 1, [165])
shown(169, [], [(161, 59999), (162, 100), (163, 200), (164, 100), (165, 60000), (166, 100), (167, 199), (168, 99)])

# ---- three of five due: each room around that

for room, now, then in (
    (0, [], [161, 163, 165]), (1, [161], [163, 165]), (2, [161, 163], [165]), (3, [161, 163, 165], []), (4, [161, 163, 165], []),
    (94, [161, 163, 165], []), (95, [161, 163, 165], []), (96, [161, 163, 165], []), (200, [161, 163, 165], []),
):
    new()
    for address, wait in ((161, 100), (162, 500), (163, 100), (164, 500), (165, 100)):
        given(address, 0, wait=wait)
    every(100, room, now)
    not_due = {162: 500, 164: 500}
    left = {**not_due, **{address: 100 for address in then}}
    shown(166, [(address, address, left[address], 0) for address in sorted(left)], [(address, 100) for address in now])
    every(499, 3, then)
    shown(166, [(162, 162, 500, 0), (164, 164, 500, 0)], sorted([*((a, 100) for a in now), *((a, 499) for a in then)]))
    every(499, room)
    every(500, 95, [162, 164])

# ---- by address, and not by age, waiting time or job: 254 and 255 are the oldest, 161 and 162 the youngest

fill(0)
for address in HOSTS[:93]:
    booked(address)  # 161 to 253 are free at once
given(161, 100, job=900, wait=100)
given(162, 150, job=1, wait=10)
every(60000, 3, [(900, 161), (1, 162), 254])
shown(163, [(255, 255, 60000, 0)], [(161, 60000), (162, 60000), (254, 60000)])
every(60000, 3, [255])
given(163, 60000)  # the turn's, booked before
shown(164, [(163, 163, 60000, 60000)], [(161, 60000), (162, 60000), (254, 60000), (255, 60000)])

# ---- the largest job, and jobs with several tickets

new()
for address, job in ((161, WRAP - 1), (162, 1), (163, WRAP - 1), (164, 1), (165, 4294967290)):
    given(address, 0, job=job, wait=1)
every(0, 5)
every(1, 4, [(4294967295, 161), (1, 162), (4294967295, 163), (1, 164)])
no_cancel(163, 1, job=WRAP - 1)
every(1, 4, [(4294967290, 165)])
no_cancel(165, 1, job=4294967290)

# ---- what was booked or cancelled before is in no list, and a cancel's closing stays

new()
for address in range(161, 167):
    given(address, 0, wait=100)
booked(162)
cancelled(164, 50)
every(100, 6, [161, 163, 165, 166])
shown(167, [], [(161, 100), (163, 100), (164, 50), (165, 100), (166, 100)])
not_booked(17, 162)
for address in (161, 163, 164, 165, 166):
    not_booked(61, address)
    no_cancel(address, 100)
# past its waiting time a ticket is open until such a call
new()
given(161, 0, wait=100)
given(162, 0, wait=100)
booked(161)
every(5000, 2, [162])
every(5000, 2)
shown(163, [], [(162, 5000)])

# ---- the clock's wrap: T11, and four tickets around it

new()
given(161, 4294967290, wait=100)
every(4294967290, 2)
every(93, 2)
every(94, 2, [161])
shown(162, [], [(161, 94)])
new()
given(161, WRAP - 10, wait=100)
every(WRAP - 1, 4)
given(162, WRAP - 1, wait=100)
every(WRAP - 1, 4)
every(0, 4)
given(163, 5, wait=100)
given(164, 5)
every(89, 4)
every(90, 4, [161])
every(98, 4)
every(99, 4, [162])
every(104, 4)
every(105, 4, [163])
every(60004, 4)
every(60005, 4, [164])
shown(165, [], [(161, 90), (162, 99), (163, 105), (164, 60005)])
new()
for address, clock in ((161, WRAP - 10), (162, WRAP - 1), (163, 5), (164, 50)):
    given(address, clock, wait=100)
every(99, 1, [161])  # 162 is due at 99 too, 163 at 105, 164 at 150
every(149, 3, [162, 163])
every(150, 3, [164])
# all 95 over the wrap
fill(WRAP - 100, wait=200)
for room in (0, 1, 94, 95, 96):
    every(99, room)
every(100, 94, HOSTS[:94])
every(100, 95, [255])
not_given(15, 1099)
given(161, 1100)
# the wrap in the middle of the rest
fill(WRAP - 300, wait=200)
every(WRAP - 101, 95)
every(WRAP - 6, 3, [161, 162, 163])
not_given(15, WRAP - 1)  # age 5
not_given(15, 0)
not_given(15, 993)  # 999
given(161, 994)  # 1000
given(162, 994)
given(163, 994)
not_given(15, 994)
every(994, 95, range(164, 256))  # the three just opened stay
# a clock set back past an opening makes it due
new()
given(161, 1000)
given(162, 2000)
given(163, 3000)
every(3000, 3)
every(2999, 3, [163])
every(2000, 3)
every(1999, 3, [162])
every(1000, 3)
every(999, 3, [161])
shown(164, [], [(161, 999), (162, 1999), (163, 2999)])
new()
given(161, 1000)
given(162, 2000)
given(163, 3000)
every(0, 2, [161, 162])
every(2**31, 2, [163])

# ---- rests: from the call's clock, not from when the ticket was due

fill(0, short=(165, 170, 175))
every(500, 2, [165, 170])  # 175 is due as well
not_given(15, 500)
not_booked(61, 165)
not_booked(61, 170)
every(700, 2, [175])
not_given(15, 1100)  # 1000 after all three were due
not_given(15, 1499)  # 165 and 170 at 999
given(165, 1500)  # 1000
given(170, 1500)
not_given(15, 1500)  # 175 at 800
not_given(15, 1699)
given(175, 1700)
not_given(15, 1700)
# an opening at once passes them by
fill(0, short=(162, 163))
booked(165)
every(100, 2, [162, 163])
given(165, 100, job=7)  # 161 and 164 are open, 162 and 163 rest
not_given(15, 100)
booked(165, job=7)
given(165, 1099)  # 162 and 163 at 999
given(162, 1100)  # round from 166
given(163, 1100)
not_given(15, 1100)
new()
given(161, 0, wait=100)
given(162, 0, wait=100)
every(100, 2, [161, 162])
given(163, 100)  # the turn's
shown(164, [(163, 163, 60000, 100)], [(161, 100), (162, 100)])
# a clock set back by one ends the rest
fill(0, short=(200, 201))
every(100, 2, [200, 201])
not_given(15, 100)
given(200, 99)
given(201, 1101)
# such a call at another clock, with nothing due, leaves the closing
new()
given(161, 0, wait=100)
every(150, 1, [161])
every(1149, 1)
every(5000, 95)
shown(162, [], [(161, 150)])

# ---- late answers: 61 in place of 17, ahead of 18 to 20, behind 1 to 9, until the address is given again

fill(0, short=(161, 162))
every(100, 95, [161, 162])
for address in (161, 162):
    not_booked(61, address)
    not_booked(61, address, source=16)
    not_booked(61, address, sort=ACK)
    not_booked(61, address, register=103)
    not_booked(6, address, room=1)
    not_booked(8, address, source=0)
    not_booked(9, address, sort=11)
not_given(15, 1099)
not_booked(61, 161)
given(161, 1100, job=8)
not_booked(18, 161, source=16)
not_booked(19, 161, sort=ACK)
not_booked(20, 161, register=103)
booked(161, job=8)
not_booked(17, 161)
not_booked(61, 162)  # not given again yet
given(162, 1100, job=8)
booked(162, job=8)
not_booked(17, 162)

# ---- the filter box: its edge request among those that expire

new()
making()
given(161, 0, job=7, wait=100)
given(162, 0, job=7)
asked(163, SHORT, 7000, wait=100)
given(164, 0, job=8, wait=100)
OUT = "163:short:7000"
every(99, 95)
box(out=OUT)
every(100, 0)
box(out=OUT)
every(100, 1, [(7, 161)])  # the list is full before its turn
box(out=OUT)
refused(59, LONG, 4000, 100)  # due, and still out
every(100, 1, [(9, 163)])
box()
shown(165, [(162, 7, 60000, 0), (164, 8, 100, 0)], [(161, 100), (163, 100)])
every(100, 1, [(8, 164)])
box()
not_booked(61, 163, MODULE, ACK, SHORT, b"")  # too late for the box
box()
asked(165, LONG, 4000, clock=100)  # nothing is out
box(out="165:long:4000")
acked(165, LONG)
box(long=4000)
# an edge that was known becomes unknown, the other one stays
asked(166, SHORT, 5000, clock=200)
acked(166, SHORT)
asked(167, SHORT, 6000, clock=200, wait=50)
given(168, 200, job=7, wait=50)
box(5000, 4000, "167:short:6000")
every(249, 95)
every(250, 95, [(9, 167), (7, 168)])
box("?", 4000)
refused(63, SHORT, 4000, 250)
asked(169, SHORT, 4001, clock=250)
acked(169, SHORT)
box(4001, 4000)
asked(170, LONG, 3000, clock=300, wait=50)
box(4001, 4000, "170:long:3000")
every(400, 2, [(9, 170)])
box(4001, "?")
asked(171, SHORT, 0, clock=400)  # in order with nothing, and the other one is unknown
acked(171, SHORT)
box(0, "?")
shown(172, [(162, 7, 60000, 0)], [(161, 100), (163, 100), (164, 100), (167, 250), (168, 250), (170, 400)])
# first, in the middle and last of one list
for place, wished in ((161, LONG), (162, SHORT), (163, LONG)):
    new()
    making()
    for address in (161, 162, 163):
        if address == place:
            asked(address, wished, 5000, wait=100)
        else:
            given(address, 0, wait=100)
    every(100, 3, [(9 if address == place else address, address) for address in (161, 162, 163)])
    box()
    asked(164, wished, 5000, clock=100)
    acked(164, wished)
    box(**{NAMES[wished]: 5000})
# not due: others expire around it
new()
making()
given(161, 0, job=7, wait=100)
asked(162, LONG, 4000)
given(163, 0, job=7, wait=100)
every(100, 3, [(7, 161), (7, 163)])
box(out="162:long:4000")
shown(164, ["162:9:16:5:52:60000:0:0"], [(161, 100), (163, 100)])
acked(162, LONG)
box(long=4000)
# the box's other requests tell it nothing, nor do those of others for its job, module and register
new()
making()
asked(161, ATT, 500, wait=100)
asked(162, MONITOR, wait=100)
asked(163, STATUS, wait=100)
asked(164, SHORT, 7000)
given(165, 0, job=9, wait=100, module=16, sort=WRITE, register=SHORT, data=b"\x58\x1b")
every(100, 5, [(9, 161), (9, 162), (9, 163), (9, 165)])
box(out="164:short:7000")
acked(164, SHORT)
box(short=7000)
# a box made anew: the edge request of the one before is nothing to it
new()
making()
asked(161, SHORT, 7000, wait=100)
making()
every(100, 1, [(9, 161)])
box()
asked(162, SHORT, 7000, clock=100, wait=100)
making()
asked(163, LONG, 4000, clock=100)
every(200, 2, [(9, 162)])
box(out="163:long:4000")
acked(163, LONG)
box(long=4000)
# the clock's wrap, and a clock set back
asked(164, SHORT, 7000, clock=WRAP - 10, wait=100)
every(89, 1)
box("?", 4000, "164:short:7000")
every(90, 1, [(9, 164)])
box("?", 4000)
asked(165, LONG, 3000, clock=90)
every(90, 1)
every(89, 1, [(9, 165)])
box()
# its address goes to another, whose ticket expires too
new()
making()
asked(161, SHORT, 7000)
acked(161, SHORT)
asked(162, LONG, 4000, wait=100)
for address in (*range(163, 256), 161):
    given(address, 0)
every(100, 95, [(9, 162)])
box(7000, "?")
given(162, 1100, job=8, wait=100, module=16, sort=WRITE, register=LONG, data=b"\xa0\x0f")
every(1200, 95, [(8, 162)])
box(7000, "?")
every(60000, 95, [161, *range(163, 256)])
box(7000, "?")
# in the middle of 95
new()
making()
for address in range(161, 208):
    given(address, 0)
asked(208, LONG, 4000)
for address in range(209, 256):
    given(address, 0)
every(59999, 95)
every(60000, 47, range(161, 208))
box(out="208:long:4000")
every(60000, 47, [(9, 208), *range(209, 255)])
box()
every(60000, 47, [255])
box()
shown(161, [], CLOSED)
# a fresh desk has no box, and the call needs none
asked(161, SHORT, 1, clock=61000, wait=1)
new()
every(61001, 3)
say("varia.dump", "no box")
making()
box()

# ---- lines that are no calls change nothing

new()
given(161, 0, wait=100)
bad(
    "desk.expall", "desk.expall ", "desk.expall 100", "desk.expall 100 ", "desk.expall 100 -", "desk.expall - 1", "desk.expall  100 1",
    "desk.expall 100  1", "desk.expall 100 1 ", "desk.expall 100 1 1", "desk.expall 100 1 ee", "desk.expall -1 1", "desk.expall 100 -1",
    "desk.expall +1 1", "desk.expall 100 +1", "desk.expall 100 1h", "desk.expall 100 ee", "desk.expall 4294967296 1",
    "desk.expall 4294967396 1", "desk.expall 100 201", "desk.expall 100 202", "desk.expall 100 255", "desk.expall 100 256",
    "desk.expall 100 257", "desk.expall 100 65537", "desk.expall 100 4294967297", "desk.expall 100 18446744073709551616",
    "desk.expall 100 18446744073709551617", "desk.expireall 100 1", "desk.expalls 100 1", "DESK.expall 100 1", "desk.Expall 100 1",
    " desk.expall 100 1", "expall 100 1",
)
shown(162, [(161, 161, 100, 0)], [])
every(100, 200, [161])
shown(162, [], [(161, 100)])

printed()
