"""lanes.py calls | answers: the call lines of tests/vectors/lanes_night.calls, and what each must answer. Which lane and
place a request takes, which one a grant opens and on which address, which number is told and what lanes and desk show
stands here line by line, worked out by hand from the papers; nothing here follows a desk, a box or lanes. Only the bytes of
telegrams are worked out, by long division, and how far it was from the turn to an address. A request is known by its
register, mostly ten times its job and a number."""
from wire import ACK, CLEAR, HOSTS, SET, SHORT, TOGGLE, WRAP, WRITE
from wire import asked, bad, booked, box, cancelled, desk, every, expired, fill, framed, given, granted, joined, lanes, lent
from wire import longest, making, new, no_cancel, no_expiry, not_booked, not_given, not_granted, not_joined, not_withdrawn
from wire import printed, request, say, shown, withdrawn

LARGEST = 2**64 - 1

# ---- before the first desk.new, and on fresh lanes: nothing waits, and nothing can be withdrawn

for _ in range(2):
    lanes(16)
    not_granted(74)
    not_granted(74, room=495)
    not_granted(73, room=493)  # ahead of 74
    not_granted(73, room=0)
    not_withdrawn(1, 0, 1, 4, LARGEST)
    not_withdrawn(0, 0, 1)
    lanes(16)
    desk(161)
    joined(1, 1, 7, 71)
    lanes(16, {1: [(7, 71)]})
    new()

# ---- the call scripts' example, as far as it goes by now

say("lane.join 7 15 4 102 - 1000 3", "ok lane=1 at=1")
say("lane.join 8 15 5 48 3412 1000 3", "ok lane=2 at=1")
say("lane.dump", "ok last=16 lanes=7:15:4:102:-:1000:3|8:15:5:48:3412:1000:3|-|-|-|-|-|-|-|-|-|-|-|-|-|-")
say("lane.grant 300 00", "no 73 buf=00")
say("lane.withdraw 8 2", "no 55")

# ---- the lane last served is the 16th at first, so lane 1 comes first; then by turns, whoever came earlier

new()
joined(1, 1, 7, 71)
joined(1, 2, 7, 72)
joined(1, 3, 7, 73)
joined(2, 1, 8, 81)
desk(161)  # nothing is open by joining
no_cancel(161, 0, job=7)
not_booked(17, 161, register=71)
granted(7, 161, 100, 71)
lanes(1, {1: [(7, 72), (7, 73)], 2: [(8, 81)]})
granted(8, 162, 110, 81)
lanes(2, {1: [(7, 72), (7, 73)]})
granted(7, 163, 120, 72)  # lanes 3 to 16 are empty
joined(2, 1, 8, 82)
granted(8, 164, 130, 82)
granted(7, 165, 140, 73)
lanes(1)
not_granted(74, 150)
lanes(1)
TICKETS = "161:7:15:4:71:60000:100:0,162:8:15:4:81:60000:110:0,163:7:15:4:72:60000:120:0,164:8:15:4:82:60000:130:0"
desk(166, TICKETS + ",165:7:15:4:73:60000:140:0")
# a lane that is alone is served again and again
for at in (1, 2, 3, 4):
    joined(1, at, 9, 90 + at)
for at in (1, 2, 3, 4):
    granted(9, 165 + at, 200, 90 + at)
    lanes(1, {1: [(9, 90 + later) for later in range(at + 1, 5)]} if at < 4 else {})
not_granted(74, 200)

# ---- 16 jobs and the 17th, four requests and the fifth, both at once

new()
for job in range(1, 17):
    joined(job, 1, job, 10 * job + 1)
ONE_EACH = {job: [(job, 10 * job + 1)] for job in range(1, 17)}
not_joined(71, 17)
not_joined(71, WRAP - 1)
lanes(16, ONE_EACH)
for at in (2, 3, 4):
    joined(1, at, 1, 10 + at)  # a job that has a lane needs no other
    not_joined(71, 17)
not_joined(72, 1)
not_joined(72, 1)
not_joined(71, 17)  # which has none, and there is none
joined(16, 2, 16, 162)
joined(16, 3, 16, 163)
joined(16, 4, 16, 164)
not_joined(72, 16)
joined(9, 2, 9, 92)
HELD = {**ONE_EACH, 1: [(1, 11), (1, 12), (1, 13), (1, 14)], 9: [(9, 91), (9, 92)],
        16: [(16, 161), (16, 162), (16, 163), (16, 164)]}
lanes(16, HELD)

# 10 to 14 go ahead of 71 and 72, and the lowest of them is told: for job 17, which has no lane, and for job 1
FAULTS = (
    (11, dict(module=0)), (11, dict(module=161)), (11, dict(module=255)), (12, dict(sort=0)), (12, dict(sort=1)),
    (12, dict(sort=2)), (12, dict(sort=3)), (12, dict(sort=8)), (12, dict(sort=10)), (12, dict(sort=255)),
    (13, dict(data=b"\x03")), (13, dict(data=bytes(241))), (13, dict(sort=WRITE, data=bytes(241))),
    (13, dict(sort=SET, data=bytes(241))), (13, dict(sort=CLEAR, data=bytes(300))),
    (13, dict(sort=TOGGLE, data=bytes(241))), (14, dict(wait=0)), (14, dict(wait=60001)), (14, dict(wait=WRAP - 1)),
    # and with all that come behind it
    (13, dict(data=b"\x03", wait=0)), (12, dict(sort=3, data=bytes(241), wait=60001)),
    (11, dict(module=161, sort=3, data=bytes(241), wait=0)),
)
for number, wrong in FAULTS:
    for job in (17, 1, 9):  # 9 has a lane with room
        not_joined(number, job, **wrong)
    not_joined(10, 0, **wrong)
not_joined(10, 0)
lanes(16, HELD)
desk(161)

# a request opened makes room in its lane; a lane emptied is free for whoever comes first
granted(1, 161, 0, 11)
not_joined(71, 17)
joined(1, 4, 1, 15)
not_joined(72, 1)
granted(2, 162, 0, 21)
joined(2, 1, 17, 171)  # the 17th job has lane 2 now
not_joined(71, 2)  # and job 2 none
not_joined(71, 18)
joined(2, 2, 17, 172)
withdrawn(17, 1)
not_joined(71, 2)  # one is left there
withdrawn(17, 1)
joined(2, 1, 2, 22)
not_joined(71, 17)
lanes(2, {**HELD, 1: [(1, 12), (1, 13), (1, 14), (1, 15)], 2: [(2, 22)]})
granted(3, 163, 0, 31)  # lane 2 has been served, whoever holds it now

# ---- both sides of each limit, joined and then opened

new()
for number, wrong in FAULTS:
    not_joined(number, 5, **wrong)
    not_joined(10, 0, **wrong)
not_joined(10, 0)
lanes(16)
LIMITS = (
    (1, 0, dict(module=1)), (WRAP - 1, 255, dict(module=160)), (3, 31, dict(wait=1)), (4, 41, dict(wait=60000)),
    (5, 51, dict(wait=2)), (6, 61, dict(wait=59999)), (7, 71, dict(sort=WRITE)), (8, 81, dict(sort=SET)),
    (9, 91, dict(sort=CLEAR)), (10, 101, dict(sort=TOGGLE)), (11, 111, dict(sort=WRITE, data=b"\x03")),
    (12, 121, dict(sort=WRITE, data=bytes(range(240)))), (13, 131, dict(sort=TOGGLE, data=bytes(239))),
    (14, 141, dict(module=2, sort=CLEAR, data=b"\xff" * 240)), (15, 151, dict(module=159, sort=SET, data=b"\x5e")),
    (16, 94, dict(module=13, sort=WRITE, data=b"\x0a\x0d\x5e", wait=1)),
)
for lane, (job, register, how) in enumerate(LIMITS, 1):
    joined(lane, 1, job, register, **how)
lanes(16, {lane: [request(job, register, **how)] for lane, (job, register, how) in enumerate(LIMITS, 1)})
for lane, (job, register, how) in enumerate(LIMITS, 1):
    granted(job, 160 + lane, lane, register, **{name: how[name] for name in how if name != "wait"})
lanes(16)
desk(177, ",".join(
    f"{160 + lane}:{job}:{how.get('module', 15)}:{how.get('sort', 4)}:{register}:{how.get('wait', 60000)}:{lane}:0"
    for lane, (job, register, how) in enumerate(LIMITS, 1)
))

# ---- a job that empties its lane by grants comes back to the lowest empty one; its old lane may be another's by then

new()
joined(1, 1, 1, 11)
joined(2, 1, 2, 21)
joined(3, 1, 3, 31)
granted(1, 161, 0, 11)
joined(1, 1, 4, 41)  # job 4 takes lane 1
joined(4, 1, 1, 12)  # job 1 comes back
lanes(1, {1: [(4, 41)], 2: [(2, 21)], 3: [(3, 31)], 4: [(1, 12)]})
granted(2, 162, 0, 21)
joined(2, 1, 2, 22)  # job 2 to its own again, which is the lowest empty one; it has just been served
granted(3, 163, 0, 31)
joined(4, 2, 1, 13)  # job 1 stays where it waits, although lane 3 is empty
granted(1, 164, 0, 12)
granted(4, 165, 0, 41)  # round
lanes(1, {2: [(2, 22)], 4: [(1, 13)]})
joined(1, 1, 3, 32)
joined(3, 1, 4, 42)
joined(5, 1, 5, 51)
lanes(1, {1: [(3, 32)], 2: [(2, 22)], 3: [(4, 42)], 4: [(1, 13)], 5: [(5, 51)]})
granted(2, 166, 0, 22)
granted(4, 167, 0, 42)
granted(1, 168, 0, 13)
granted(5, 169, 0, 51)
granted(3, 170, 0, 32)  # in lane 1, which came last
lanes(1)
# lane 1's new holder isn't served at once where lane 1 was the last
joined(1, 1, 6, 61)
joined(2, 1, 7, 71)
granted(7, 171, 0, 71)
granted(6, 172, 0, 61)
lanes(1)

# ---- withdrawals: the first, one in the middle, the last; later ones move up

new()
for at in (1, 2, 3, 4):
    joined(1, at, 5, 50 + at)
joined(2, 1, 6, 61)
joined(2, 2, 6, 62)
WAITING = {1: [(5, 51), (5, 52), (5, 53), (5, 54)], 2: [(6, 61), (6, 62)]}
not_withdrawn(5, 0, 5, 6, 16, 255, 256, 257, 65537, WRAP, WRAP + 1, WRAP + 4, 2**63, LARGEST - 1, LARGEST)
not_withdrawn(6, 0, 3, 4, WRAP + 2, LARGEST)
not_withdrawn(7, 0, 1, 2, LARGEST)  # no lane
not_withdrawn(0, 0, 1, 2, LARGEST)
not_withdrawn(WRAP - 1, 1)
lanes(16, WAITING)
withdrawn(5, 2)
lanes(16, {**WAITING, 1: [(5, 51), (5, 53), (5, 54)]})
not_withdrawn(5, 4)
joined(1, 4, 5, 55)
withdrawn(5, 4)  # the very one
lanes(16, {**WAITING, 1: [(5, 51), (5, 53), (5, 54)]})
withdrawn(5, 3)
lanes(16, {**WAITING, 1: [(5, 51), (5, 53)]})
withdrawn(5, 1)
lanes(16, {**WAITING, 1: [(5, 53)]})
joined(1, 2, 5, 56)
joined(1, 3, 5, 57)
joined(1, 4, 5, 58)
not_joined(72, 5)
withdrawn(5, 3)
lanes(16, {**WAITING, 1: [(5, 53), (5, 56), (5, 58)]})
granted(5, 161, 0, 53)
not_withdrawn(5, 3)  # it has moved up: two are left
withdrawn(5, 2)
lanes(1, {**WAITING, 1: [(5, 56)]})
withdrawn(5, 1)
not_withdrawn(5, 1)  # nothing left, and no lane
lanes(1, {2: [(6, 61), (6, 62)]})
no_cancel(162, 0, job=6)
joined(1, 1, 8, 81)  # an emptied lane is nobody's
joined(3, 1, 5, 59)
not_withdrawn(5, 2)
withdrawn(6, 1)
granted(6, 162, 0, 62)
granted(5, 163, 0, 59)
granted(8, 164, 0, 81)
lanes(1)
desk(165, "161:5:15:4:53:60000:0:0,162:6:15:4:62:60000:0:0,163:5:15:4:59:60000:0:0,164:8:15:4:81:60000:0:0")
# what has been opened is no longer withdrawn, and what waits is not cancelled
not_withdrawn(6, 1)
joined(1, 1, 6, 63)
cancelled(162, 0, job=6)
no_cancel(162, 0, job=6)
lanes(1, {1: [(6, 63)]})
withdrawn(6, 1)

# ---- withdrawing doesn't move the turn of the lanes

new()
for lane in (1, 2, 3, 4, 5):
    joined(lane, 1, lane, 10 * lane + 1)
joined(1, 2, 1, 12)
withdrawn(1, 1)
lanes(16, {1: [(1, 12)], 2: [(2, 21)], 3: [(3, 31)], 4: [(4, 41)], 5: [(5, 51)]})
granted(1, 161, 0, 12)
withdrawn(2, 1)  # the next one's
lanes(1, {3: [(3, 31)], 4: [(4, 41)], 5: [(5, 51)]})
granted(3, 162, 0, 31)
joined(1, 1, 1, 13)
joined(2, 1, 3, 32)
withdrawn(5, 1)
lanes(3, {1: [(1, 13)], 2: [(3, 32)], 4: [(4, 41)]})
granted(4, 163, 0, 41)
withdrawn(1, 1)
withdrawn(3, 1)
lanes(4)
not_granted(74)
joined(1, 1, 9, 91)
withdrawn(9, 1)
lanes(4)
for lane in (1, 2, 3, 4, 5):
    joined(lane, 1, lane, 10 * lane + 4)
withdrawn(4, 1)  # the lane last served
lanes(4, {1: [(1, 14)], 2: [(2, 24)], 3: [(3, 34)], 5: [(5, 54)]})
granted(5, 164, 0, 54)  # still behind lane 4
granted(1, 165, 0, 14)
lanes(1, {2: [(2, 24)], 3: [(3, 34)]})

# ---- round past lane 16, and over empty lanes

new()
for job in range(1, 17):
    joined(job, 1, job, 10 * job + 1)
for job in (1, 2, 4, 5, 6, 7, 8, 10, 11, 12, 13, 14, 15):
    withdrawn(job, 1)
lanes(16, {3: [(3, 31)], 9: [(9, 91)], 16: [(16, 161)]})
joined(16, 2, 16, 162)  # its own lane, although lane 1 is empty
granted(3, 161, 0, 31)
granted(9, 162, 0, 91)
joined(1, 1, 3, 32)
granted(16, 163, 0, 161)
lanes(16, {1: [(3, 32)], 16: [(16, 162)]})
granted(3, 164, 0, 32)
joined(1, 1, 3, 33)
granted(16, 165, 0, 162)  # from lane 1 over 14 empty lanes
granted(3, 166, 0, 33)  # and from the 16th on to the first
lanes(1)
for job in range(1, 16):
    joined(job, 1, job, 10 * job + 5)
for job in range(2, 15):
    withdrawn(job, 1)
granted(15, 167, 0, 155)
lanes(15, {1: [(1, 15)]})
joined(2, 1, 15, 156)
granted(1, 168, 0, 15)  # from lane 15 over the 16th
granted(15, 169, 0, 156)
lanes(2)

# ---- all 64 places taken: opened in rounds, so that the p-th request of lane 16 is opened by grant 16 times p

new()
for at in (1, 2, 3, 4):
    for job in range(1, 17):
        joined(job, at, job, 10 * job + at)
for job in range(1, 17):
    not_joined(72, job)
for job in (17, 100, WRAP - 1):
    not_joined(71, job)
lanes(16, {job: [(job, 10 * job + at) for at in (1, 2, 3, 4)] for job in range(1, 17)})
for at in (1, 2, 3, 4):
    for job in range(1, 16):
        granted(job, 160 + 16 * (at - 1) + job, at, 10 * job + at)
    lanes(15, {**{job: [(job, 10 * job + later) for later in range(at + 1, 5)] for job in range(1, 16) if at < 4},
               16: [(16, 160 + later) for later in range(at, 5)]})
    granted(16, 160 + 16 * at, at, 160 + at)  # grants 16, 32, 48 and 64: addresses 176, 192, 208 and 224
    lanes(16, {job: [(job, 10 * job + later) for later in range(at + 1, 5)] for job in range(1, 17)} if at < 4 else {})
not_granted(74)

# ---- the fourth in its lane is opened by the 64th grant and not before, however the others come back: lane 7 was last

new()
for job in range(1, 17):
    joined(job, 1, job, 10 * job + 1)
for job in range(1, 8):
    granted(job, 160 + job, 0, 10 * job + 1)
for job in range(1, 17):
    first = 2 if job < 8 else 1  # jobs 1 to 7 come back, each to its own lane: 1 to 7 are empty by rising number
    for number in range(first, first + 4):
        if number > 1:
            joined(job, number - first + 1, job, 10 * job + number)
lanes(7, {job: [(job, 10 * job + (2 if job < 8 else 1) + later) for later in range(4)] for job in range(1, 17)})
address = 168
for number in (0, 1, 2, 3):
    for job in (8, 9, 10, 11, 12, 13, 14, 15, 16, 1, 2, 3, 4, 5, 6, 7):
        register = 10 * job + (2 if job < 8 else 1) + number
        granted(job, address, 1, register)
        if job != 7:
            joined(job, 4, job, register + 4)  # its lane is full again at once
            not_joined(72, job)
        address += 1
assert address == 168 + 64
OTHER_JOBS = [job for job in range(1, 17) if job != 7]
lanes(7, {job: [(job, 10 * job + (6 if job < 8 else 5) + later) for later in range(4)] for job in OTHER_JOBS})
joined(7, 1, 17, 171)  # and lane 7 is the only one that is free
not_joined(71, 7)

# ---- one job floods, fifteen trickle: each of these waits for one of the flood's at most

new()
for at in (1, 2, 3, 4):
    joined(1, at, 1, at)
for job in range(2, 17):
    joined(job, 1, job, 10 * job)
not_joined(72, 1)
granted(1, 161, 0, 1)
joined(1, 4, 1, 5)
not_joined(72, 1)
for job in range(2, 17):
    granted(job, 160 + job, 0, 10 * job)
lanes(16, {1: [(1, 2), (1, 3), (1, 4), (1, 5)]})
granted(1, 177, 10, 2)  # nobody else waits
joined(1, 4, 1, 6)
granted(1, 178, 20, 3)
joined(1, 4, 1, 7)
joined(2, 1, 9, 91)  # they come back one after the other, to the lowest empty lane
joined(3, 1, 5, 51)
granted(9, 179, 30, 91)
joined(2, 1, 16, 161)
granted(5, 180, 30, 51)
granted(1, 181, 30, 4)
joined(1, 4, 1, 8)
granted(16, 182, 40, 161)
granted(1, 183, 40, 5)
joined(1, 4, 1, 9)
joined(2, 1, 9, 92)
joined(2, 2, 9, 93)
joined(3, 1, 16, 162)
lanes(1, {1: [(1, 6), (1, 7), (1, 8), (1, 9)], 2: [(9, 92), (9, 93)], 3: [(16, 162)]})
granted(9, 184, 50, 92)
joined(4, 1, 3, 31)
granted(16, 185, 50, 162)
granted(3, 186, 50, 31)
joined(3, 1, 2, 21)  # behind the lane last served: it has to wait until the turn has come round
granted(1, 187, 50, 6)
granted(9, 188, 50, 93)
granted(2, 189, 50, 21)
granted(1, 190, 50, 7)
granted(1, 191, 50, 8)
granted(1, 192, 50, 9)
not_granted(74, 50)
lanes(1)

# ---- a full desk: 15 changes nothing, whatever waits, and the lane last served stays; joining goes on

fill(0)
not_granted(74)  # nothing waits: ahead of 15
not_granted(73, room=493)
joined(1, 1, 7, 71)
joined(2, 1, 8, 81)
joined(1, 2, 7, 72)
WAITING = {1: [(7, 71), (7, 72)], 2: [(8, 81)]}
OPEN = [(address, address, 60000, 0) for address in HOSTS]
for clock in (0, 1, 60000, WRAP - 1):
    not_granted(15, clock)
    not_granted(73, clock, room=493)  # ahead of 15
lanes(16, WAITING)
shown(161, OPEN, [])
not_given(15, 0)  # directly neither
booked(200)
granted(7, 200, 10, 71)  # 161 to 200 are considered
not_granted(15, 10)
not_granted(15, 20)
lanes(1, {1: [(7, 72)], 2: [(8, 81)]})  # lane 2 is next
withdrawn(8, 1)
joined(2, 1, 9, 91)
not_granted(15, 20)
lanes(1, {1: [(7, 72)], 2: [(9, 91)]})
cancelled(180, 1000)
not_granted(15, 1000)  # 180 rests
not_granted(15, 1999)
lanes(1, {1: [(7, 72)], 2: [(9, 91)]})
granted(9, 180, 2000, 91)  # 201 to 255 are 55, 161 to 180 are 20
not_granted(15, 2000)
lanes(2, {1: [(7, 72)]})
booked(180, job=9, register=91)
given(180, 2000, job=10)  # another is quicker
not_granted(15, 2000)
booked(180, job=10)
granted(7, 180, 2000, 72)
lanes(1)
not_granted(74, 2000)
# grants answered 15 don't count: lane 16 is served by the 16th that opens something
fill(0)
for job in range(1, 17):
    joined(job, 1, job, 10 * job + 1)
for job in range(1, 17):
    not_granted(15)
    booked(240 - job)  # 239 down to 224
    granted(job, 240 - job, 0, 10 * job + 1)  # the one behind the turn: 79, then 94 each time
    not_granted(15 if job < 16 else 74)
lanes(16)
# all rest
fill(0, wait=1)
joined(1, 1, 7, 71)
every(1, 95, HOSTS)
not_granted(15, 1)
not_granted(15, 1000)
lanes(16, {1: [(7, 71)]})
granted(7, 161, 1001, 71)
lanes(1)

# ---- room: 494 bytes, whatever is asked for

new()
for at in (1, 2, 3, 4):
    joined(1, at, 7, 70 + at)
for room in (0, 1, 7, 8, 12, 255, 256, 492, 493):
    not_granted(73, room=room)
lanes(16, {1: [(7, 71), (7, 72), (7, 73), (7, 74)]})
desk(161)
granted(7, 161, 0, 71, room=494)
granted(7, 162, 0, 72, room=495)
granted(7, 163, 0, 73, room=600)
not_granted(73, room=493)
granted(7, 164, 0, 74, room=1000)
for room in (0, 493):
    not_granted(73, room=room)
for room in (494, 495):
    not_granted(74, room=room)

# ---- the longest telegrams: 240 data bytes, each of which is converted, and both remainder bytes

new()
MESSAGES = [longest(bytes([94, 161, WRITE, 13])), longest(bytes([10, 162, TOGGLE, 94]))]
FIRST, SECOND = (message[4:-2] for message in MESSAGES)
assert [len(framed(message)) for message in MESSAGES] == [492, 492] and len(FIRST) == len(SECOND) == 240
OTHERS = (b"\x0a" * 240, b"\x0d" * 240, b"\x5e" * 240, b"\x0a\x0d\x5e" * 80, b"\x4a\x4d\x9e" * 80)
joined(1, 1, 7, 13, module=94, sort=WRITE, data=FIRST)
joined(2, 1, 8, 94, module=10, sort=TOGGLE, data=SECOND)
for lane, data in enumerate(OTHERS, 3):
    joined(lane, 1, lane + 6, 10, module=13, sort=SET, data=data)
lanes(16, {
    1: [request(7, 13, 94, WRITE, FIRST)], 2: [request(8, 94, 10, TOGGLE, SECOND)],
    **{lane: [request(lane + 6, 10, 13, SET, data)] for lane, data in enumerate(OTHERS, 3)},
})
not_granted(73, room=493)  # although 492 would do
granted(7, 161, 0, 13, 94, WRITE, FIRST)
not_granted(73, room=492)
granted(8, 162, 0, 94, 10, TOGGLE, SECOND)
for lane, data in enumerate(OTHERS, 3):
    granted(lane + 6, 160 + lane, 0, 10, 13, SET, data)
lanes(7)

# ---- a request keeps its data while it waits; its waiting time starts when it is opened, at the grant's clock

new()
joined(1, 1, 7, 48, sort=WRITE, data=b"\x34\x12", wait=100)
joined(1, 2, 7, 50, sort=SET, data=b"\x01", wait=200)
joined(2, 1, 8, 48, module=16, sort=CLEAR, data=b"\x5e\x0a\x0d\x00", wait=1)
joined(3, 1, 9, 51, module=17, sort=TOGGLE, data=b"\xff" * 9, wait=60000)
no_expiry(1000)  # nothing is open yet, however long it waits
every(WRAP - 1, 3)
granted(7, 161, 5000, 48, sort=WRITE, data=b"\x34\x12")
no_expiry(5099)
desk(162, "161:7:15:5:48:100:5000:0")
expired(161, 5100, job=7)
granted(8, 162, 5100, 48, 16, CLEAR, b"\x5e\x0a\x0d\x00")
no_expiry(5100)
expired(162, 5101, job=8)
granted(9, 163, WRAP - 10, 51, 17, TOGGLE, b"\xff" * 9)
no_expiry(59989)
granted(7, 164, 59989, 50, sort=SET, data=b"\x01")
desk(165, "163:9:17:9:51:60000:4294967286:0,164:7:15:6:50:200:59989:0", "161:5100,162:5101")
expired(163, 59990, job=9)
booked(164, 7, 15, ACK, 50, b"")
no_expiry(WRAP - 1)
lanes(1)
desk(165, closed="161:5100,162:5101,163:59990")
# closings are nothing to the lanes, and the answer to a request of a lane is booked as any other
joined(1, 1, 7, 52)
joined(1, 2, 7, 53)
granted(7, 165, 60000, 52)
booked(165, job=7, register=52)
granted(7, 166, 60000, 53)
cancelled(166, 60000, job=7)
not_booked(61, 166, register=53)
lanes(1)

# ---- openings beside the lanes: they take the desk's turn, and no lane's

new()
joined(1, 1, 7, 71)
joined(2, 1, 8, 81)
joined(1, 2, 7, 72)
given(161, 0, job=8)  # by a job that has a lane, too
granted(7, 162, 0, 71)
given(163, 0, job=7)
given(164, 0, job=1)
lanes(1, {1: [(7, 72)], 2: [(8, 81)]})
not_given(16, 0, would=165, room=7)
not_given(10, 0, job=0)
lanes(1, {1: [(7, 72)], 2: [(8, 81)]})
granted(8, 165, 0, 81)
given(166, 0, job=1)
granted(7, 167, 0, 72)
given(168, 0, job=7)
lanes(1)
# over addresses that are open or rest: 169 to 255 and 161 to 168 are given, then some are closed
for address in range(169, 256):
    given(address, 0)
booked(161, job=8)
cancelled(162, 500, job=7)
joined(1, 1, 3, 31)
joined(2, 1, 4, 41)
joined(3, 1, 5, 51)
given(161, 600, job=2)
cancelled(165, 600, job=8)
booked(166, job=1)
granted(4, 166, 1499, 41)  # lane 2 comes after lane 1; 162 rests (999), 163 and 164 are open, 165 rests: 5
granted(5, 162, 1500, 51)  # 167 to 255 are 89, 161 and 162
granted(3, 165, 1600, 31)  # 163 and 164
not_granted(74, 1600)
lanes(1)
not_given(15, 1600)

# ---- the filter box beside the lanes: a request of a lane is not the box's, on its own module, register and job either

new()
making()
joined(1, 1, 9, SHORT, module=16, sort=WRITE, data=b"\x58\x1b")
asked(161, SHORT, 6000)
granted(9, 162, 0, SHORT, 16, WRITE, b"\x58\x1b")
box(out="161:short:6000")
booked(162, 9, 16, ACK, SHORT, b"")
box(out="161:short:6000")
booked(161, 9, 16, ACK, SHORT, b"")
box(short=6000)
joined(1, 1, 9, SHORT, module=16, sort=WRITE, data=b"\x58\x1b")
making()  # a box made anew leaves the lanes
lanes(1, {1: [request(9, SHORT, 16, WRITE, b"\x58\x1b")]})

# ---- a folder waits with its request, two jobs' the same one too

for lane, folder in enumerate((3, 3, WRAP - 1), 2):
    joined(lane, 1, lane, 10 * lane, folder=folder)
WAITING = {1: [request(9, SHORT, 16, WRITE, b"\x58\x1b")], 3: [(3, 30, 3)], 4: [(4, 40, WRAP - 1)]}
lanes(1, {**WAITING, 2: [(2, 20, 3)]})

# ---- desk.new makes the lanes anew; a bench or a receiver is nothing to them

granted(2, 163, 0, 20)
say("bench.new 15", "ok")
say("rx.new 0", "ok")
lanes(2, WAITING)
new()
lanes(16)
not_withdrawn(3, 1)
not_granted(74)
joined(1, 1, 4, 41)
granted(4, 161, 0, 41)
lanes(1)
new()
lanes(16)

# ---- lines that are no calls change nothing

joined(1, 1, 7, 71)
joined(1, 2, 7, 72)
bad(
    "lane", "lane.", "lane.new", "lane.open 7 15 4 102 - 1000 0", "lanes.dump", "LANE.dump", "lane.Dump",
    " lane.dump", "lane.dump ", "lane.dump 0", "lane.dump -",
    "lane.join", "lane.join ", "lane.join 7", "lane.join 7 15 4 102 - 1000", "lane.join 7 15 4 102 1000 0",
    "lane.join 7 15 4 102 - 0", "lane.join 7 15 4 102 - 1000 ", "lane.join 7 15 4 102 - 1000 0 ",
    "lane.join 7 15 4 102 - 1000 0 0", "lane.join  7 15 4 102 - 1000 0", "lane.join 7 15 4 102  1000 0",
    "lane.join 7 15 4 102 - 1000 0 0 ee", "lane.join 4294967296 15 4 102 - 1000 0",
    "lane.join 4294967303 15 4 102 - 1000 0", "lane.join 7 256 4 102 - 1000 0", "lane.join 7 271 4 102 - 1000 0",
    "lane.join 7 15 256 102 - 1000 0", "lane.join 7 15 260 102 - 1000 0", "lane.join 7 15 4 256 - 1000 0",
    "lane.join 7 15 4 102 - 4294967296 0", "lane.join 7 15 4 102 - 4294968296 0",
    "lane.join 7 15 4 102 - 1000 4294967296", "lane.join -1 15 4 102 - 1000 0", "lane.join 7 -15 4 102 - 1000 0",
    "lane.join 7 15 -4 102 - 1000 0", "lane.join 7 15 4 -102 - 1000 0", "lane.join 7 15 4 102 - -1000 0",
    "lane.join 7 15 4 102 - 1000 -1", "lane.join 7 15 4 102 - 1000 -", "lane.join - 15 4 102 - 1000 0",
    "lane.join +7 15 4 102 - 1000 0", "lane.join 7h 15 4 102 - 1000 0", "lane.join 7 15 5 48 3 1000 0",
    "lane.join 7 15 5 48 341 1000 0", "lane.join 7 15 5 48 3G 1000 0", "lane.join 7 15 5 48 EE 1000 0",
    "lane.join 7 15 5 48 -- 1000 0", "lane.join 7 15 5 48 0x34 1000 0",
    "lane.grant", "lane.grant ", "lane.grant 0", "lane.grant 0 ", f"lane.grant {lent(494)}",
    f"lane.grant - {lent(494)}", f"lane.grant 4294967296 {lent(494)}", f"lane.grant -1 {lent(494)}",
    f"lane.grant +1 {lent(494)}", f"lane.grant 0  {lent(494)}", f"lane.grant 0 {lent(494)} ",
    f"lane.grant 0 {lent(494)} 0", f"lane.grant 0 {lent(494)}e", f"lane.grant 0 {lent(493)}EE",
    f"lane.grant 0 0 {lent(494)}", "lane.grant 0 e", "lane.grants 0 ee",
    "lane.withdraw", "lane.withdraw ", "lane.withdraw 7", "lane.withdraw 7 ", "lane.withdraw 7 -",
    "lane.withdraw 7 -1", "lane.withdraw 7 -18446744073709551615", "lane.withdraw 7 18446744073709551616",
    "lane.withdraw 7 18446744073709551617", "lane.withdraw 7 340282366920938463463374607431768211457",
    "lane.withdraw 4294967296 1", "lane.withdraw 4294967303 1", "lane.withdraw -7 1", "lane.withdraw - 1",
    "lane.withdraw +7 1", "lane.withdraw 7 +1", "lane.withdraw 7 1 ", "lane.withdraw 7 1 1", "lane.withdraw  7 1",
    "lane.withdraw 7  1", "lane.withdraw 7 1h", "lane.withdraw 7 one",
)
lanes(16, {1: [(7, 71), (7, 72)]})
say("lane.grant 0 -", "no 73 buf=-")  # a buffer of no bytes is one
withdrawn(7, 1)
granted(7, 161, 0, 72)
lanes(1)

printed()
