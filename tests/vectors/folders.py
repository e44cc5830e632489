"""folders.py calls | answers: the call lines of tests/vectors/folders_night.calls, and what each must answer. Which job
holds which folder, which number is told, which address is given, which request a grant opens or takes out and what desk,
lanes and box show stands here line by line, worked out by hand from the papers; nothing here follows a desk, a box or
lanes. Only the bytes of telegrams are worked out, by long division, and how far it was from the turn to an address. Where
nothing else is said, job 7 holds folder 3 and job 8 asks for it."""
import itertools

from wire import ACK, ATT, BUSY, CHECK_ERROR, CLEAR, DATAGRAM, FAULTS, HOSTS, JOB, LONG, MODULE, MONITOR, NACK, READ, ROOM
from wire import SET, SHORT, STATUS, TOGGLE, WRAP, WRITE
from wire import asked, bad, booked, box, cancelled, desk, every, expired, given, granted, joined, lanes, lent, making
from wire import misread, new, no_cancel, no_expiry, not_booked, not_given, not_granted, not_joined, not_withdrawn, printed
from wire import refused, request, say, script, shown, taken_out, withdrawn


def held(folder, clock=0, job=8, **how):
    """An opening on a folder that another job holds."""
    not_given(75, clock, job=job, folder=folder, **how)


def free(folder, address, clock=0, job=8, **how):
    """An opening on a folder that no other job holds: only its buffer is too short for the telegram from this address."""
    not_given(16, clock, would=address, job=job, room=7, folder=folder, **how)


def closed(way, address, clock, job=7, folder=3):
    """The ticket on this address is closed in this way; by an expiry it is the due one with the lowest address."""
    if way == "book":
        booked(address, job, folder=folder)
    elif way == "cancel":
        cancelled(address, clock, job, folder)
    elif way == "expire":
        expired(address, clock, job, folder)
    else:
        every(clock, 1, [(job, address, folder)])


WAYS = ("book", "cancel", "expire", "all")


def packed(holder, wait=60000):
    """A fresh desk whose 95 addresses are all given: this one to job 7 with folder 3, each other to the job of its number
    without a folder."""
    new()
    for address in HOSTS:
        if address == holder:
            given(address, 0, job=7, wait=wait, folder=3)
        else:
            given(address, 0)


def shelved():
    """A fresh desk whose 95 addresses are all given, each to the job of its number with the folder 1000 above it."""
    new()
    for address in HOSTS:
        given(address, 0, folder=1000 + address)


# ---- before the first desk.new, and on a fresh desk, which holds no folder

for _ in range(2):
    given(161, 0, job=7, folder=3)
    held(3)
    shown(162, [(161, 7, 60000, 0, 3)], [])
    new()
    shown(161, [], [])
given(161, 0, job=8, folder=3)
held(3, job=7)

# ---- the call scripts' example: what it has of folders

ZEROS = "000000000000000000000000"
for call, answer in (
    ("desk.new", "ok"),
    (f"desk.open 7 15 4 102 - 1000 3 0 {ZEROS}", "ok address=161 n=8 count=1 buf=0d0fa104669ee60a00000000"),
    (f"desk.open 8 15 4 102 - 1000 3 0 {ZEROS}", f"no 75 count=0 buf={ZEROS}"),
    ("desk.open 0 15 4 102 - 1000 3 0 -", "no 10 count=0 buf=-"),
    ("desk.open 8 15 4 102 - 1000 0 0 00", "no 16 count=1 buf=00"),
    ("desk.cancel 7 161 40", "ok job=7 address=161 folder=3"),
    ("desk.dump", "ok turn=162 tickets=- closed=161:40"),
    (f"desk.open 8 15 4 102 - 10 4 50 {ZEROS}", "ok address=162 n=8 count=1 buf=0d0fa20466c7b60a00000000"),
    ("desk.expall 100 3", "ok n=1 list=8:162:4,.,."),
    ("lane.join 7 15 4 102 - 1000 3", "ok lane=1 at=1"),
    ("lane.join 8 15 5 48 3412 1000 3", "ok lane=2 at=1"),
    ("lane.dump", "ok last=16 lanes=7:15:4:102:-:1000:3|8:15:5:48:3412:1000:3|-|-|-|-|-|-|-|-|-|-|-|-|-|-"),
    ("lane.grant 300 00", "no 73 buf=00"),
    ("lane.withdraw 8 2", "no 55"),
):
    say(call, answer)

# ---- the night of the accident: the trilobite's job and the fish's are handed one folder

new()
given(161, 0, job=7, folder=3)
held(3)  # and the fish is told
held(3, 10)
held(3, WRAP - 1)
shown(162, [(161, 7, 60000, 0, 3)], [])
given(162, 20, job=8, folder=4)  # another folder, by the turn's address: refusals have not moved it
held(4, 20, job=7)
given(163, 20, job=7, folder=3)  # its own, for the same register of the same module
given(164, 20, job=8, folder=4)
shown(165, [(161, 7, 60000, 0, 3), (162, 8, 60000, 20, 4), (163, 7, 60000, 20, 3), (164, 8, 60000, 20, 4)], [])
# each reading is filed under its own animal, in whatever order the answers come
booked(164, job=8, folder=4, data=b"\x04\x00")
booked(161, job=7, folder=3, data=b"\x01\x00")
held(3, 20)
held(4, 20, job=7)
booked(163, job=7, folder=3, data=b"\x03\x00")
given(165, 30, job=8, folder=3)  # nothing is left of the trilobite's there
held(3, 30, job=7)
booked(162, job=8, folder=4, data=b"\x02\x00")
given(166, 30, job=7, folder=4)
shown(167, [(165, 8, 60000, 30, 3), (166, 7, 60000, 30, 4)], [])

# ---- folder 0 is none: any jobs, as often as they like, beside folders that are held

new()
for address, job, folder in (
    (161, 7, 0), (162, 8, 0), (163, 7, 3), (164, 8, 0), (165, 9, 0), (166, WRAP - 1, 0), (167, 7, 0), (168, 7, 3), (169, 8, 4),
):
    given(address, 0, job=job, folder=folder)
held(3)
held(4, job=7)
for job in (1, 7, 8, 9, WRAP - 1):
    free(0, 170, job=job)
booked(161, job=7)
cancelled(162, 0, job=8)
booked(163, job=7, folder=3)
held(3)  # 168
for job in (1, 7, 8, 9, WRAP - 1):
    free(0, 170, job=job)
shown(170, [(164, 8, 60000, 0), (165, 9, 60000, 0), (166, WRAP - 1, 60000, 0), (167, 7, 60000, 0), (168, 7, 60000, 0, 3),
            (169, 8, 60000, 0, 4)], [(162, 0)])

# ---- who may have which: job 7 holds 3 and 4, job 8 holds 5 and 7, job 9 nothing but 0

new()
for address, (job, folder) in zip(HOSTS, ((7, 3), (8, 5), (9, 0), (7, 4), (8, 7), (7, 0))):
    given(address, 0, job=job, folder=folder)
OWNERS = {3: 7, 4: 7, 5: 8, 7: 8}
# a number that is a ticket's job, address, module, register or waiting time is no folder by that
for job, folder in itertools.product((7, 8, 9, 3, 161), (0, 1, 2, 3, 4, 5, 6, 7, 8, 9, 15, 102, 161, 166, 60000)):
    if OWNERS.get(folder, job) == job:
        free(folder, 167, job=job)
    else:
        held(folder, job=job)
# a closing frees the folder of its own ticket, and no other one
booked(161, job=7, folder=3)
free(3, 167)
held(4)
held(5, job=7)
booked(165, job=8, folder=7)
free(7, 167, job=9)
free(3, 167, job=9)
held(5, job=9)
held(4, job=9)

# ---- one folder by one job on all 95 addresses: another is refused until the last of them is closed, in either order

for order in (HOSTS, HOSTS[::-1]):
    new()
    for address in HOSTS:
        given(address, 0, job=7, folder=3)
    not_given(15, 0, job=7, folder=3)  # its own: only the addresses are wanting
    not_given(15, 0, job=8, folder=4)
    for address in order:
        held(3)
        booked(address, job=7, folder=3)
    given(161, 0, job=8, folder=3)
    held(3, job=7)

# ---- 95 folders, one on each address: 75 ahead of 15, wherever the folder's ticket is

shelved()
for address in HOSTS:
    held(1000 + address)
    not_given(15, 0, job=address, folder=1000 + address)
for folder in (0, 1, 8, 161, 255, 1000, 1160, 1256):
    not_given(15, 0, job=8, folder=folder)
shown(161, [(address, address, 60000, 0, 1000 + address) for address in HOSTS], [])
# job 8 takes over one after the other, 47 addresses further each time
for n in range(95):
    address = HOSTS[47 * n % 95]
    booked(address, folder=1000 + address)
    given(address, 0, job=8, folder=1000 + address)  # there is no other address
    held(1000 + address, job=address)
shown(210, [(address, 8, 60000, 0, 1000 + address) for address in HOSTS], [])

# ---- one ticket on the desk, on each address in turn and round to 161: the folder goes from job to job

new()
for n, address in enumerate((*HOSTS, 161, 162)):
    job, other = (7, 8) if n % 2 == 0 else (8, 7)
    given(address, 0, job=job, folder=3)
    held(3, job=other)
    booked(address, job=job, folder=3)
free(3, 163)

# ---- all of a folder's 32 bits, and all of a job's

new()
WIDE = (1, 3, 255, 256, 259, 65535, 65536, 65539, 2**24 + 3, 2**31 - 1, 2**31, 2**31 + 3, WRAP - 256, WRAP - 3, WRAP - 2,
        WRAP - 1)
for address, folder in zip(HOSTS, WIDE):
    given(address, 0, folder=folder)
shown(177, [(address, address, 60000, 0, folder) for address, folder in zip(HOSTS, WIDE)], [])
for address, folder in zip(HOSTS, WIDE):
    held(folder)
    held(folder, job=address + 1)
    free(folder, 177, job=address)
for folder in (0, 2, 4, 254, 257, 258, 515, 65534, 65537, 2**16 + 2**8 + 3, 2**24, 2**31 + 1, 2**31 + 2, WRAP - 257, WRAP - 4):
    free(folder, 177)
    free(folder, 177, job=161)
for address, folder in zip(HOSTS[:16:2], WIDE[::2]):
    cancelled(address, 5, folder=folder)
for address, folder in zip(HOSTS[1:16:2], WIDE[1::2]):
    booked(address, folder=folder)
for folder in WIDE:
    free(folder, 177, 5)
new()
given(161, 0, job=7, folder=3)
given(162, 0, job=WRAP - 1, folder=WRAP - 1)
for job in (1, 3, 6, 8, 15, 161, 7 + 2**8, 7 + 2**16, 7 + 2**24, 7 + 2**31, WRAP - 7, WRAP - 1):
    held(3, job=job)
for job in (1, 2**8 - 1, 2**16 - 1, 2**24 - 1, 2**31 - 1, 2**31, WRAP - 2):
    held(WRAP - 1, job=job)
free(3, 163, job=7)
given(163, 0, job=WRAP - 1, wait=100, folder=WRAP - 1)
every(100, 2, [(4294967295, 163, 4294967295)])
held(4294967295)  # 162
cancelled(162, 100, job=4294967295, folder=4294967295)
given(164, 100, job=8, folder=4294967295)

# ---- 4294967296 is no folder, nor is any other word that is no such number

WORDS = ("4294967296", "4294967299", "8589934591", "18446744073709551615", "18446744073709551616", "18446744073709551619",
         "-1", "-3", "-4294967293", "-", "+3", "3h", "0x3", "3.0", "3,3", "three", "")
SHOWN = "161:7:15:4:102:60000:0:3,164:8:15:4:102:60000:100:4294967295"
for word in WORDS:
    bad(f"desk.open 9 15 4 102 - 1000 {word} 0 {lent(ROOM)}", f"lane.join 9 15 4 102 - 1000 {word}")
bad(
    f"desk.open 0 161 3 102 - 0 4294967296 0 {lent(ROOM)}", "lane.join 0 161 3 102 - 0 4294967296",  # 10 to 14 too
    f"desk.open 9 15 4 102 - 1000 0 {lent(ROOM)}", f"desk.open 9 15 4 102 - 1000 3 3 0 {lent(ROOM)}",
    "lane.join 9 15 4 102 - 1000", "lane.join 9 15 4 102 - 1000 3 3", "lane.grant 0 3 ee", "lane.withdraw 7 1 3",
    "desk.cancel 7 161 0 3", "desk.cancel 7 161 3 0 3", "desk.expire 100 3", "desk.expall 100 3 3", "desk.dump 3",
)
desk(165, SHOWN, "162:100,163:100")
lanes(16)

# ---- 10 to 14 go ahead of 75, whatever else is wrong; 75 ahead of 15 and 16


def ranked(clock=0):
    for number, wrong in FAULTS:
        for room in (ROOM, 0):
            not_given(number, clock, room=room, folder=3, **wrong)
    for room in (ROOM, 7, 0):
        held(3, clock, room=room)


def crowded(clock=0):
    """No address is left: 75 for folder 3, and 15 for its own job, for another folder and for none."""
    for room in (ROOM, 0):
        held(3, clock, room=room)
        for job, folder in ((7, 3), (8, 4), (8, 0), (7, 0)):
            not_given(15, clock, job=job, folder=folder, room=room)


new()
given(161, 0, job=7, folder=3)
ranked()
for job, folder in ((7, 3), (8, 4), (8, 0)):
    free(folder, 162, job=job)
shown(162, [(161, 7, 60000, 0, 3)], [])
# all 95 open, the folder's ticket first, last or in the middle
for holder in (161, 255, 208):
    packed(holder)
    crowded()
    crowded(60000)  # all are due, and open
ranked()
shown(161, [(address, 7, 60000, 0, 3) if address == 208 else (address, address, 60000, 0) for address in HOSTS], [])
# the others rest, and then that one too: it holds nothing any more
for address in HOSTS:
    if address != 208:
        cancelled(address, 1000)
crowded(1000)
crowded(1999)
ranked(1999)
held(3, 2000, room=0)
free(3, 161, 2000, job=7)
free(4, 161, 2000)
cancelled(208, 1500, job=7, folder=3)
for job, folder in ((7, 3), (8, 3), (8, 4), (8, 0)):
    for room in (ROOM, 0):
        not_given(15, 1999, job=job, folder=folder, room=room)
given(161, 2000, job=8, folder=3)
held(3, 2000, job=7)
# one free, far from the turn: 95 addresses are considered, and none with 75
packed(161)
booked(255)
held(3)
held(3, room=0)
free(3, 255, job=7)
free(4, 255)

# ---- whatever is asked for: types, modules, registers, data, waiting times and buffers

new()
given(161, 0, job=7, folder=3)
for sort in (READ, WRITE, SET, CLEAR, TOGGLE):
    held(3, sort=sort)
    held(3, module=1, sort=sort, register=0, wait=1)
    held(3, module=160, sort=sort, register=255, wait=59999)
for sort in (WRITE, SET, CLEAR, TOGGLE):
    held(3, sort=sort, register=48, data=b"\x34\x12")
    held(3, sort=sort, register=48, data=bytes(range(240)), room=494)
for room in (1, 8, 11, 13, 493, 494, 495):
    held(3, room=room)
for clock in (1, 999, 1000, 59999, 60000, 2**31, WRAP - 1):
    held(3, clock)
shown(162, [(161, 7, 60000, 0, 3)], [])
DATA = bytes(range(16, 256))
given(162, 0, job=7, folder=3, sort=WRITE, register=48, data=DATA, room=494)
given(163, 0, job=8, folder=4, module=160, sort=TOGGLE, register=0, data=b"\x01", wait=1)
held(4, job=7)
desk(164, "161:7:15:4:102:60000:0:3,162:7:15:5:48:60000:0:3,163:8:160:9:0:1:0:4")

# ---- an opening that is refused takes no folder

new()
for number, wrong in FAULTS:
    not_given(number, 0, folder=3, **wrong)
free(3, 161, job=7)
given(161, 0, job=8, folder=3)
held(3, job=9)
booked(161, job=8, folder=3)
given(162, 0, job=7, folder=3)  # not job 9's either
for address in (*HOSTS[2:], 161):
    given(address, 0)
not_given(15, 0, job=9, folder=5)
booked(200)
given(200, 0, job=8, folder=5)

# ---- freed by a booked reply: each type of request, each kind of reply that fits it, with its register or 0

for sort in (READ, WRITE, SET, CLEAR, TOGGLE):
    for reply in (DATAGRAM if sort == READ else ACK, NACK, CHECK_ERROR, BUSY):
        for register in (102,) if reply == DATAGRAM else (102, 0):
            new()
            given(161, 0, job=7, sort=sort, folder=3)
            held(3)
            booked(161, 7, sort=reply, register=register, data=b"" if register else b"\x34\x12", folder=3)
            given(162, 0, job=8, folder=3)
            held(3, job=7)

# ---- freed by a cancel, by an expiry, by an expiry of everything; till then a due ticket holds it

for way in WAYS:
    new()
    given(161, 0, job=7, wait=100, folder=3)
    given(162, 0, job=9, folder=4)
    for clock in (0, 99, 100, 150):
        held(3, clock)
    closed(way, 161, 150)
    given(163, 150, job=8, folder=3)
    held(3, 150, job=7)
    held(4, 150)
    shown(164, [(162, 9, 60000, 0, 4), (163, 8, 60000, 150, 3)], [] if way == "book" else [(161, 150)])
    # and the next one's in the same way
    closed("cancel", 163, 160, job=8)
    given(164, 160, job=9, folder=3, wait=100)
    given(165, 160, job=7)
    held(3, 260, job=7)
    closed(way, 164, 260, job=9)
    free(3, 166, 260, job=7)
    held(4, 260, job=7)
    given(166, 260, job=7, folder=3)

# ---- a resting address holds no folder: on a desk that has no other address, 15 till its rest is over

for way in ("cancel", "expire", "all"):
    packed(200, wait=100)
    held(3, 100)
    closed(way, 200, 100)
    for clock in (100, 101, 1099):
        not_given(15, clock, job=8, folder=3)
        not_given(15, clock, job=7, folder=3)
    not_booked(61, 200)
    not_given(15, 1099, job=8, folder=3)
    free(3, 200, 1100)
    free(3, 200, 99)  # set back by one: no rest
    not_given(15, 500, job=8, folder=3)  # gone round: a rest, and no folder
    given(200, 1100, job=8, folder=4)
    held(4, 1100, job=7)  # its new ticket's, and no longer the old one's
    not_given(15, 1100, job=9, folder=3)
    closed("cancel", 200, 1200, job=8, folder=4)
    given(200, 2200, job=9, folder=3)
    held(3, 2200)
    not_given(15, 2200, job=7, folder=4)

# ---- what is refused frees nothing: replies, cancels, expiries, and a list without room

new()
given(161, 0, job=7, wait=100, folder=3)
given(162, 0, job=8, folder=4)
given(163, 0, job=9, folder=5)
cancelled(163, 0, job=9, folder=5)
misread(161)
held(3)
for number, address, how in (
    (17, 164, {}), (17, 160, {}), (61, 163, {}), (18, 161, dict(source=16)), (18, 161, dict(source=162)),
    (19, 161, dict(sort=ACK)), (19, 161, dict(sort=READ)), (20, 161, dict(register=103)), (20, 161, dict(register=0)),
    (20, 161, dict(sort=NACK, register=103)), (18, 162, dict(source=14)),
):
    not_booked(number, address, **how)
    held(3)
    held(4, job=7)
for address, job in ((161, 8), (161, 0), (161, 3), (161, 9), (162, 7), (163, 7), (163, 9), (164, 7), (7, 7), (3, 7)):
    no_cancel(address, 0, job=job)
    held(3)
    held(4, job=7)
no_expiry(0)
no_expiry(99)
every(99, 3)
held(3, 99)
every(100, 0)
every(WRAP - 1, 0)
held(3, 100)
held(3, WRAP - 1)
shown(164, [(161, 7, 100, 0, 3), (162, 8, 60000, 0, 4)], [(163, 0)])
expired(161, 100, job=7, folder=3)
no_expiry(100)
given(164, 100, job=8, folder=3)
not_booked(61, 161)  # late, and it gives nothing back
held(3, 100, job=7)

# ---- three tickets on the folder, closed one by one in every order: the last one frees it

for ways in (("book", "cancel", "expire"), ("cancel", "all", "book"), ("expire", "book", "cancel"), ("all", "cancel", "book")):
    for order in itertools.permutations((161, 163, 164)):
        new()
        way = dict(zip(order, ways))
        for address in (161, 162, 163, 164):
            if address == 162:
                given(162, 0, job=9, folder=4)
            else:
                given(address, 0, job=7, wait=100 if way[address] in ("expire", "all") else 60000, folder=3)
        for address in order:
            held(3, 100)
            held(3, 100, job=9)
            closed(way[address], address, 100)
        given(165, 100, job=8, folder=3)
        held(3, 100, job=7)
        held(4, 100, job=7)

# ---- which folder an expiry answers: that of the due ticket with the lowest address

new()
for address, job, wait, folder in ((161, 7, 300, 3), (162, 8, 100, 4), (163, 7, 200, 3), (164, 9, 100, 0), (165, 8, 100, 6)):
    given(address, 0, job=job, wait=wait, folder=folder)
expired(162, 100, job=8, folder=4)
free(4, 166, 100, job=7)
held(6, 100, job=7)
expired(163, 200, job=7, folder=3)  # due since just now, and lower than those due since 100
held(3, 200)  # 161
expired(164, 200, job=9)
held(6, 200, job=7)  # 165
expired(165, 200, job=8, folder=6)
no_expiry(299)
held(3, 299)
expired(161, 300, job=7, folder=3)
for folder in (3, 4, 6):
    free(folder, 166, 300, job=9)

# ---- everything due at once: lists of job, address and folder; what finds no room is open and holds its folder

new()
for address, job, folder in ((161, 7, 3), (162, 7, 3), (163, 7, 3), (164, 8, 4), (165, 9, 5), (166, 9, 0)):
    given(address, 0, job=job, wait=100, folder=folder)
given(167, 0, job=7, folder=6)  # not due
every(100, 0)
held(3, 100)
every(100, 2, [(7, 161, 3), (7, 162, 3)])
held(3, 100)  # 163
held(4, 100, job=7)
held(5, 100)
shown(168, [(163, 7, 100, 0, 3), (164, 8, 100, 0, 4), (165, 9, 100, 0, 5), (166, 9, 100, 0), (167, 7, 60000, 0, 6)],
      [(161, 100), (162, 100)])
every(100, 1, [(7, 163, 3)])
given(168, 100, job=8, folder=3)
held(3, 100, job=7)
held(4, 100, job=7)
held(5, 100)
every(150, 4, [(8, 164, 4), (9, 165, 5), (9, 166, 0)])
given(169, 150, job=7, folder=4)
given(170, 150, job=7, folder=5)
held(6, 150)
held(3, 150, job=9)
shown(171, [(167, 7, 60000, 0, 6), (168, 8, 60000, 100, 3), (169, 7, 60000, 150, 4), (170, 7, 60000, 150, 5)],
      [(161, 100), (162, 100), (163, 100), (164, 150), (165, 150), (166, 150)])
# 95 folders: with room for 94 the last one is still held, with room for one only the first is free
shelved()
ENTRIES = [(address, address, 1000 + address) for address in HOSTS]
every(59999, 95)
every(60000, 1, ENTRIES[:1])
not_given(15, 60000, job=8, folder=1161)
for address in HOSTS[1:]:
    held(1000 + address, 60000)
every(60000, 93, ENTRIES[1:94])
for address in HOSTS[:94]:
    not_given(15, 60000, job=8, folder=1000 + address)
held(1255, 60000)
held(1255, 61000)
for address in HOSTS[:94]:
    free(1000 + address, 161, 61000)
every(60000, 200, ENTRIES[94:])
not_given(15, 60000, job=8, folder=1255)
given(161, 61000, job=8, folder=1255)
held(1255, 61000, job=255)
new()
for address in HOSTS:
    given(address, 0, job=WRAP - 1, wait=1, folder=WRAP - 1)
every(1, 95, [(WRAP - 1, address, WRAP - 1) for address in HOSTS])
not_given(15, 1000, job=8, folder=WRAP - 1)
given(161, 1001, job=8, folder=WRAP - 1)

# ---- lanes: a folder that another job holds is no refusal at joining; the grant takes the request out and goes on

new()
given(161, 0, job=7, folder=3)
joined(1, 1, 8, 81, folder=3)
joined(1, 2, 8, 82, folder=4)
joined(2, 1, 9, 91, folder=3)
joined(3, 1, 7, 71, folder=3)
joined(4, 1, 10, 101)
WAITING = {1: [(8, 82, 4)], 2: [(9, 91, 3)], 3: [(7, 71, 3)], 4: [(10, 101)]}
lanes(16, {**WAITING, 1: [(8, 81, 3), (8, 82, 4)]})
HELD = [(161, 7, 60000, 0, 3)]
shown(162, HELD, [])
not_granted(73, room=493)  # ahead of 75: nothing is taken out
not_granted(73, room=0)
lanes(16, {**WAITING, 1: [(8, 81, 3), (8, 82, 4)]})
taken_out(8)
lanes(1, WAITING)  # lane 1 has been served
shown(162, HELD, [])  # and nothing opened
not_booked(17, 162, register=81)
no_cancel(162, 0, job=8)
not_withdrawn(8, 2)  # one is left, and has moved up
taken_out(9, 10, room=495)  # the next lane's, although lane 1 has something
lanes(2, {1: [(8, 82, 4)], 3: [(7, 71, 3)], 4: [(10, 101)]})  # lane 2 is empty, and the last
not_withdrawn(9, 1)
granted(7, 162, 10, 71)  # its own
lanes(3, {1: [(8, 82, 4)], 4: [(10, 101)]})
joined(2, 1, 9, 92, folder=3)  # the lowest empty lane
joined(3, 1, 11, 111, folder=3)
granted(10, 163, 10, 101)
granted(8, 164, 20, 82)
lanes(1, {2: [(9, 92, 3)], 3: [(11, 111, 3)]})
taken_out(9, 20, room=1000)
taken_out(11, 20)
lanes(3)
not_granted(74, 20)
desk(165, "161:7:15:4:102:60000:0:3,162:7:15:4:71:60000:10:3,163:10:15:4:101:60000:10:0,164:8:15:4:82:60000:20:4")
# the grants' tickets hold their folders as any other
held(3, 20)
held(4, 20, job=7)
booked(161, job=7, folder=3)
held(3, 20)  # 162
joined(1, 1, 9, 93, folder=3)
joined(1, 2, 9, 94, folder=4)
joined(1, 3, 9, 95, folder=3)
taken_out(9, 30)
taken_out(9, 30)  # 164
booked(162, job=7, register=71, folder=3)
granted(9, 165, 30, 95)
lanes(1)
held(3, 30, job=7)
cancelled(164, 30, job=8, folder=4)
expired(163, 60010, job=10)
every(60030, 2, [(9, 165, 3)])
shown(166, [], [(163, 60010), (164, 30), (165, 60030)])

# ---- what waits holds nothing: neither against openings at the desk nor against other lanes

new()
joined(1, 1, 7, 71, folder=3)
joined(1, 2, 7, 72, folder=3)
joined(2, 1, 8, 81, folder=3)
joined(2, 2, 8, 82, folder=4)
joined(3, 1, 9, 91, folder=4)
free(3, 161)
free(3, 161, job=10)
given(161, 0, job=10, folder=3)
lanes(16, {1: [(7, 71, 3), (7, 72, 3)], 2: [(8, 81, 3), (8, 82, 4)], 3: [(9, 91, 4)]})
taken_out(7)
taken_out(8)
granted(9, 162, 0, 91)
held(4)
booked(161, job=10, folder=3)
granted(7, 163, 0, 72)
taken_out(8)  # 4 is job 9's
lanes(2)
not_granted(74)
held(3)
desk(164, "162:9:15:4:91:60000:0:4,163:7:15:4:72:60000:0:3")
# of two that wait for one folder the first to be granted has it
new()
for lane, job in enumerate((7, 8, 9), 1):
    joined(lane, 1, job, 10 * job, folder=3)
    joined(lane, 2, job, 10 * job + 1, folder=3)
granted(7, 161, 0, 70)
taken_out(8)
taken_out(9)
granted(7, 162, 0, 71)  # its own once more
booked(161, job=7, register=70, folder=3)
taken_out(8)  # 162
cancelled(162, 0, job=7, folder=3)
granted(9, 163, 0, 91)
lanes(3)
# withdrawn: the next one has it
joined(1, 1, 7, 72, folder=4)
joined(2, 1, 8, 82, folder=4)
withdrawn(7, 1)
granted(8, 164, 0, 82)
lanes(2)
held(4, job=7)

# ---- judged at the grant: held at joining and free by then, and the other way round

for way in WAYS:
    new()
    given(161, 0, job=7, wait=100, folder=3)
    joined(1, 1, 8, 81, folder=3)
    joined(2, 1, 9, 91, folder=4)
    joined(3, 1, 10, 100, folder=3)
    closed(way, 161, 100)
    given(162, 100, job=7, folder=4)
    granted(8, 163, 100, 81)
    taken_out(9, 100)
    taken_out(10, 100)  # job 8's now
    lanes(3)
    joined(1, 1, 9, 92, folder=4)
    closed("cancel", 162, 100, folder=4)
    granted(9, 164, 100, 92)
    held(4, 100, job=7)
# due, and open: it holds the folder
new()
given(161, 0, job=7, wait=100, folder=3)
for at in (1, 2, 3, 4):
    joined(1, at, 8, 80 + at, folder=3)
taken_out(8, 99)
taken_out(8, 100)
taken_out(8, WRAP - 1)
every(100, 0)
joined(1, 2, 8, 85, folder=3)
taken_out(8, 100)
every(100, 1, [(7, 161, 3)])
granted(8, 162, 100, 85)

# ---- held by its own job: opened, whoever opened the other ones

new()
given(161, 0, job=8, folder=3)
for at in (1, 2, 3, 4):
    joined(1, at, 8, 80 + at, folder=3)
joined(2, 1, 7, 71, folder=3)
granted(8, 162, 0, 81)
taken_out(7)
for at in (2, 3, 4):
    granted(8, 161 + at, 0, 80 + at)
given(166, 0, job=8, folder=3)
for address, register in ((161, 102), (163, 82), (162, 81), (165, 84), (164, 83)):
    booked(address, job=8, register=register, folder=3)
    joined(1, 1, 7, 72, folder=3)
    taken_out(7)
booked(166, job=8, folder=3)
joined(1, 1, 7, 73, folder=3)
granted(7, 167, 0, 73)
held(3)
given(168, 0, job=7, folder=3)

# ---- a lane that is alone: taken out, opened, taken out, opened; the same job joins again at once

new()
given(161, 0, job=7, folder=3)
for at, folder in enumerate((3, 4, 3, 0), 1):
    joined(1, at, 8, 80 + at, folder=folder)
taken_out(8)
lanes(1, {1: [(8, 82, 4), (8, 83, 3), (8, 84)]})
joined(1, 4, 8, 85, folder=3)
not_joined(72, 8, folder=3)
granted(8, 162, 0, 82)
taken_out(8)
granted(8, 163, 0, 84)
lanes(1, {1: [(8, 85, 3)]})
taken_out(8)
lanes(1)
for register in (86, 87, 88):  # emptied by 75, and come back to
    joined(1, 1, 8, register, folder=3)
    lanes(1, {1: [(8, register, 3)]})
    taken_out(8)
    lanes(1)
    not_granted(74)
    not_granted(73, room=493)
desk(164, "161:7:15:4:102:60000:0:3,162:8:15:4:82:60000:0:4,163:8:15:4:84:60000:0:0")

# ---- a lane emptied by 75 is nobody's; 71 and 72, and 10 to 14 ahead of them, are the same for a folder that is held

new()
given(161, 0, job=100, folder=3)
for job in range(1, 17):
    joined(job, 1, job, 10 * job, folder=3)
ONE_EACH = {job: [(job, 10 * job, 3)] for job in range(1, 17)}
for folder in (0, 3, 4):
    not_joined(71, 17, folder=folder)
for at in (2, 3, 4):
    joined(16, at, 16, 160 + at, folder=3)
for folder in (0, 3, 4):
    not_joined(72, 16, folder=folder)
    not_joined(71, 17, folder=folder)
for number, wrong in FAULTS:
    for job in (16, 17, 9):  # 9 has a lane with room
        not_joined(number, **{"job": job, "folder": 3, **wrong})
HELD = {**ONE_EACH, 16: [(16, 160, 3), (16, 162, 3), (16, 163, 3), (16, 164, 3)]}
lanes(16, HELD)
taken_out(1)
joined(1, 1, 17, 171, folder=3)
not_joined(71, 1, folder=4)
lanes(1, {**HELD, 1: [(17, 171, 3)]})
for job in range(2, 17):
    taken_out(job)
lanes(16, {1: [(17, 171, 3)], 16: [(16, 162, 3), (16, 163, 3), (16, 164, 3)]})
joined(2, 1, 1, 11, folder=4)  # lanes 2 to 15 are empty
taken_out(17)
granted(1, 162, 0, 11)
taken_out(16)
joined(1, 1, 5, 51, folder=3)
lanes(16, {1: [(5, 51, 3)], 16: [(16, 163, 3), (16, 164, 3)]})
withdrawn(16, 1)
taken_out(5)
taken_out(16)
lanes(16)
not_granted(74)
shown(163, [(161, 100, 60000, 0, 3), "162:1:15:4:11:60000:0:4"], [])

# ---- a full desk: a held folder is 75 and taken out, any other 15 and stays

packed(200)
joined(1, 1, 9, 91, folder=3)
joined(2, 1, 8, 81, folder=4)
joined(2, 2, 8, 82, folder=3)
joined(3, 1, 10, 101, folder=3)
joined(4, 1, 7, 71, folder=3)  # its own
joined(5, 1, 11, 111)
OPEN = [(address, 7, 60000, 0, 3) if address == 200 else (address, address, 60000, 0) for address in HOSTS]
LATER = {4: [(7, 71, 3)], 5: [(11, 111)]}
WAITING = {2: [(8, 81, 4), (8, 82, 3)], 3: [(10, 101, 3)], **LATER}
not_granted(73, room=493)  # ahead of 75 and 15
lanes(16, {**WAITING, 1: [(9, 91, 3)]})
taken_out(9)
lanes(1, WAITING)
shown(161, OPEN, [])
for clock in (0, 1, 60000, WRAP - 1):
    not_granted(15, clock)  # lane 2's, and lane 3's turn doesn't come
    not_granted(73, clock, room=493)
lanes(1, WAITING)
withdrawn(8, 1)
taken_out(8)  # its next one
lanes(2, {3: [(10, 101, 3)], **LATER})
taken_out(10)
lanes(3, LATER)
not_granted(15)  # its own job's
not_granted(15)
lanes(3, LATER)
withdrawn(7, 1)
not_granted(15)  # folder 0
lanes(3, {5: [(11, 111)]})
joined(1, 1, 9, 92, folder=3)
not_granted(15)  # lane 5 comes before lane 1
booked(255)
granted(11, 255, 0, 111)
taken_out(9)
not_granted(74)
shown(161, [*OPEN[:94], "255:11:15:4:111:60000:0:0"], [])
# where an address is free it is 75 all the same
joined(1, 1, 8, 83, folder=5)
joined(2, 1, 9, 93, folder=3)
booked(170)
taken_out(9)  # lane 1 was the last
granted(8, 170, 0, 83)
# the folder's own address rests: nobody holds it, and every address is open or resting
joined(1, 1, 10, 102, folder=5)
joined(2, 1, 9, 94, folder=3)
cancelled(200, 1000, job=7, folder=3)
not_granted(15, 1000)
not_granted(15, 1999)
lanes(1, {1: [(10, 102, 5)], 2: [(9, 94, 3)]})
granted(9, 200, 2000, 94)
taken_out(10, 2000)  # job 8's
held(3, 2000)
# all but three rest
for address in HOSTS:
    if address not in (170, 200, 255):
        cancelled(address, 3000)
joined(1, 1, 10, 103, folder=4)
joined(2, 1, 8, 84, folder=3)
taken_out(8, 3999)
not_granted(15, 3999)
lanes(2, {1: [(10, 103, 4)]})
granted(10, 201, 4000, 103)
lanes(1)

# ---- 16 times p: all 64 places taken, every second request on a held folder; the p-th of lane 16 comes with grant 16 times p

new()
given(161, 0, job=100, folder=3)
asks = {(job, at): (job, 10 * job + at, 3 if (job + at) % 2 else 100 + job) for job in range(1, 17) for at in (1, 2, 3, 4)}
for at in (1, 2, 3, 4):
    for job in range(1, 17):
        joined(job, at, *asks[job, at][:2], folder=asks[job, at][2])
opened = []
for at in (1, 2, 3, 4):
    for job in range(1, 17):
        _, register, folder = asks[job, at]
        if folder == 3:
            taken_out(job, at)
        else:
            address = 162 + len(opened)
            granted(job, address, at, register)
            opened.append(f"{address}:{job}:15:4:{register}:60000:{at}:{folder}")
    lanes(16, {job: [asks[job, later] for later in range(at + 1, 5)] for job in range(1, 17)} if at < 4 else {})
not_granted(74)
assert len(opened) == 32
shown(194, [(161, 100, 60000, 0, 3), *opened], [])

# ---- the fourth in its lane comes with grant 64 and not before, however the others come back: lane 7 was last. Job 7's are
# opened and all others taken out, and then the other way round

for mine, theirs in ((107, 3), (3, 0)):
    new()
    given(161, 0, job=100, folder=3)
    for job in range(1, 8):
        joined(job, 1, job, 200)
    for job in range(1, 8):
        granted(job, 161 + job, 0, 200)
    for job in range(1, 17):  # jobs 1 to 7 come back, each to its own lane: 1 to 7 are empty by rising number
        for at in (1, 2, 3, 4):
            joined(job, at, job, at, folder=mine if job == 7 else theirs)
    address = 168
    for at in (1, 2, 3, 4):
        for job in (8, 9, 10, 11, 12, 13, 14, 15, 16, 1, 2, 3, 4, 5, 6, 7):
            if 3 == (mine if job == 7 else theirs):
                taken_out(job, 1)
            else:
                address += 1
                granted(job, address, 1, at)
            if job != 7:
                joined(job, 4, job, at + 4, folder=theirs)  # its lane is full again at once
    lanes(7, {job: [(job, register, theirs) for register in (5, 6, 7, 8)] for job in range(1, 17) if job != 7})
    joined(7, 1, 17, 171, folder=3)  # and lane 7 is the only one that is free
    not_joined(71, 7)

# ---- one job floods a folder that is held, the others trickle: each waits for one of the flood's at most

new()
given(161, 0, job=100, folder=3)
for at in (1, 2, 3, 4):
    joined(1, at, 1, at, folder=3)
for n, job in enumerate((2, 3, 4, 5, 2, 3), 1):
    joined(2, 1, job, 10 * job, folder=10 + job)
    taken_out(1)
    joined(1, 4, 1, n + 4, folder=3)
    not_joined(72, 1, folder=3)
    granted(job, 161 + n, 0, 10 * job)
    lanes(2, {1: [(1, register, 3) for register in range(n + 1, n + 5)]})
cancelled(161, 0, job=100, folder=3)
granted(1, 168, 0, 7)
held(3, job=100)

# ---- requests with data and folder: nothing is written for one that is taken out, and its data go with it

new()
given(161, 0, job=7, folder=WRAP - 1)
joined(1, 1, 8, 48, module=160, sort=WRITE, data=DATA, wait=1, folder=WRAP - 1)
joined(1, 2, 8, 50, module=1, sort=TOGGLE, data=b"\x0a\x0d\x5e", wait=100, folder=WRAP - 2)
joined(2, 1, 7, 51, sort=SET, data=b"\xff", folder=WRAP - 1)
FIRST = request(8, 48, 160, WRITE, DATA, 1, 4294967295)
SECOND = request(8, 50, 1, TOGGLE, b"\x0a\x0d\x5e", 100, 4294967294)
THIRD = request(7, 51, 15, SET, b"\xff", 60000, 4294967295)
lanes(16, {1: [FIRST, SECOND], 2: [THIRD]})
taken_out(8, room=494)
lanes(1, {1: [SECOND], 2: [THIRD]})
granted(7, 162, 0, 51, sort=SET, data=b"\xff")
granted(8, 163, 5, 50, 1, TOGGLE, b"\x0a\x0d\x5e")
desk(164, "161:7:15:4:102:60000:0:4294967295,162:7:15:6:51:60000:0:4294967295,163:8:1:9:50:100:5:4294967294")
every(105, 3, [(8, 163, 4294967294)])
booked(162, 7, sort=ACK, register=51, data=b"", folder=4294967295)
held(4294967295, 105)
joined(1, 1, 8, 49, sort=WRITE, data=DATA, folder=WRAP - 1)
cancelled(161, 105, job=7, folder=4294967295)
granted(8, 164, 105, 49, sort=WRITE, data=DATA)
lanes(1)

# ---- the filter box has folder 0: no folder keeps it off, and it keeps nobody off

new()
making()
given(161, 0, job=7, folder=3)
given(162, 0, job=JOB, module=MODULE, folder=5)  # the box's job and module may have one beside it
held(5)
asked(163, SHORT, 7000)
asked(164, ATT, 500)
asked(165, MONITOR, wait=100)
asked(166, STATUS, wait=100)
OUT = "163:short:7000"
BOXED = "163:9:16:5:51:60000:0:0,164:9:16:5:50:60000:0:0,165:9:16:4:19:100:0:0,166:9:16:4:102:100:0:0"
desk(167, f"161:7:15:4:102:60000:0:3,162:9:16:4:102:60000:0:5,{BOXED}")
for job in (1, 7, 8, JOB):
    free(0, 167, job=job)
held(3, job=JOB, module=MODULE, sort=WRITE, register=SHORT)
held(3)
held(5, job=7)
refused(59, LONG, 1)
refused(62, ATT, 1001)
refused(16, MONITOR, room=7, would=167)
box(out=OUT)  # another's 75 is nothing to it
booked(163, JOB, MODULE, ACK, SHORT, b"")
box(short=7000)
cancelled(164, 10, job=JOB)
expired(165, 100, job=JOB)
every(100, 2, [(JOB, 166, 0)])
held(5, 100)  # the box's closings free nothing of its job's
held(3, 100, job=JOB)
refused(63, LONG, 7000, clock=100)
asked(167, LONG, 4000, clock=100)
booked(162, JOB, MODULE, folder=5)
box(short=7000, out="167:long:4000")  # and a folder's closing is nothing to the box
given(168, 100, job=8, folder=5)
booked(167, JOB, MODULE, NACK, LONG, b"")
box(short=7000)
# a request for the box's module that is taken out is not the box's
asked(169, LONG, 4000, clock=100)
joined(1, 1, JOB, LONG, module=MODULE, sort=WRITE, data=b"\xa0\x0f", folder=3)
taken_out(JOB, 100)
box(short=7000, out="169:long:4000")
joined(1, 1, JOB, LONG, module=MODULE, sort=WRITE, data=b"\xa0\x0f", folder=4)
granted(JOB, 170, 100, LONG, MODULE, WRITE, b"\xa0\x0f")
held(4, 100)
booked(170, JOB, MODULE, ACK, LONG, b"", folder=4)
box(short=7000, out="169:long:4000")
booked(169, JOB, MODULE, ACK, LONG, b"")
box(7000, 4000)
shown(171, [(161, 7, 60000, 0, 3), (168, 8, 60000, 100, 5)], [(164, 10), (165, 100), (166, 100)])
# a full desk, each ticket with a folder: 15, whatever is asked for
shelved()
making()
for register, value in ((SHORT, 7000), (LONG, 4000), (ATT, 1000), (MONITOR, None), (STATUS, None)):
    refused(15, register, value)
    refused(15, register, value, room=0)
booked(200, folder=1200)
asked(200, SHORT, 7000, wait=100)
not_given(15, 0, job=8, folder=1200)
held(1201)
expired(200, 100, job=JOB)
box()
# the box's module and register, one folder, two jobs
new()
making()
given(161, 0, job=7, module=MODULE, sort=WRITE, register=SHORT, data=b"\x58\x1b", folder=3)
held(3, module=MODULE, sort=WRITE, register=SHORT, data=b"\x58\x1b")
asked(162, SHORT, 7000)
booked(161, 7, MODULE, ACK, SHORT, b"", folder=3)
box(out="162:short:7000")
given(163, 0, job=8, module=MODULE, sort=WRITE, register=SHORT, data=b"\x58\x1b", folder=3)
cancelled(162, 0, job=JOB)
box()

# ---- a desk made anew has no folder, ticket, rest, lane or box of the one before

joined(1, 1, 7, 71, folder=3)
held(3, job=7)
new()
lanes(16)
shown(161, [], [])
say("varia.dump", "no box")
free(3, 161, job=7)
joined(1, 1, 9, 91, folder=3)
given(161, 0, job=7, folder=3)
taken_out(9)
new()
joined(1, 1, 9, 91, folder=3)
granted(9, 161, 0, 91)
held(3, job=7)
# a bench, a receiver and a box made anew leave it
say("bench.new 15", "ok")
say("rx.new 0", "ok")
making()
held(3, job=7)
desk(162, "161:9:15:4:91:60000:0:3")

# no desk that was shown has a folder with two jobs
for call, answer in script:
    if call == "desk.dump" and " tickets=- " not in answer:
        tickets = [one.split(":") for one in answer.split()[2].removeprefix("tickets=").split(",")]
        holders = {(folder, job) for _, job, *_, folder in tickets if folder != "0"}
        assert len(holders) == len({folder for folder, _ in holders})

printed()
