"""tally.py calls | answers: the call lines of tests/vectors/tally_night.calls, and what each must answer. Which lines a chunk
gives and at which places, how many of its bytes are taken, which number is told and what the tally is then stands here line by
line, worked out by hand from the papers; nothing here follows a receiver or a tally. Only the remainders of a few frames are
worked out, by long division."""
from wire import bad, new, printed, say, script, telegram

FULL = 2**32 - 1  # a number that takes no more lines
LARGEST = 2**64 - 1  # the place

# ---- frames, each of which gives one line

READ = bytes.fromhex("0da20f0330482f0a")  # the manual's ack, 8 bytes
WRONG = b"\r\n"  # refused 4, 2 bytes
DROP = b"\r\r"  # the first is dropped and the second open, 2 bytes
OTHERS = {
    bytes.fromhex("0d5e410a"): "3 in 1",
    bytes.fromhex("0d41410a"): "4",
    b"\r" + bytes(247) + b"\n": "5",  # a message of 247 bytes
    b"\r" + b"A" * 493 + b"\n": "5",  # a frame of 495
    bytes.fromhex("0da20f0330482e0a"): "7",
    telegram(0, 15, 3, 48): "8",
    telegram(162, 0, 3, 48): "8",
    telegram(162, 15, 11, 48): "9",
}


def ok(place):
    return f"at {place} ok 162 15 3 48 0"


def refused(place, number="4"):
    return f"at {place} refused {number}"


def dropped(place):
    return f"at {place} dropped"


# ---- the calls


def receiver(place=0):
    say(f"rx.new {place}", "ok")


def fed(chunk, *lines):
    """A chunk that is taken, with these lines."""
    say(f"rx.feed {chunk.hex() or '-'}", "ok lines=" + ";".join(lines))


def stopped(number, chunk, count=0, *lines):
    """A chunk that is refused once so many of its bytes are taken, with these lines."""
    say(f"rx.feed {chunk.hex() or '-'}", f"no {number} taken={count} lines=" + ";".join(lines))


def end(read, wrong, gone, place=None):
    """What is left to say: the frame that is open at this place, and the totals."""
    opened = "" if place is None else rf"at {place} open\n"
    say("rx.end", rf"ok text={opened}ok {read} refused {wrong} dropped {gone}\n")


def put(read=0, wrong=0, gone=0):
    say(f"tally.set {read} {wrong} {gone}", "ok")


def tally(read=0, wrong=0, gone=0):
    say("tally.get", f"ok read={read} refused={wrong} dropped={gone}")


# ---- before anything was set or made: a tally of nothing

tally()
fed(READ, ok(0))
tally(1)
fed(WRONG, refused(8))
tally(1, 1)
fed(DROP, dropped(10))
tally(1, 1, 1)
fed(b"\n", refused(11))
tally(1, 2, 1)
end(1, 2, 1)
tally(1, 2, 1)  # which says nothing new

# ---- the call scripts' example

put()
example = len(script)
receiver()
fed(bytes.fromhex("0da20f030d"), dropped(0))
fed(bytes.fromhex("30482f0a0d"), refused(4))
end(0, 1, 1, 9)
tally(0, 1, 1)
put(0, 4294967295, 0)
stopped(76, bytes.fromhex("0a01"))
# the script must agree with the papers before it may judge the library
assert [answer for _, answer in script[example:]] == [
    "ok", "ok lines=at 0 dropped", "ok lines=at 4 refused 4", r"ok text=at 9 open\nok 0 refused 1 dropped 1\n",
    "ok read=0 refused=1 dropped=1", "ok", "no 76 taken=0 lines=",
]
tally(0, FULL)  # as it was
end(0, 1, 1, 9)  # and so is the receiver

# ---- each sort of line is counted once, whatever number a frame is refused with; listing it refuses no step

put()
receiver()
for count, (frame, number) in enumerate(OTHERS.items()):
    place = sum(len(before) for before in list(OTHERS)[:count])
    fed(frame, refused(place, number))
    tally(0, count + 1)
end(0, 8, 0)
receiver(1000)
put()
fed(READ + WRONG + DROP + READ, ok(1000), refused(1008), dropped(1010), dropped(1011), ok(1012))
tally(2, 1, 2)
fed(READ * 3, ok(1020), ok(1028), ok(1036))
tally(5, 1, 2)
fed(b"\r" * 4, dropped(1044), dropped(1045), dropped(1046))
tally(5, 1, 5)
end(5, 1, 5, 1047)

# ---- no line, no count: bytes outside of a frame, a stray 10, an open frame, no bytes; the line counts when it is told

receiver()
put()
for chunk in (b"", b"A", b"\n", b"\x5e\x5e", b"\n\n\n", b"\r", b"", b"A", b"\x5e", b"\x41", b"\xff" * 600):
    fed(chunk)
    tally()
end(0, 0, 0, 7)  # 1, 1, 2 and 3 bytes before it
fed(b"\n", refused(7, "5"))
tally(0, 1)
fed(READ[:1])
fed(READ[1:7])
tally(0, 1)
end(0, 1, 0, 612)  # 7, then 1 + 1 + 1 + 1 + 600 and the 10
fed(READ[7:], ok(612))
tally(1, 1)
for byte in READ[:7]:
    fed(bytes([byte]))
fed(READ[7:] + b"\r", ok(620))
tally(2, 1)
fed(b"\r", dropped(628))
tally(2, 1, 1)

# ---- cleared and set: the numbers go on from there; nothing else clears them

put()
tally()
end(2, 1, 1, 629)  # the receiver's own totals are not the tally's
fed(b"\n", refused(629))
tally(0, 1)
put(7, 8, 9)
tally(7, 8, 9)
receiver()
tally(7, 8, 9)
fed(READ + WRONG + b"\r\r\n", ok(0), refused(8), dropped(10), refused(11))
tally(8, 10, 10)
new()  # a fresh desk
say("bench.new 15", "ok")
say("scan.new 5", "ok")
say("varia.new 9 16", "ok")
end(1, 2, 1)
tally(8, 10, 10)
bad(
    "tally", "tally.", "tally.new", "tally.clear", "tally.set", "tally.set 0", "tally.set 0 0", "tally.set 0 0 ", "tally.set 0 0 0 0",
    "tally.set 0 0 0 ", "tally.set  0 0 0", "tally.set 0  0 0", "tally.set - 0 0", "tally.set 0 0 -", "tally.set -1 0 0", "tally.set +1 0 0",
    "tally.set 0 0x1 0", "tally.set 4294967296 0 0", "tally.set 0 4294967296 0", "tally.set 0 0 4294967296", "tally.set 0 18446744073709551616 0",
    "tally.get ", "tally.get 0", "Tally.get", "tally.Set 0 0 0", " tally.get",
)
tally(8, 10, 10)
put(FULL, FULL, FULL)
tally(FULL, FULL, FULL)
put("0000000001", "00", "004294967295")
tally(1, 0, FULL)
put()
tally()

# ---- 76 on both sides, for each number: the others at 0, and full

for others in (0, FULL):
    receiver()
    put(FULL - 2, others, others)
    fed(READ, ok(0))
    tally(FULL - 1, others, others)
    fed(READ, ok(8))
    tally(FULL, others, others)
    for _ in range(2):
        stopped(76, READ)
        tally(FULL, others, others)
        end(2, 0, 0)
    put(FULL - 1, others, others)
    fed(READ, ok(16))
    end(3, 0, 0)

    receiver()
    put(others, FULL - 2, others)
    fed(WRONG, refused(0))
    fed(WRONG, refused(2))
    tally(others, FULL, others)
    for frame in (WRONG, *OTHERS):  # whatever number a frame is refused with
        stopped(76, frame)
        tally(others, FULL, others)
    end(0, 2, 0)
    put(others, 0, others)
    fed(WRONG, refused(4))
    tally(others, 1, others)

    receiver()
    put(others, others, FULL - 2)
    fed(DROP, dropped(0))
    fed(b"\r", dropped(1))
    tally(others, others, FULL)
    for chunk in (b"\r", b"A\r", DROP, b"\r" + READ):
        stopped(76, chunk)
        tally(others, others, FULL)
        end(0, 0, 2, 2)  # the frame that would have been dropped is still open
    put(others, others, 0)
    fed(b"\r", dropped(2))
    tally(others, others, 1)
    end(0, 0, 3, 3)

# ---- one number full: lines of the other two go on

receiver()
put(FULL, 0, 0)
fed(WRONG + DROP, refused(0), dropped(2))
tally(FULL, 1, 1)
stopped(76, READ, 1, dropped(3))  # its 13 drops the open one, and the rest of it is left
tally(FULL, 1, 2)
end(0, 1, 2, 4)
stopped(76, READ[1:])
fed(b"\r", dropped(4))
stopped(76, READ[1:])
put()
fed(READ[1:], ok(5))
tally(1)
put(0, FULL, 0)
fed(READ + DROP, ok(13), dropped(21))
tally(1, FULL, 1)
stopped(76, b"\n")
fed(READ, dropped(22), ok(23))
tally(2, FULL, 2)
put(0, 0, FULL)
fed(READ + WRONG + READ, ok(31), refused(39), ok(41))
tally(2, 1, FULL)
end(5, 2, 5)

# ---- in the middle of a chunk: the steps before it stay done, and of its own step no byte is taken

receiver()
put(0, FULL - 1, 0)
stopped(76, WRONG + b"AB" + WRONG + READ, 2, refused(0))
tally(0, FULL)
end(0, 1, 0)  # neither the A nor the second 13
stopped(76, b"AB" + WRONG + READ)  # what is left, once more
tally(0, FULL)
put()
fed(b"AB" + WRONG + READ, refused(4), ok(6))  # and with a tally that has room
tally(1, 1)
end(1, 2, 0)
receiver(100)
put(FULL - 2, 5, FULL)
stopped(76, READ + b"\n" + READ + WRONG + READ + WRONG, 19, ok(100), ok(109), refused(117))
tally(FULL, 6, FULL)
end(2, 1, 0)
fed(WRONG, refused(119))  # another chunk instead
fed(b"\rAA")
stopped(76, b"A\r\n")  # which would drop the open one
end(2, 2, 0, 121)
fed(b"A\n", refused(121))  # 13, 3 bytes, 10
tally(FULL, 8, FULL)
# the frame began in a chunk before
receiver()
put(FULL, FULL, FULL)
fed(READ[:3])
fed(READ[3:6])
stopped(76, READ[6:])
stopped(76, READ[6:] + READ)
end(0, 0, 0, 0)
fed(READ[6:7])
stopped(76, READ[7:])
stopped(76, b"\r")
tally(FULL, FULL, FULL)
put(FULL - 1, FULL, FULL)
stopped(76, READ[7:] + READ, 1, ok(0))
tally(FULL, FULL, FULL)
fed(b"")
put(0, FULL, FULL)
fed(READ, ok(8))
tally(1, FULL, FULL)
# over 494 bytes, and a runaway that is dropped
receiver()
put(0, FULL, FULL)
fed(b"\r" + b"A" * 300)
fed(b"A" * 300)
stopped(76, b"\n")
stopped(76, b"\r")
put(0, FULL, 0)
fed(b"\r", dropped(0))
fed(b"\x5e" * 493)
stopped(76, b"\n" + READ)
put()
fed(b"\n" + READ, refused(601, "5"), ok(1096))  # 601, then 493 and the 10
tally(1, 1)
end(1, 1, 1)
# many lines of one chunk: 500 of 1000 have room
receiver()
put(3, FULL - 500, 0)
stopped(76, WRONG * 1000, 1000, *(refused(2 * n) for n in range(500)))
tally(3, FULL)
stopped(76, WRONG * 500)
put()
fed(WRONG * 500, *(refused(1000 + 2 * n) for n in range(500)))
tally(0, 500)
end(0, 1000, 0)

# ---- a chunk without a line at full numbers: never 76

receiver()
put(FULL, FULL, FULL)
for chunk in (b"", b"A" * 4000, b"\n", b"\n" * 9, b"\x5e", b"", b"\r", b"", b"A", b"\x5e" * 700, b""):
    fed(chunk)
tally(FULL, FULL, FULL)
end(0, 0, 0, 4011)
stopped(76, b"\n")
stopped(76, b"\r")
stopped(76, b"A\n")
fed(b"A")
end(0, 0, 0, 4011)
tally(FULL, FULL, FULL)

# ---- 60 and 76 at once: 76 by the line of the chunk's first step, else 60; neither takes anything

ROOM2 = LARGEST - 2  # two more bytes have a place
for frame, full, line in (
    (READ, (FULL, 0, 0), ok), (WRONG, (0, FULL, 0), refused), (DROP, (0, 0, FULL), dropped),
):
    others = tuple(FULL - number for number in full)
    room = LARGEST - len(frame)
    receiver(room)
    put(*full)
    stopped(76, frame)  # it has a place
    stopped(76, frame + b"A")  # it has none
    stopped(76, b"A" + frame)  # nor has its line's end
    stopped(76, b"AAA" + frame + b"A" * 20)
    tally(*full)
    put(*others)
    stopped(60, frame + b"A")
    stopped(60, b"A" + frame)
    stopped(60, b"AAA" + frame + b"A" * 20)
    tally(*others)
    put(FULL, FULL, FULL)
    stopped(76, frame + b"A")
    stopped(60, b"A" * (len(frame) + 1))  # no line
    stopped(60, b"\n" * 600)
    stopped(60, b"\r" + b"A" * len(frame))
    tally(FULL, FULL, FULL)
    fed(b"")
    end(0, 0, 0)
    put(*others)
    fed(frame, line(room))  # up to the last place
    tally(*(1 if number == 0 else FULL for number in others))
    fed(b"")
# the first step counts, not a later one
receiver(ROOM2)
put(0, 0, FULL)
stopped(60, WRONG + DROP)
put(0, FULL, 0)
stopped(76, WRONG + DROP)
put(FULL, 0, 0)
stopped(60, WRONG + READ)
put(0, FULL, 0)
stopped(60, READ + WRONG)
put(FULL, 0, 0)
stopped(76, READ + WRONG)
stopped(60, DROP + b"\n")
stopped(60, b"\r" + READ)  # which drops the first
put(FULL, 0, FULL)
stopped(76, b"\r" + READ)
tally(FULL, 0, FULL)
end(0, 0, 0)
# at the very last place, with a frame open from before
receiver(LARGEST - 1)
put(FULL, FULL, FULL)
fed(b"\r")
fed(b"")
end(0, 0, 0, 18446744073709551614)
stopped(76, b"\n")  # no byte has a place, and its line comes first
stopped(76, b"\r")
stopped(76, b"AA\n")
stopped(60, b"A")
put()
stopped(60, b"\n")
stopped(60, b"\r")
stopped(60, b"A")
put(FULL, 0, FULL)
stopped(60, b"\n")
stopped(76, b"\r")
put(0, FULL, 0)
stopped(76, b"\n")
stopped(60, b"\r")
tally(0, FULL)
end(0, 0, 0, 18446744073709551614)
receiver(LARGEST)
put(FULL, FULL, FULL)
fed(b"")
stopped(76, WRONG)
stopped(76, READ)
stopped(76, DROP)
stopped(60, b"\n")
stopped(60, b"\r")  # opens a frame, and ends no line
put()
for chunk in (WRONG, READ, DROP, b"\n", b"\r", b"A"):
    stopped(60, chunk)
tally()
end(0, 0, 0)
# where both have room again, another receiver goes on with the same tally
put(1, FULL - 1, 2)
receiver(LARGEST - 3)
fed(WRONG, refused(18446744073709551612))
stopped(76, WRONG)
fed(b"A")
stopped(60, b"A")
receiver()
stopped(76, WRONG)
fed(READ, ok(0))
tally(2, FULL, 2)
end(1, 0, 0)

# ---- a night in which the tally is cleared wherever 76 comes: the lines and the totals are those of one reading

NIGHT = READ + WRONG + DROP + READ[1:] + b"A" + WRONG + READ + b"\r" + READ
# places: 0 read, 8 refused, 10 dropped, 11 read (its 13 is DROP's second), 20 refused, 22 read, 30 dropped, 31 read
assert len(NIGHT) == 39
LINES = (ok(0), refused(8), dropped(10), ok(11), refused(20), ok(22), dropped(30), ok(31))
receiver()
put()
fed(NIGHT, *LINES)
tally(4, 2, 2)
end(4, 2, 2)
receiver()
put(FULL - 1, FULL - 1, FULL - 1)
stopped(76, NIGHT, 12, *LINES[:3])  # the second that is read; its 13 has dropped the one before
tally(FULL, FULL, FULL)
put()
fed(NIGHT[12:], *LINES[3:])
tally(3, 1, 1)
end(4, 2, 2)
receiver()
put(FULL - 3, FULL - 1, FULL)
stopped(76, NIGHT, 10, *LINES[:2])  # the first that is dropped; its 13 at 10 isn't taken
put(FULL - 2, FULL, FULL - 2)
stopped(76, NIGHT[10:], 9, *LINES[2:4])  # the second that is refused; neither is the A before it
tally(FULL - 1, FULL, FULL - 1)
put(FULL - 1, 0, 0)
stopped(76, NIGHT[19:], 13, *LINES[4:7])  # the last one, whose 13 is taken
end(3, 2, 2, 31)
put()
fed(NIGHT[31:32], dropped(31))  # that was not what was left: its 13 is taken already
fed(NIGHT[32:], ok(32))
tally(1, 0, 1)
end(4, 2, 3)

printed()
